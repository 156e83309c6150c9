//! Holds the pairs of faults of every entry, of which some are run beside each session.

use crate::damaged::{self, Damaged};
use crate::drawn;
use crate::memory::{random_cells, Memory};
use crate::plan::Plan;
use crate::requests::{Ask, Entry, Request, OF_LOADED, OF_SESSION};
use crate::same::same;
use crate::sizes::{self, Asked};
use crate::turns::Turns;
use reference::Rng;

/// The pairs of an entry that takes a record, and the call of it.
type OfRecord = (Turns<Request>, Ask);

pub struct Pairs {
    chunk_size: Turns<Asked>,
    opening: Turns<Plan>,
    session: [OfRecord; OF_SESSION.len()],
    load: Turns<Damaged>,
    loaded: [OfRecord; OF_LOADED.len()],
}

impl Pairs {
    /// None has come yet.
    pub fn new() -> Pairs {
        let of_record = |(name, tests, ask): Entry| (Turns::new(name, tests), ask);
        let load = Turns::new("load", &damaged::TESTS).and(damaged::PLACE, damaged::RULE);
        Pairs {
            chunk_size: Turns::new("chunk size", &sizes::TESTS),
            opening: Turns::new("opening", &drawn::TESTS),
            session: OF_SESSION.map(of_record),
            load: damaged::WITHIN.into_iter().fold(load, |load, test| load.and(test, test)),
            loaded: OF_LOADED.map(of_record),
        }
    }

    /// What a chunk holds.
    pub fn chunk_size(&mut self, rng: &mut Rng) -> Result<(), String> {
        self.chunk_size.run(&Asked::sound(rng), rng, |asked, _| Ok(asked.make()?.refusal))
    }

    /// An opening.
    pub fn opening(&mut self, rng: &mut Rng) -> Result<(), String> {
        self.opening.run(&drawn::sound(rng), rng, |plan, rng| Ok(plan.open(rng)?.0.refusal))
    }

    /// A call of each entry that takes a session, on copies of an open one.
    pub fn session(&mut self, open: &Memory, plan: &Plan, rng: &mut Rng) -> Result<(), String> {
        let Some(request) = Request::of_session(open, plan, rng) else { return Ok(()) };
        for (turns, ask) in &mut self.session {
            turns.run(&request, rng, |request, rng| request.make(*ask, rng))?;
        }
        Ok(())
    }

    /// A load of a closed session's container, and a call of each entry that takes it loaded.
    pub fn container(&mut self, closed: &Memory, length: u64, rng: &mut Rng) -> Result<(), String> {
        let Some(sound) = Damaged::sound(closed, length) else { return Ok(()) };
        let (number, loaded) = sound.load(vec![0; sound.cells])?;
        same("the load of a closed container", number, 0)?;
        self.load.run(&sound, rng, |damaged, rng| {
            Ok(damaged.load(random_cells(damaged.cells, rng))?.0)
        })?;
        let flipped = sound.flipped(rng);
        flipped.load(random_cells(flipped.cells, rng))?;
        let request = Request::of_loaded(loaded, rng);
        for (turns, ask) in &mut self.loaded {
            turns.run(&request, rng, |request, rng| request.make(*ask, rng))?;
        }
        Ok(())
    }

    /// The pairs that never came.
    pub fn missing(&self) -> Vec<String> {
        self.times().filter(|&(_, times)| times == 0).map(|(name, _)| name).collect()
    }

    /// How many pairs there are and how often they came, in words.
    pub fn line(&self) -> String {
        let least = self.times().map(|(_, times)| times).min().unwrap_or(0);
        format!("{} pairs of faults, each at least {least} times", self.times().count())
    }

    fn times(&self) -> impl Iterator<Item = (String, u64)> + '_ {
        let of_record =
            self.session.iter().chain(&self.loaded).flat_map(|(turns, _)| turns.times());
        let alone = self.chunk_size.times().chain(self.opening.times()).chain(self.load.times());
        alone.chain(of_record)
    }
}
