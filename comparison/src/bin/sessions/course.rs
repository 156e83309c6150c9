//! Holds one random session: its calls, the tally beside them, and the container that it leaves.

use crate::call::{Answer, Call};
use crate::counts::Counts;
use crate::memory::{Lent, Memory};
use crate::pairs::Pairs;
use crate::plan::Plan;
use crate::reload::{most_chunks, reload};
use crate::same::{same, same_list};
use crate::{drawn, hostile, sizes};
use reference::{Rng, Tally};

/// The most calls between opening and closing.
const CALLS: usize = 60;

/// A session in order so far, with the tally of its writes and the bytes accepted from each task.
struct Course {
    plan: Plan,
    memory: Memory,
    tally: Tally,
    accepted: Vec<Vec<u8>>,
}

/// Runs a session from its opening to the calls after its close, and beside it a call that asks what a chunk holds and calls with two faults.
pub fn run(rng: &mut Rng, counts: &mut Counts, pairs: &mut Pairs) -> Result<(), String> {
    sizes::ask(rng, counts)?;
    pairs.chunk_size(rng)?;
    pairs.opening(rng)?;
    let (plan, wanted) = drawn::plan(rng);
    let (answer, mut memory) = plan.open(rng)?;
    same("opening, the answer by the plan's faults", counts.add(answer).refusal, wanted)?;
    if wanted != 0 {
        return refused(&mut memory, counts);
    }
    let mut course = Course::new(plan, memory);
    for _ in 0..rng.below(CALLS + 1) {
        match rng.below(20) {
            0 | 1 => course.hostile(rng, counts)?,
            2 if rng.one_in(4) => course.closed_copy(rng, counts).map(drop)?,
            _ => course.write(rng, counts)?,
        }
    }
    pairs.session(&course.memory, &course.plan, rng)?;
    let (mut closed, length) = course.closed_copy(rng, counts)?;
    pairs.container(&closed, length, rng)?;
    refused(&mut closed, counts)
}

/// A write and a close of a closed session.
fn refused(memory: &mut Memory, counts: &mut Counts) -> Result<(), String> {
    memory.buffer = Lent::all(b"x".to_vec());
    for call in [Call::Write { task: 1 }, Call::Close] {
        let number = counts.add(memory.call(&call)?).refusal;
        same("a call of a closed session, the answer", number, 17)?;
    }
    Ok(())
}

impl Course {
    fn new(plan: Plan, memory: Memory) -> Course {
        let tasks = 0..plan.sizes.len();
        let accepted = vec![vec![]; tasks.len()];
        let tally = Tally::new(plan.k, tasks.map(|task| (plan.holds(task), plan.starts(task))));
        Course { plan, memory, tally, accepted }
    }

    /// A write that the tally counts too.
    fn write(&mut self, rng: &mut Rng, counts: &mut Counts) -> Result<(), String> {
        let (task, bytes) = self.request(rng);
        self.memory.buffer = Lent::all(bytes.clone());
        let number = counts.add(self.memory.call(&Call::Write { task })?).refusal;

        let told = self.tally.feed(task, bytes.len() as u64);
        let call = format!("write of {} bytes to task {task}", bytes.len());
        same(&format!("{call}, the answer by the tally"), number, told.number)?;
        if let Some(offset) = told.offset {
            let found = &self.memory.image.values[offset as usize..][..bytes.len()];
            same_list(&format!("{call}, the bytes at the tally's offset"), found, &bytes)?;
        }
        if number == 0 {
            self.accepted[task as usize - 1].extend(bytes);
        }
        Ok(())
    }

    /// A write or a close of a copy in which one thing is changed.
    fn hostile(&self, rng: &mut Rng, counts: &mut Counts) -> Result<(), String> {
        let mut copy = self.memory.clone();
        let wanted = hostile::change_session(&mut copy, &self.plan, rng);
        let (task, bytes) = self.request(rng);
        copy.buffer = Lent::all(bytes);
        let call = if rng.one_in(3) { Call::Close } else { Call::Write { task } };
        let number = counts.add(copy.call(&call)?).refusal;
        same("a call after one change, the answer", number, wanted.unwrap_or(number))
    }

    /// A copy that is closed, after its container was loaded and read, and the container's length.
    fn closed_copy(&self, rng: &mut Rng, counts: &mut Counts) -> Result<(Memory, u64), String> {
        let mut copy = self.memory.clone();
        let answer = counts.add(copy.call(&Call::Close)?);
        let length = self.plan.end(most_chunks(&copy.session));
        let wanted = Answer::new(0, [length, 0]);
        same("close, the answer by the paper", answer, wanted)?;
        reload(&copy, length, &self.accepted, rng, counts)
            .map_err(|difference| format!("the closed container, {difference}"))?;
        Ok((copy, length))
    }

    /// A task, mostly one that there is, and bytes of a length at a bound or of any. Bounds are the requested size, what a chunk holds, and
    /// what is left in the last chunk of either.
    fn request(&self, rng: &mut Rng) -> (u64, Vec<u8>) {
        let n = self.plan.sizes.len();
        let task = rng.below(n);
        let (size, holds) = (self.plan.sizes[task] as usize, self.plan.holds(task) as usize);
        let left = self.memory.left(task);
        let length = match rng.below(10) {
            0 => rng.pick(&[0, 1]),
            1 => near(size, rng),
            2 => near(holds, rng),
            3 | 4 => near(left, rng),
            5 => near(left.saturating_sub(holds - size), rng),
            6 => rng.below(holds + 1),
            _ => rng.below(holds / 4 + 1),
        };
        let none = rng.pick(&[0, n as u64 + 1, u64::MAX]);
        (if rng.one_in(20) { none } else { task as u64 + 1 }, rng.bytes(length))
    }
}

/// A length, or one more or less.
fn near(length: usize, rng: &mut Rng) -> usize {
    rng.pick(&[length.saturating_sub(1), length, length + 1])
}
