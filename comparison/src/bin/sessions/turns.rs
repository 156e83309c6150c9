//! Holds the pairs of faults of one entry: two in one input, of tests that follow one another, so that the earlier test has to answer, or of
//! one test, so that it has to say where the first of them is.

use crate::same::same;
use reference::Rng;

/// A fault: its name, the number that answers it, and how it is put in, at a task counted from 0 if it is one of a task's. A fault of a
/// later test that is there already stays one.
pub type Fault<I> = (&'static str, u32, fn(&mut I, usize, &mut Rng));

/// One test of an entry: the faults that it finds.
pub type Test<I> = &'static [Fault<I>];

/// What a call is given, into which faults can be put.
pub trait Input: Clone {
    /// The task, counted from 0, for a fault of one task.
    fn any_task(&self, rng: &mut Rng) -> usize;

    fn put(&mut self, (_, _, put): Fault<Self>, rng: &mut Rng) {
        let task = self.any_task(rng);
        put(self, task, rng);
    }
}

/// Two faults, of which the earlier test's number answers both together, and how often they came.
struct Pair<I> {
    earlier: Fault<I>,
    later: Fault<I>,
    times: u64,
}

/// The pairs of an entry.
pub struct Turns<I> {
    entry: &'static str,
    pairs: Vec<Pair<I>>,
}

impl<I: Input> Turns<I> {
    /// Takes an entry's tests in the paper's order, and pairs every fault of a test with every fault of the next one.
    pub fn new(entry: &'static str, tests: &[Test<I>]) -> Turns<I> {
        let none = Turns { entry, pairs: vec![] };
        tests.windows(2).fold(none, |turns, two| turns.and(two[0], two[1]))
    }

    /// Adds the pairs of two tests.
    pub fn and(mut self, earlier: Test<I>, later: Test<I>) -> Turns<I> {
        for &earlier in earlier {
            self.pairs.extend(later.iter().map(|&later| Pair { earlier, later, times: 0 }));
        }
        self
    }

    /// Makes the call with the pair that came least often: first with the later fault alone, which is so known to be one, then with both.
    pub fn run(
        &mut self,
        sound: &I,
        rng: &mut Rng,
        call: impl Fn(&I, &mut Rng) -> Result<u32, String>,
    ) -> Result<(), String> {
        let least = self.pairs.iter_mut().min_by_key(|pair| pair.times);
        let pair = least.ok_or("no pairs of faults")?;
        let mut input = sound.clone();
        for (which, fault) in [("the later alone", pair.later), ("both", pair.earlier)] {
            input.put(fault, rng);
            call(&input, rng)
                .and_then(|number| same("the answer by the paper's order", number, fault.1))
                .map_err(|difference| {
                    format!("{}, {which}, {difference}", pair.name(self.entry))
                })?;
        }
        pair.times += 1;
        Ok(())
    }

    /// The name of each pair with how often it came.
    pub fn times(&self) -> impl Iterator<Item = (String, u64)> + '_ {
        self.pairs.iter().map(|pair| (pair.name(self.entry), pair.times))
    }
}

impl<I> Pair<I> {
    fn name(&self, entry: &str) -> String {
        format!("{entry} with the faults {:?} and {:?}", self.earlier.0, self.later.0)
    }
}
