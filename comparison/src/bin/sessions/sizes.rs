//! Holds the calls that ask what a chunk holds, for sizes and blocksizes on both sides of their bounds, and the faults that they find.

use crate::call::{Answer, Call};
use crate::counts::Counts;
use crate::memory::{Lent, Memory};
use crate::plan::Plan;
use crate::same::same;
use crate::turns::{Input, Test};
use reference::Rng;

/// The greatest requested size.
const MOST: u64 = 1_073_741_824;

/// What is tested, in the order that an opening has for these two.
pub const TESTS: [Test<Asked>; 2] = [
    &[("blocksize", 5, |asked, _, rng| {
        asked.blocksize = rng.pick(&[0, 256, 511, 513, 768, 8_388_608, u32::MAX]);
    })],
    &[("size", 9, |asked, _, rng| asked.size = rng.pick(&[0, MOST + 1, u64::MAX]))],
];

/// A requested size and a blocksize.
#[derive(Clone)]
pub struct Asked {
    pub size: u64,
    pub blocksize: u32,
}

impl Input for Asked {
    fn any_task(&self, _: &mut Rng) -> usize {
        0
    }
}

impl Asked {
    /// Numbers without a fault, the size mostly at a multiple of the blocksize.
    pub fn sound(rng: &mut Rng) -> Asked {
        let blocksize = 512 << rng.below(14);
        let blocks = rng.below((MOST / u64::from(blocksize)) as usize + 1) as u64;
        let multiple = rng.pick(&[0, 1, blocks]) * u64::from(blocksize);
        let any = 1 + rng.below(MOST as usize) as u64;
        let size = rng.pick(&[multiple.saturating_sub(1), multiple, multiple + 1, any, MOST]);
        Asked { size: size.clamp(1, MOST), blocksize }
    }

    /// Makes the call on both sides, and gives the answer.
    pub fn make(&self) -> Result<Answer, String> {
        let Asked { size, blocksize } = *self;
        let mut nothing = Memory::new(Lent::all(vec![]), Lent::all(vec![]));
        nothing.call(&Call::ChunkSize { size, blocksize })
    }

    /// The same, and the answer has to be this one.
    pub fn answers(&self, refusal: u32, holds: u64) -> Result<Answer, String> {
        let (answer, Asked { size, blocksize }) = (self.make()?, self);
        let what = format!("what a chunk of size {size} and blocksize {blocksize} holds");
        same(&what, answer, Answer::new(refusal, [holds, 0]))?;
        Ok(answer)
    }
}

/// Asks with each number on both sides of its bounds, whatever the other is.
pub fn bounds() -> Result<(), String> {
    let around = |bound: u64| bound - 1..=bound + 1;
    let sizes = [1, 512, 4_194_304, MOST].into_iter().flat_map(around).chain([u64::MAX]);
    for blocksize in [0, 256, 511, 512, 513, 768, 4_194_304, 8_388_608, u32::MAX] {
        for size in sizes.clone() {
            let (refusal, holds) = match (blocksize, size) {
                (512 | 4_194_304, 1..=MOST) => (0, formula(size, blocksize)),
                (512 | 4_194_304, _) => (9, 0),
                _ => (5, 0),
            };
            Asked { size, blocksize }.answers(refusal, holds)?;
        }
    }
    Ok(())
}

/// What a chunk holds by the paper's formula, for numbers without a fault.
fn formula(size: u64, blocksize: u32) -> u64 {
    Plan::new(0, blocksize, &[size], 1).holds(0)
}

/// Asks with random numbers, whose answer follows from their faults and from the paper's formula.
pub fn ask(rng: &mut Rng, counts: &mut Counts) -> Result<(), String> {
    let mut asked = Asked::sound(rng);
    let (mut refusal, mut holds) = (0, formula(asked.size, asked.blocksize));
    for &fault in TESTS.iter().rev().copied().flatten() {
        if rng.one_in(4) {
            asked.put(fault, rng);
            (refusal, holds) = (fault.1, 0);
        }
    }
    counts.add(asked.answers(refusal, holds)?);
    Ok(())
}
