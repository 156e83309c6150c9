//! Holds the calls, one variant for each entry, and what is answered to them. What a call does stands in `library.rs` and in `second.rs`,
//! an arm for each variant.

use crate::plan::Plan;
use lapurmihi::raw::Fault;

/// A call with all that it is given beside its record and the lent memory; tasks and chunks are counted from 1.
#[derive(Clone, Debug)]
pub enum Call {
    ChunkSize { size: u64, blocksize: u32 },
    Needs(Plan),
    Open(Plan),
    Write { task: u64 },
    Close,
    Load,
    Chunk { task: u64, chunk: u64 },
    Total { task: u64 },
    Read { task: u64, place: u64 },
    Length,
    Prefix,
}

/// The refusal number or 0, and the numbers beside it, which are 0 where an entry has none or refuses; of a refused load, where it broke off.
#[derive(Clone, Copy, Debug, PartialEq, Eq)]
pub struct Answer {
    pub refusal: u32,
    pub numbers: [u64; 2],
    pub fault: Fault,
}

impl Answer {
    /// Of all but a refused load.
    pub fn new(refusal: u32, numbers: [u64; 2]) -> Answer {
        Answer { refusal, numbers, fault: Fault::default() }
    }

    /// Of a load.
    pub fn load(refusal: u32, fault: Fault) -> Answer {
        Answer { refusal, numbers: [0, 0], fault }
    }
}
