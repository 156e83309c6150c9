//! Holds where a load broke off in a file: the first field that is not as it has to be, what it says, and what it may say.

use std::ops::RangeInclusive;

/// What stands at a fault's place.
#[derive(Clone, Copy, Debug, PartialEq, Eq)]
#[repr(u32)]
pub enum Kind {
    Mark = 1,
    Order = 2,
    /// The end of the image, which comes too early.
    Image = 3,
    Format = 4,
    Blocksize = 5,
    Tasks = 6,
    Files = 7,
    FileNumber = 8,
    Rank = 9,
    Size = 10,
    Maxchunks = 11,
    Start = 12,
    /// The lent table, which is no part of the image.
    Table = 13,
    Count = 14,
    Value = 15,
    /// mapping_size, of a pair's file 0 as the next three are.
    MappingSize = 16,
    /// The file number of a mapping's entry.
    EntryFile = 17,
    /// The local rank of a mapping's entry.
    EntryTask = 18,
    /// The rank that the task carries which a mapping's entry names.
    EntryRank = 19,
}

/// A refused load: the number, and the first offending field with its offset, its number and the least and the most that it may be.
#[derive(Clone, Copy, Debug, PartialEq, Eq)]
pub struct Fault {
    pub refusal: u32,
    pub kind: Kind,
    pub place: u64,
    pub says: i64,
    pub least: i64,
    pub most: i64,
    /// Counted from 1; 0 where the field is of no task. A mapping's entry has its rank plus 1.
    pub task: u32,
    /// Counted from 1; 0 where the field is of no chunk.
    pub chunk: u32,
}

impl Fault {
    /// Of a field at a place that says a number out of its range, or against another rule for it.
    pub(crate) fn new(
        refusal: u32,
        kind: Kind,
        place: usize,
        says: i64,
        range: RangeInclusive<i64>,
    ) -> Fault {
        let (least, most) = range.into_inner();
        Fault { refusal, kind, place: place as u64, says, least, most, task: 0, chunk: 0 }
    }

    /// Of an image that is shorter than this.
    pub(crate) fn short(refusal: u32, image: &[u8], needed: u64) -> Fault {
        let needed = needed as i64;
        Fault::new(refusal, Kind::Image, image.len(), image.len() as i64, needed..=needed)
    }

    /// Passes if the rule holds, else refuses.
    pub(crate) fn unless(self, holds: bool) -> Result<(), Fault> {
        if holds {
            Ok(())
        } else {
            Err(self)
        }
    }

    /// The same, of a task, counted from 0.
    pub(crate) fn of_task(self, task: usize) -> Fault {
        Fault { task: task as u32 + 1, ..self }
    }

    /// The same, of a chunk, counted from 1.
    pub(crate) fn of_chunk(self, chunk: u64) -> Fault {
        Fault { chunk: chunk as u32, ..self }
    }
}
