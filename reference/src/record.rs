//! Holds the two kinds of record, each of one file, and the tests that every later call makes of them: 17, 18, 19 and 14.

use crate::demand;
use crate::layout::{blocksize_ok, capacity, format_ok, ranks_ok, sizes_ok, Layout};
use crate::layout::{IDLE_FORMAT, MAX_CHUNKS, MAX_TASKS};
use crate::Order;
use std::ops::RangeInclusive;

/// Which file of how many a call is for: nfiles and filenumber.
#[derive(Clone, Copy, Debug, PartialEq, Eq)]
pub(crate) struct Member {
    pub files: u32,
    pub file: u32,
}

/// A file that stands alone.
pub(crate) const SINGLE: Member = Member { files: 1, file: 0 };
/// The two files of a pair.
pub(crate) const PAIR: [Member; 2] = [Member { files: 2, file: 0 }, Member { files: 2, file: 1 }];

/// What both kinds of record hold; entries past n are not judged.
#[derive(Clone, Debug, PartialEq, Eq)]
pub struct Head {
    /// 0 little, 1 big.
    pub order: u32,
    pub version: i32,
    pub patch: i32,
    pub format: u32,
    pub blocksize: u32,
    pub n: u32,
    /// nfiles: 1, or 2 of a pair.
    pub files: u32,
    /// filenumber, counted from 0.
    pub file: u32,
    pub ranks: [u64; MAX_TASKS],
    pub sizes: [u64; MAX_TASKS],
    pub counts: [u64; MAX_TASKS],
    /// 0 unset, anything else closed.
    pub closed: u32,
}

/// The record of a session.
#[derive(Clone, Debug, PartialEq, Eq)]
pub struct Session {
    pub head: Head,
    pub k: u32,
}

/// The record of a load.
#[derive(Clone, Debug, PartialEq, Eq)]
pub struct Loaded {
    pub head: Head,
    pub maxchunks: u32,
}

impl Head {
    /// All zeros but for the closed mark, which stands for a refused opening or load.
    pub fn refused() -> Head {
        Head {
            order: 0,
            version: 0,
            patch: 0,
            format: 0,
            blocksize: 0,
            n: 0,
            files: 0,
            file: 0,
            ranks: [0; MAX_TASKS],
            sizes: [0; MAX_TASKS],
            counts: [0; MAX_TASKS],
            closed: 1,
        }
    }

    /// The number of tasks as an index bound, at most as many as a file may have.
    pub(crate) fn tasks(&self) -> usize {
        (self.n as usize).min(MAX_TASKS)
    }

    /// The ranks of its tasks.
    pub(crate) fn ranks(&self) -> &[u64] {
        &self.ranks[..self.tasks()]
    }

    /// The byte order of a sound record.
    pub(crate) fn byte_order(&self) -> Order {
        Order::from_number(self.order).unwrap_or(Order::Little)
    }

    pub(crate) fn layout(&self) -> Layout<'_> {
        Layout::new(self.blocksize, &self.sizes[..self.tasks()])
    }

    /// What a chunk of a task, counted from 0, holds.
    pub fn capacity(&self, task: usize) -> u64 {
        capacity(self.blocksize, self.sizes[task])
    }

    /// The greatest count.
    pub(crate) fn greatest(&self) -> u64 {
        self.counts[..self.tasks()].iter().copied().max().unwrap_or(0)
    }

    /// The least that a count may be: in version 4 it is 1.
    pub(crate) fn least_count(&self) -> u64 {
        u64::from(self.format == IDLE_FORMAT)
    }

    /// META2's rule for the value of a chunk, counted from 1, of a task, counted from 0: what it may be.
    pub(crate) fn values(&self, chunk: u64, task: usize) -> RangeInclusive<i64> {
        if chunk <= self.counts[task] {
            0..=self.capacity(task) as i64
        } else {
            -1..=-1
        }
    }

    /// Test 14: the index of a task counted from 1.
    pub(crate) fn task(&self, task: u64) -> Result<usize, u32> {
        demand((1..=u64::from(self.n)).contains(&task), 14)?;
        Ok(task as usize - 1)
    }

    /// What test 17 asks of both kinds of record in a call that is for this file of so many.
    fn sound(&self, member: Member) -> bool {
        let tasks = self.tasks();
        self.closed == 0
            && Member { files: self.files, file: self.file } == member
            && Order::from_number(self.order).is_some()
            && format_ok(self.format)
            && blocksize_ok(self.blocksize)
            && (1..=MAX_TASKS as u32).contains(&self.n)
            && ranks_ok(self.ranks())
            && sizes_ok(&self.sizes[..tasks])
            && self.counts[..tasks].iter().all(|&count| count >= self.least_count())
    }

    /// Test 19 of as many cells as the record speaks of.
    fn judge_cells(&self, cells: &[i64]) -> Result<(), u32> {
        let tasks = self.tasks();
        let right = |(i, cell)| self.values((i / tasks) as u64 + 1, i % tasks).contains(cell);
        demand(cells.iter().enumerate().all(right), 19)
    }
}

impl Session {
    /// What a refused opening hands back.
    pub fn refused() -> Session {
        Session { head: Head::refused(), k: 0 }
    }

    /// Where META2 ends behind K blocks, which is all that the image of a single file needs.
    pub(crate) fn end(&self) -> u64 {
        self.head.layout().end(u64::from(self.k))
    }

    /// The cells that the table needs.
    pub(crate) fn cells(&self) -> usize {
        self.head.tasks() * self.k as usize
    }

    /// What test 17 asks.
    pub(crate) fn sound(&self, member: Member) -> bool {
        let planned = (1..=MAX_CHUNKS).contains(&self.k);
        self.head.sound(member) && planned && self.head.greatest() <= u64::from(self.k)
    }

    /// Test 18 of a sound record, with room for so many bytes behind META2 of K blocks.
    pub(crate) fn judge_lengths(&self, room: u64, image: &[u8], table: &[i64]) -> Result<(), u32> {
        demand(image.len() as u64 >= self.end() + room && table.len() >= self.cells(), 18)
    }

    /// Tests 18 and 19 of a sound record, with room for so many bytes behind META2 of K blocks.
    pub(crate) fn judge_lent(&self, room: u64, image: &[u8], table: &[i64]) -> Result<(), u32> {
        self.judge_lengths(room, image, table)?;
        self.head.judge_cells(&table[..self.cells()])
    }

    /// Tests 17, 18 and 19 of a single file.
    pub(crate) fn judge(&self, image: &[u8], table: &[i64]) -> Result<(), u32> {
        demand(self.sound(SINGLE), 17)?;
        self.judge_lent(0, image, table)
    }
}

impl Loaded {
    /// What a refused load hands back.
    pub fn refused() -> Loaded {
        Loaded { head: Head::refused(), maxchunks: 0 }
    }

    /// Where META2 ends.
    pub(crate) fn end(&self) -> u64 {
        self.head.layout().end(u64::from(self.maxchunks))
    }

    /// The values of META2, and the cells that the table needs.
    pub(crate) fn cells(&self) -> usize {
        self.head.tasks() * self.maxchunks as usize
    }

    /// What test 17 asks.
    pub(crate) fn sound(&self, member: Member) -> bool {
        let bounded = self.maxchunks <= MAX_CHUNKS;
        let reached = self.head.greatest() == u64::from(self.maxchunks);
        self.head.sound(member) && bounded && reached
    }

    /// Tests 18 and 19 of a sound record.
    pub(crate) fn judge_lent(&self, image: &[u8], table: &[i64]) -> Result<(), u32> {
        demand(image.len() as u64 >= self.end() && table.len() >= self.cells(), 18)?;
        self.head.judge_cells(&table[..self.cells()])
    }

    /// Tests 17, 18 and 19 of a single file.
    pub(crate) fn judge(&self, image: &[u8], table: &[i64]) -> Result<(), u32> {
        demand(self.sound(SINGLE), 17)?;
        self.judge_lent(image, table)
    }
}
