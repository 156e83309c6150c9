//! Holds what a pair is opened with, and its two sessions over the memory lent to them.

use crate::refusal::accepted;
use crate::session::{held, length, Filled};
use crate::writer::Requests;
use crate::{raw, Needs, Plan, Refusal, Writer};
use std::fmt;

/// What both files of a pair are opened with: a plan for each. The ranks of both plans together have to be 0, 1 and so on, each once.
///
/// ```
/// use lapurmihi::{Needs, PairPlan, Plan, Refusal};
///
/// let first = Plan::new(512).blocks(3).task(2, 500).task(0, 600);
/// let second = Plan::new(512).blocks(2).task(1, 20);
/// let plan = PairPlan::new(first.clone(), second.clone());
/// assert_eq!(plan.needs(), Ok([Needs { image: 6236, cells: 6 }, Needs { image: 2584, cells: 2 }]));
/// assert_eq!(PairPlan::new(first, second.task(5, 20)).needs(), Err(Refusal::BadRank)); // where are 3 and 4?
/// ```
#[derive(Clone, Debug, PartialEq, Eq)]
pub struct PairPlan {
    plans: [Plan; 2],
}

impl PairPlan {
    /// A plan of two files.
    pub fn new(first: Plan, second: Plan) -> PairPlan {
        PairPlan { plans: [first, second] }
    }

    /// The images and the tables that [`open`](PairPlan::open) has to be lent, file 0's and file 1's.
    pub fn needs(&self) -> Result<[Needs; 2], Refusal> {
        let needed = raw::pair::needs(self.numbers(), self.ranks(), self.sizes(), self.prefixes());
        accepted(needed.refusal)?;
        Ok([
            Needs { image: length(needed.image0), cells: length(needed.cells0) },
            Needs { image: length(needed.image1), cells: length(needed.cells1) },
        ])
    }

    /// Opens both sessions over images and tables, which may be longer than needed. Lend images that are cleared, as to
    /// [`Plan::open`](crate::Plan::open).
    pub fn open<'a>(
        &self,
        images: [&'a mut [u8]; 2],
        tables: [&'a mut [i64]; 2],
    ) -> Result<PairSession<'a>, Refusal> {
        let ([image0, image1], [table0, table1]) = (images, tables);
        let opened = raw::pair::open(
            self.numbers(),
            self.ranks(),
            self.sizes(),
            self.prefixes(),
            [image0, image1],
            [table0, table1],
        );
        accepted(opened.refusal)?;
        Ok(PairSession {
            records: [opened.session0, opened.session1],
            images: [image0, image1],
            tables: [table0, table1],
            filled: [Filled::default(), Filled::default()],
        })
    }

    fn numbers(&self) -> [raw::Plan; 2] {
        [self.plans[0].numbers(), self.plans[1].numbers()]
    }

    fn ranks(&self) -> [&[u64]; 2] {
        [&self.plans[0].ranks, &self.plans[1].ranks]
    }

    fn sizes(&self) -> [&[u64]; 2] {
        [&self.plans[0].sizes, &self.plans[1].sizes]
    }

    fn prefixes(&self) -> [&[u8]; 2] {
        [&self.plans[0].prefix, &self.plans[1].prefix]
    }
}

/// The open sessions of a pair over lent memory. Dropped without a [`close`](PairSession::close), they leave no pair in the images.
pub struct PairSession<'a> {
    records: [raw::Session; 2],
    images: [&'a mut [u8]; 2],
    tables: [&'a mut [i64]; 2],
    filled: [Filled; 2],
}

impl<'a> PairSession<'a> {
    /// Writes bytes to the task that carries a rank, counted from 0, as [`Session::write`](crate::Session::write) does in the file that has it.
    pub fn write(&mut self, rank: u64, bytes: &[u8]) -> Result<(), Refusal> {
        let place = self.place(rank);
        let before = place.map(|(file, index)| self.records[file].counts[index]);
        let [record0, record1] = &mut self.records;
        let ([image0, image1], [table0, table1]) = (&mut self.images, &mut self.tables);
        let refusal =
            raw::pair::write([record0, record1], [image0, image1], [table0, table1], rank, bytes);
        accepted(refusal)?;
        let (file, index) = place?;
        let begun = Ok(self.records[file].counts[index]) != before;
        self.filled[file].add(index, begun, bytes.len());
        Ok(())
    }

    /// Closes both sessions, and hands back both files: each image as far as its file reaches. They belong together, and neither is a
    /// container by itself.
    pub fn close(self) -> Result<[&'a [u8]; 2], Refusal> {
        let PairSession { records: [mut record0, mut record1], images, tables, .. } = self;
        let ([image0, image1], [table0, table1]) = (images, tables);
        let closed =
            raw::pair::close([&mut record0, &mut record1], [image0, image1], [table0, table1]);
        accepted(closed.refusal)?;
        Ok([&image0[..closed.length0 as usize], &image1[..closed.length1 as usize]])
    }

    /// The number of tasks of both files, which is also that of their ranks.
    pub fn tasks(&self) -> usize {
        self.records.iter().map(|record| record.numbers.n as usize).sum()
    }

    /// The most bytes that each chunk of a rank's task holds, and so the most that a request may have.
    pub fn chunk_size(&self, rank: u64) -> Result<u64, Refusal> {
        let (file, _) = self.place(rank)?;
        held(self.requested_size(rank)?, self.records[file].numbers.blocksize)
    }

    /// The bytes that the plan requested for each chunk of a rank's task.
    pub fn requested_size(&self, rank: u64) -> Result<u64, Refusal> {
        let (file, index) = self.place(rank)?;
        Ok(self.records[file].sizes[index])
    }

    /// The chunks that a rank's task has begun; in [`Format::V4`](crate::Format::V4) at least 1, before anything is written too.
    pub fn chunks_begun(&self, rank: u64) -> Result<u64, Refusal> {
        let (file, index) = self.place(rank)?;
        Ok(self.records[file].counts[index])
    }

    /// The task that carries a rank, to write a stream to.
    pub fn writer(&mut self, rank: u64) -> Result<Writer<'_, 'a>, Refusal> {
        Writer::over(self, rank)
    }

    /// The file that has a rank, and the index of its task there.
    fn place(&self, rank: u64) -> Result<(usize, usize), Refusal> {
        let there = |file: usize| {
            let record = &self.records[file];
            let ranks = &record.ranks[..record.numbers.n as usize];
            ranks.iter().position(|&carried| carried == rank).map(|index| (file, index))
        };
        there(0).or_else(|| there(1)).ok_or(Refusal::NoTask)
    }
}

impl Requests for PairSession<'_> {
    fn request(&mut self, rank: u64, bytes: &[u8]) -> Result<(), Refusal> {
        self.write(rank, bytes)
    }

    fn holds(&self, rank: u64) -> Result<u64, Refusal> {
        self.chunk_size(rank)
    }

    fn filled(&self, rank: u64) -> Result<u64, Refusal> {
        let (file, index) = self.place(rank)?;
        Ok(self.filled[file].of(index))
    }
}

impl fmt::Debug for PairSession<'_> {
    fn fmt(&self, f: &mut fmt::Formatter<'_>) -> fmt::Result {
        let begun = |record: &raw::Session| record.counts[..record.numbers.n as usize].to_vec();
        f.debug_struct("PairSession")
            .field("tasks", &self.tasks())
            .field("chunks_begun", &self.records.each_ref().map(begun))
            .finish_non_exhaustive()
    }
}
