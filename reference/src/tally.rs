//! Holds the tally of demand 3, of a single file and of a pair, fed only the tasks, their K, chunk sizes and starts, and of each write task and
//! length.

use std::collections::BTreeMap;

/// What the tally of a single file answers: the number, and where the bytes of an accepted write stand.
#[derive(Clone, Copy, Debug, PartialEq, Eq)]
pub struct Answer {
    pub number: u32,
    /// The offset of the first byte; none for an empty or refused write.
    pub offset: Option<u64>,
}

/// What the tally of a pair answers: the number, and in which file at which offset of it the bytes of an accepted write stand.
#[derive(Clone, Copy, Debug, PartialEq, Eq)]
pub struct PairAnswer {
    pub number: u32,
    /// File and offset of the first byte; none for an empty or refused write.
    pub place: Option<(u32, u64)>,
}

/// The tally of a single file: one line for each task.
#[derive(Clone, Debug)]
pub struct Tally {
    tasks: Vec<Line>,
}

/// What the tally of a pair is fed of a task at opening.
#[derive(Clone, Debug)]
pub struct PairTask {
    pub rank: u64,
    /// The file that holds its chunks.
    pub file: u32,
    /// The file's K.
    pub k: u32,
    /// Its chunk size, which is what its chunk holds.
    pub c: u64,
    /// The starts of its K chunks within the file.
    pub starts: Vec<u64>,
}

/// The tally of a pair: one line for each task, with its file, by global rank.
#[derive(Clone, Debug)]
pub struct PairTally {
    tasks: BTreeMap<u64, (u32, Line)>,
}

#[derive(Clone, Debug)]
struct Line {
    k: u64,
    c: u64,
    starts: Vec<u64>,
    u: u64,
    w: u64,
}

impl Tally {
    /// A tally at opening; each task gives its chunk size, which is what its chunk holds, and its K chunk starts, and n is their number.
    pub fn new(k: u32, tasks: impl IntoIterator<Item = (u64, Vec<u64>)>) -> Tally {
        Tally { tasks: tasks.into_iter().map(|(c, starts)| Line::new(k, c, starts)).collect() }
    }

    /// Counts one write of `length` bytes that names `task`, counted from 1.
    pub fn feed(&mut self, task: u64, length: u64) -> Answer {
        let index = task.checked_sub(1).and_then(|index| usize::try_from(index).ok());
        match index.and_then(|index| self.tasks.get_mut(index)) {
            Some(line) => line.feed(length),
            None => Answer { number: 14, offset: None },
        }
    }
}

impl PairTally {
    /// A tally at opening, of the tasks of both files in any order; no rank comes twice.
    pub fn new(tasks: impl IntoIterator<Item = PairTask>) -> PairTally {
        let line = |task: PairTask| {
            let PairTask { rank, file, k, c, starts } = task;
            (rank, (file, Line::new(k, c, starts)))
        };
        PairTally { tasks: tasks.into_iter().map(line).collect() }
    }

    /// Counts one write of `length` bytes that names a global rank, counted from 0.
    pub fn feed(&mut self, rank: u64, length: u64) -> PairAnswer {
        let Some((file, line)) = self.tasks.get_mut(&rank) else {
            return PairAnswer { number: 14, place: None };
        };
        let Answer { number, offset } = line.feed(length);
        PairAnswer { number, place: offset.map(|offset| (*file, offset)) }
    }
}

impl Line {
    /// At opening.
    fn new(k: u32, c: u64, starts: Vec<u64>) -> Line {
        Line { k: u64::from(k), c, starts, u: 0, w: 0 }
    }

    fn feed(&mut self, length: u64) -> Answer {
        if length == 0 {
            return Answer { number: 0, offset: None };
        }
        if length > self.c {
            return Answer { number: 15, offset: None };
        }
        if self.u >= 1 && length <= self.c - self.w {
            self.w += length;
        } else if self.u < self.k {
            self.u += 1;
            self.w = length;
        } else {
            return Answer { number: 16, offset: None };
        }
        let start = self.starts.get(self.u as usize - 1);
        Answer { number: 0, offset: start.map(|start| start.saturating_add(self.w - length)) }
    }
}
