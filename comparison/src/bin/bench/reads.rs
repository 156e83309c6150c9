//! Holds the times of a load, of a chunk's part, of a total and of copying reads of two lengths, on a container of 64 tasks that each filled
//! 32 chunks; and of the first three on a container of one task with one chunk.

use crate::rounds::{chunks_in_words, compare, in_words, time};
use comparison::loaded_of;
use lapurmihi::raw::{self, Loaded, Plan};
use std::hint::black_box;

const SIZE: usize = 32_768;
/// Lengths of a copying read, each with the reads in a turn.
const READS: [(usize, usize); 2] = [(4_096, 2_000), (1 << 20, 64)];

/// A container whose tasks each filled so many chunks, with what loading it gave.
struct Night {
    tasks: usize,
    chunks: usize,
    image: Vec<u8>,
    table: Vec<i64>,
    ours: Loaded,
    theirs: reference::Loaded,
}

pub fn all() {
    let night = Night::new(64, 32);
    night.load(2_000);
    night.chunk(2_000);
    night.total(2_000);
    for (length, reads) in READS {
        night.read(length, reads);
    }
    let night = Night::new(1, 1);
    night.load(20_000);
    night.chunk(50_000);
    night.total(50_000);
}

impl Night {
    /// Fills a container through the reference, and loads it on both sides.
    fn new(tasks: usize, chunks: usize) -> Night {
        let (ranks, sizes): (Vec<u64>, _) = ((0..tasks as u64).collect(), vec![SIZE as u64; tasks]);
        let k = chunks as u32;
        let plan = Plan { order: 0, version: 1, patch: 7, format: 3, blocksize: 4_096, planned: k };
        let needed = raw::needs(plan, &ranks, &sizes, b"");
        let (mut image, mut table) =
            (vec![0; needed.image as usize], vec![0; needed.cells as usize]);
        let opened =
            reference::open(0, 1, 7, 3, 4_096, &ranks, &sizes, b"", k, &mut image, &mut table);
        let mut session = opened.expect("the session opens");
        for i in 0..tasks * chunks {
            let bytes: Vec<u8> = (0..SIZE).map(|at| (at * 31 + i) as u8).collect();
            let task = (i % tasks) as u64 + 1;
            let written = reference::write(&mut session, &mut image, &mut table, task, &bytes);
            written.expect("it has room");
        }
        reference::close(&mut session, &mut image, &table).expect("the session closes");

        let answer = raw::load(&image, &mut table);
        let theirs = reference::load(&image, &mut table).expect("the reference accepts it");
        assert_eq!((answer.refusal, answer.loaded), (0, loaded_of(&theirs)), "both sides agree");
        Night { tasks, chunks, image, table, ours: answer.loaded, theirs }
    }

    /// What a row about all of the container is called.
    fn row(&self, call: &str) -> String {
        format!("{call}, {}", chunks_in_words(self.tasks, self.chunks))
    }

    /// The task that a call of a turn is about, and its chunk: all of them by turns.
    fn at(&self, i: usize) -> (u64, u64) {
        ((i % self.tasks) as u64 + 1, (i / self.tasks % self.chunks) as u64 + 1)
    }

    fn load(&self, calls: usize) {
        let (image, mut left, mut right) = (&self.image, self.table.clone(), self.table.clone());
        let ours = || {
            time(calls, |_| {
                black_box(raw::load(black_box(image), &mut left));
            })
        };
        let theirs = || {
            time(calls, |_| {
                let _ = black_box(reference::load(black_box(image), &mut right));
            })
        };
        compare(&self.row("load"), ours, theirs, None);
        assert!(left == self.table && right == self.table, "both tables agree");
    }

    fn chunk(&self, calls: usize) {
        let Night { image, table, ours, theirs, .. } = self;
        for (task, chunk) in (0..self.tasks * self.chunks).map(|i| self.at(i)) {
            let part = raw::chunk(ours, image, table, task, chunk);
            let bytes = &image[part.start as usize..][..part.length as usize];
            let other = reference::chunk(theirs, image, table, task, chunk);
            assert_eq!((part.refusal, Ok(bytes)), (0, other), "both parts agree");
        }
        let ours = || {
            time(calls, |i| {
                let (task, chunk) = self.at(i);
                black_box(raw::chunk(black_box(ours), image, table, task, chunk));
            })
        };
        let theirs = || {
            time(calls, |i| {
                let (task, chunk) = self.at(i);
                let _ = black_box(reference::chunk(black_box(theirs), image, table, task, chunk));
            })
        };
        compare(&self.row("chunk"), ours, theirs, None);
    }

    fn total(&self, calls: usize) {
        let Night { image, table, ours, theirs, .. } = self;
        for (task, _) in (0..self.tasks).map(|i| self.at(i)) {
            let counted = raw::total(ours, image, table, task);
            let other = reference::total(theirs, image, table, task);
            assert_eq!((counted.refusal, Ok(counted.bytes)), (0, other), "both totals agree");
        }
        let ours = || {
            time(calls, |i| {
                black_box(raw::total(black_box(ours), image, table, self.at(i).0));
            })
        };
        let theirs = || {
            time(calls, |i| {
                let task = self.at(i).0;
                let _ = black_box(reference::total(black_box(theirs), image, table, task));
            })
        };
        compare(&self.row("total"), ours, theirs, None);
    }

    /// Reads from the start of each task's stream by turns; the plain copy takes the same bytes, chunk by chunk, from places that are known.
    fn read(&self, length: usize, reads: usize) {
        let Night { image, table, ours, theirs, .. } = self;
        let (mut left, mut right, mut plain) = (vec![0; length], vec![1; length], vec![2; length]);
        let places = self.places(length);
        for (i, parts) in places.iter().enumerate() {
            let task = self.at(i).0;
            let counted = raw::read(ours, image, table, task, 0, &mut left);
            let other = reference::read(theirs, image, table, task, 0, &mut right);
            assert_eq!((counted.refusal, Ok(counted.bytes)), (0, other), "both counts agree");
            copy(image, parts, &mut plain);
            assert!(left == right && left == plain, "all sides give the same bytes");
        }
        let our_turn = || {
            time(reads, |i| {
                let task = self.at(i).0;
                black_box(raw::read(black_box(ours), image, table, task, 0, &mut left));
            })
        };
        let their_turn = || {
            time(reads, |i| {
                let (loaded, task) = (black_box(theirs), self.at(i).0);
                let _ = black_box(reference::read(loaded, image, table, task, 0, &mut right));
            })
        };
        let mut plain_turn = || {
            time(reads, |i| copy(image, black_box(&places[i % self.tasks]), black_box(&mut plain)))
        };
        let what = format!("read {}, {} chunks a task", in_words(length), self.chunks);
        compare(&what, our_turn, their_turn, Some(&mut plain_turn));
    }

    /// Where the first so many bytes of each task's stream lie: the start of each chunk, and how many of its bytes they are.
    fn places(&self, length: usize) -> Vec<Vec<(usize, usize)>> {
        let place = |task: usize, chunk: usize| {
            let (task, number) = (task as u64 + 1, chunk as u64 + 1);
            let part = raw::chunk(&self.ours, &self.image, &self.table, task, number);
            (part.start as usize, SIZE.min(length - chunk * SIZE))
        };
        let chunks = length.div_ceil(SIZE);
        (0..self.tasks).map(|task| (0..chunks).map(|chunk| place(task, chunk)).collect()).collect()
    }
}

fn copy(image: &[u8], places: &[(usize, usize)], out: &mut [u8]) {
    let mut done = 0;
    for &(start, length) in places {
        out[done..done + length].copy_from_slice(&image[start..start + length]);
        done += length;
    }
}
