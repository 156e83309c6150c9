//! Holds the times of a load, a chunk's part, a total, a write and a close by rank, of a container in two files with 32 tasks in each that each
//! filled 32 chunks.

use crate::rounds::{compare, time};
use comparison::{loaded_of, session_of};
use lapurmihi::raw::{self, pair as library};
use reference::pair;
use std::hint::black_box;

const TASKS: u64 = 32;
const K: u32 = 32;
const SIZE: u64 = 4_096;
/// Calls in a turn.
const CALLS: usize = 1_000;
/// The bytes of a write that is timed.
const WRITTEN: usize = 64;

/// Both files: even ranks in file 0, odd ones in file 1.
struct Night {
    ranks: [Vec<u64>; 2],
    sizes: Vec<u64>,
    images: [Vec<u8>; 2],
    tables: [Vec<i64>; 2],
}

pub fn all() {
    let mut night = Night::new();
    night.write();
    let sessions = night.filled();
    night.close(sessions);
    night.load();
    night.reads();
}

impl Night {
    fn new() -> Night {
        let ranks = [0, 1].map(|file| (0..TASKS).map(|task| 2 * task + file).collect::<Vec<u64>>());
        let sizes = vec![SIZE; TASKS as usize];
        let night = Night { ranks, sizes, images: [vec![], vec![]], tables: [vec![], vec![]] };
        let needs = pair::needs(&night.plans()).expect("the plans are good");
        let images = needs.map(|needs| vec![0; needs.image as usize]);
        let tables = needs.map(|needs| vec![0; needs.cells as usize]);
        Night { images, tables, ..night }
    }

    fn plans(&self) -> [reference::Plan<'_>; 2] {
        [0, 1].map(|file| reference::Plan {
            order: 0,
            version: 1,
            patch: 7,
            format: 3,
            blocksize: 4_096,
            ranks: &self.ranks[file],
            sizes: &self.sizes,
            prefix: b"",
            k: K,
        })
    }

    fn opened(&mut self) -> [reference::Session; 2] {
        let (mut images, mut tables) = (self.images.clone(), self.tables.clone());
        let ([image0, image1], [table0, table1]) = (&mut images, &mut tables);
        let opened = pair::open(&self.plans(), [image0, image1], [table0, table1]);
        (self.images, self.tables) = (images, tables);
        opened.expect("the sessions open")
    }

    /// Writes to all ranks by turns, of sessions just opened.
    fn write(&mut self) {
        let bytes = [1; WRITTEN];
        let mut theirs = self.opened();
        let [mut first, mut second] = [session_of(&theirs[0]), session_of(&theirs[1])];
        let (mut copies, mut cells) = (self.images.clone(), self.tables.clone());
        let Night { images, tables, .. } = self;
        let ours = || {
            time(CALLS, |i| {
                let ([image0, image1], [table0, table1]) = (&mut *images, &mut *tables);
                let rank = i as u64 % (2 * TASKS);
                black_box(library::write(
                    [&mut first, &mut second],
                    [image0, image1],
                    [table0, table1],
                    rank,
                    black_box(&bytes),
                ));
            })
        };
        let other = || {
            time(CALLS, |i| {
                let ([image0, image1], [table0, table1]) = (&mut copies, &mut cells);
                let rank = i as u64 % (2 * TASKS);
                let written = pair::write(
                    &mut theirs,
                    [image0, image1],
                    [table0, table1],
                    rank,
                    black_box(&bytes),
                );
                let _ = black_box(written);
            })
        };
        compare("pair: write 64 B, 2 x 32 tasks", ours, other, None);
    }

    /// Sessions in which every task has filled every chunk.
    fn filled(&mut self) -> [reference::Session; 2] {
        let mut sessions = self.opened();
        let bytes = vec![1; SIZE as usize];
        for i in 0..2 * TASKS * u64::from(K) {
            let ([image0, image1], [table0, table1]) = (&mut self.images, &mut self.tables);
            let (images, tables) = ([&mut image0[..], image1], [&mut table0[..], table1]);
            pair::write(&mut sessions, images, tables, i % (2 * TASKS), &bytes)
                .expect("it has room");
        }
        sessions
    }

    /// Closes, each of which finds the closed marks unset again.
    fn close(&mut self, mut theirs: [reference::Session; 2]) {
        let [mut first, mut second] = [session_of(&theirs[0]), session_of(&theirs[1])];
        let mut copies = self.images.clone();
        let Night { images, tables, .. } = self;
        let lent = [&tables[0][..], &tables[1][..]];
        let ours = || {
            time(CALLS, |_| {
                (first.numbers.closed, second.numbers.closed) = (0, 0);
                let [image0, image1] = &mut *images;
                black_box(library::close([&mut first, &mut second], [image0, image1], lent));
            })
        };
        let other = || {
            time(CALLS, |_| {
                (theirs[0].head.closed, theirs[1].head.closed) = (0, 0);
                let [image0, image1] = &mut copies;
                let _ = black_box(pair::close(&mut theirs, [image0, image1], lent));
            })
        };
        compare("pair: close, 2 x 32 tasks", ours, other, None);
        assert!(*images == copies, "both images agree");
    }

    fn load(&mut self) {
        let mut cells = self.tables.clone();
        let Night { images, tables, .. } = self;
        let lent = [&images[0][..], &images[1][..]];
        let ours = || {
            time(CALLS, |_| {
                let [table0, table1] = &mut *tables;
                black_box(library::load(black_box(lent), [table0, table1]));
            })
        };
        let other = || {
            time(CALLS, |_| {
                let [table0, table1] = &mut cells;
                let _ = black_box(pair::load(black_box(lent), [table0, table1]));
            })
        };
        compare("pair: load, 2 x 32 tasks", ours, other, None);
        assert!(*tables == cells, "both tables agree");
    }

    fn reads(&mut self) {
        let Night { images, tables, .. } = self;
        let lent = [&images[0][..], &images[1][..]];
        let [table0, table1] = &mut *tables;
        let loaded = pair::load(lent, [table0, table1]).expect("it is a pair");
        let cells = [&tables[0][..], &tables[1][..]];
        let records: [raw::Loaded; 2] = [loaded_of(&loaded[0]), loaded_of(&loaded[1])];
        let found = [&records[0], &records[1]];
        let rank = |i: usize| i as u64 % (2 * TASKS);
        let ours = || {
            time(CALLS, |i| {
                let part = library::chunk(black_box(found), lent, cells, rank(i), 3);
                assert_eq!(black_box(part).refusal, 0);
            })
        };
        let other = || {
            time(CALLS, |i| {
                let part = pair::chunk(black_box(&loaded), lent, cells, rank(i), 3);
                assert!(black_box(part).is_ok());
            })
        };
        compare("pair: chunk, 2 x 32 tasks", ours, other, None);
        let ours = || {
            time(CALLS, |i| {
                black_box(library::total(black_box(found), lent, cells, rank(i)));
            })
        };
        let other = || {
            time(CALLS, |i| {
                let _ = black_box(pair::total(black_box(&loaded), lent, cells, rank(i)));
            })
        };
        compare("pair: total, 2 x 32 tasks", ours, other, None);
    }
}
