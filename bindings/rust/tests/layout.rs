//! Holds the records to the library's layout: where their fields stand, and values that differ in every field go through it and come back.

mod common;

use common::{BEFORE, SAMPLE};
use lapurmihi::raw::{self, ByteCount, Closed, Fault, LoadAnswer, Loaded, LoadedNumbers, Needed};
use lapurmihi::raw::{Opened, Part, Plan, Session, SessionNumbers};
use lapurmihi::{BLOCKS, CELLS, TASKS};
use std::mem::{offset_of, size_of};

/// What a refused opening hands back.
const NO_SESSION: Session = Session {
    numbers: SessionNumbers {
        order: 0,
        version: 0,
        patch: 0,
        format: 0,
        blocksize: 0,
        n: 0,
        files: 0,
        file: 0,
        planned: 0,
        closed: 1,
    },
    ranks: [0; TASKS],
    sizes: [0; TASKS],
    counts: [0; TASKS],
};

/// What a refused load hands back.
const NOT_LOADED: Loaded = Loaded {
    numbers: LoadedNumbers {
        order: 0,
        version: 0,
        patch: 0,
        format: 0,
        blocksize: 0,
        n: 0,
        files: 0,
        file: 0,
        maxchunks: 0,
        closed: 1,
    },
    ranks: [0; TASKS],
    sizes: [0; TASKS],
    counts: [0; TASKS],
};

/// What a chunk of each task holds in the session below.
const HOLDS: usize = 1024;

/// The numbers of a plan with the most blocks: format 3 in little order, 4 in big.
fn plan(order: u32) -> Plan {
    let (version, patch, planned) = (-2, 0x1234_5678, BLOCKS as u32);
    Plan { order, version, patch, format: 3 + order, blocksize: 1024, planned }
}

/// The numbers of its session just opened, which is one of a single file.
fn session_numbers(order: u32) -> SessionNumbers {
    let Plan { version, patch, format, blocksize, planned, .. } = plan(order);
    let (n, files, file, closed) = (TASKS as u32, 1, 0, 0);
    SessionNumbers { order, version, patch, format, blocksize, n, files, file, planned, closed }
}

/// The record of it: the most tasks, each with a rank and a size of its own.
fn session(order: u32) -> Session {
    let numbers = session_numbers(order);
    let ranks = std::array::from_fn(|task| 1_000_000 + task as u64);
    let sizes = std::array::from_fn(|task| 1 + 3 * task as u64);
    let begun = u64::from(numbers.format - 3);
    Session { numbers, ranks, sizes, counts: [begun; TASKS] }
}

/// The numbers of the load of that session, in which a task begins every planned chunk.
fn loaded_numbers(numbers: SessionNumbers) -> LoadedNumbers {
    let SessionNumbers { order, version, patch, format, blocksize, n, files, file, .. } = numbers;
    let (maxchunks, closed) = (numbers.planned, 0);
    LoadedNumbers { order, version, patch, format, blocksize, n, files, file, maxchunks, closed }
}

/// The chunks that each task begins.
fn counts() -> [u64; TASKS] {
    std::array::from_fn(|task| task as u64 % (BLOCKS as u64 + 1))
}

/// An open session of such a record in which each task begins its chunks, all of them full.
fn filled(order: u32, image: &mut [u8], table: &mut [i64]) -> Session {
    let mut session = session(order);
    let Session { ranks, sizes, .. } = session;
    let opened = raw::open(plan(order), &ranks, &sizes, b"prefix", image, table);
    assert_eq!(opened, Opened { session, refusal: 0 });
    for (task, count) in counts().into_iter().enumerate() {
        for done in 1..=count {
            let bytes = vec![task as u8; HOLDS];
            let after = Session { counts: with(session.counts, task, done), ..session };
            assert_eq!(raw::write(&mut session, image, table, task as u64 + 1, &bytes), 0);
            assert_eq!(session, after);
        }
    }
    session
}

fn with(mut counts: [u64; TASKS], task: usize, count: u64) -> [u64; TASKS] {
    counts[task] = count;
    counts
}

#[test]
fn a_record_is_its_numbers_and_behind_them_its_lists_with_no_gap() {
    assert_eq!([size_of::<SessionNumbers>(), size_of::<LoadedNumbers>()], [40; 2]);
    assert_eq!(size_of::<Plan>(), 24);
    let session =
        [offset_of!(Session, ranks), offset_of!(Session, sizes), offset_of!(Session, counts)];
    let loaded = [offset_of!(Loaded, ranks), offset_of!(Loaded, sizes), offset_of!(Loaded, counts)];
    assert_eq!([session, loaded], [[40, 40 + 512, 40 + 1024]; 2]);
    assert_eq!([size_of::<Session>(), size_of::<Loaded>()], [40 + 3 * 512; 2]);
    assert_eq!([offset_of!(Opened, refusal), offset_of!(LoadAnswer, refusal)], [40 + 3 * 512; 2]);
    assert_eq!(offset_of!(LoadAnswer, fault), 48 + 3 * 512);
    assert_eq!([size_of::<Opened>(), size_of::<LoadAnswer>()], [1584, 1584 + 48]);
}

#[test]
fn a_fault_is_four_long_numbers_and_three_short_ones() {
    let long = [
        offset_of!(Fault, place),
        offset_of!(Fault, says),
        offset_of!(Fault, least),
        offset_of!(Fault, most),
    ];
    assert_eq!(long, [0, 8, 16, 24]);
    let short = [offset_of!(Fault, field), offset_of!(Fault, task), offset_of!(Fault, chunk)];
    assert_eq!((short, size_of::<Fault>()), ([32, 36, 40], 48));
}

#[test]
fn records_survive_the_library() {
    for order in [0, 1] {
        let Session { ranks, sizes, .. } = session(order);
        let needed = raw::needs(plan(order), &ranks, &sizes, b"prefix");
        let image = needed.image;
        assert_eq!(needed, Needed { refusal: 0, image, cells: CELLS as u64 });

        let (mut image, mut table) = (vec![0; image as usize], vec![0; CELLS]);
        let mut session = filled(order, &mut image, &mut table);
        let before = session;
        let closed = raw::close(&mut session, &mut image, &table);
        assert_eq!(closed, Closed { refusal: 0, length: image.len() as u64 });
        let numbers = SessionNumbers { closed: 1, ..before.numbers };
        assert_eq!(session, Session { numbers, ..before });

        let mut table = vec![0; CELLS];
        let numbers = loaded_numbers(numbers);
        let used = counts().map(|count| count.max(u64::from(numbers.format - 3)));
        let loaded = Loaded { numbers, ranks, sizes, counts: used };
        let fault = Fault::default();
        assert_eq!(raw::load(&image, &mut table), LoadAnswer { loaded, refusal: 0, fault });
        for (task, count) in counts().into_iter().enumerate() {
            let total = raw::total(&loaded, &image, &table, task as u64 + 1);
            assert_eq!(total, ByteCount { refusal: 0, bytes: count * HOLDS as u64 });
        }
    }
}

#[test]
fn reads_answer_in_their_fields() {
    let mut table = vec![0; 4];
    let loaded = raw::load(BEFORE, &mut table).loaded;
    let placed = raw::chunk(&loaded, BEFORE, &table, 1, 1);
    assert_eq!(placed, Part { refusal: 0, start: 1536, length: 500 });
    let placed = raw::chunk(&loaded, BEFORE, &table, 1, 2);
    assert_eq!(placed, Part { refusal: 0, start: 3072, length: 1 });
    let mut out = [9; 5];
    let copied = raw::read(&loaded, BEFORE, &table, 1, 498, &mut out);
    assert_eq!(copied, ByteCount { refusal: 0, bytes: 3 });
    assert_eq!(out, [BEFORE[2034], BEFORE[2035], BEFORE[3072], 9, 9]);
}

#[test]
fn chunk_sizes_are_multiples_of_the_blocksize() {
    for (requested, blocksize, holds) in [
        (1, 512, 512),
        (511, 512, 512),
        (512, 512, 512),
        (513, 512, 1024),
        (1 << 30, 512, 1 << 30),
        (1500, 4096, 4096),
        (4097, 4096, 8192),
        (1, 1 << 22, 1 << 22),
        ((1 << 30) - 1, 1 << 22, 1 << 30),
    ] {
        let answer = ByteCount { refusal: 0, bytes: holds };
        assert_eq!(raw::chunk_size(requested, blocksize), answer, "{requested}, {blocksize}");
    }
    for (requested, blocksize, refusal) in [
        (0, 0, 5),
        (7, 0, 5),
        (512, 768, 5),
        (u64::MAX, u32::MAX, 5),
        (0, 512, 9),
        ((1 << 30) + 1, 512, 9),
        (u64::MAX, 1 << 22, 9),
    ] {
        let answer = ByteCount { refusal, bytes: 0 };
        assert_eq!(raw::chunk_size(requested, blocksize), answer, "{requested}, {blocksize}");
    }
}

#[test]
fn refused_calls_hand_back_zeros_or_what_they_were_given() {
    let plan = Plan { order: 2, version: 1, patch: 7, format: 3, blocksize: 512, planned: 1 };
    let opened = raw::open(plan, &[0], &[1], b"", &mut [], &mut []);
    assert_eq!(opened, Opened { session: NO_SESSION, refusal: 2 });
    assert_eq!(raw::needs(plan, &[0], &[1], b""), Needed { refusal: 2, image: 0, cells: 0 });
    assert_eq!(raw::needs(Plan { order: 0, ..plan }, &[0, 1], &[1], b"").refusal, 6);

    let mut session = Session { ranks: [5; TASKS], ..session(1) };
    let before = session;
    assert_eq!(raw::close(&mut session, &mut [], &[]), Closed { refusal: 17, length: 0 });
    assert_eq!(raw::write(&mut session, &mut [], &mut [], 1, b"x"), 17);
    assert_eq!(session, before);
    let loaded = NOT_LOADED;
    let fault = Fault { field: 1, ..Fault::default() };
    assert_eq!(raw::load(b"", &mut []), LoadAnswer { loaded, refusal: 1, fault });
    assert_eq!(raw::chunk(&loaded, b"", &[], 1, 1), Part { refusal: 17, start: 0, length: 0 });
    assert_eq!(raw::total(&loaded, b"", &[], 1), ByteCount { refusal: 17, bytes: 0 });
    assert_eq!(raw::read(&loaded, b"", &[], 1, 0, &mut []), ByteCount { refusal: 17, bytes: 0 });
}

#[test]
fn reads_test_the_record_and_the_memory_first() {
    let mut table = vec![0; 2];
    let loaded = raw::load(SAMPLE, &mut table).loaded;
    let short = &SAMPLE[..SAMPLE.len() - 1];
    let numbers = |loaded: &Loaded, image, table: &[i64]| {
        let placed = raw::chunk(loaded, image, table, 0, 0).refusal;
        let copied = raw::read(loaded, image, table, 0, 0, &mut []).refusal;
        [placed, copied, raw::total(loaded, image, table, 0).refusal]
    };
    let fewer = LoadedNumbers { maxchunks: 0, ..loaded.numbers };
    assert_eq!(numbers(&Loaded { numbers: fewer, ..loaded }, SAMPLE, &table), [17; 3]);
    for (files, file) in [(0, 0), (2, 0), (2, 1), (1, 1)] {
        let other = LoadedNumbers { files, file, ..loaded.numbers };
        assert_eq!(numbers(&Loaded { numbers: other, ..loaded }, short, &table), [17; 3]);
    }
    assert_eq!(numbers(&loaded, short, &table), [18; 3]);
    assert_eq!(numbers(&loaded, SAMPLE, &table[..1]), [18; 3]);
    assert_eq!(numbers(&loaded, SAMPLE, &[513, -1]), [19; 3]);
    assert_eq!(numbers(&loaded, SAMPLE, &[512, -1]), [14; 3]);
    assert_eq!(numbers(&loaded, SAMPLE, &table), [14; 3]);
}

#[test]
fn the_library_has_the_version_of_the_crate() {
    let number = |text: &str| text.parse::<u32>().unwrap();
    let (first, second) = (env!("CARGO_PKG_VERSION_MAJOR"), env!("CARGO_PKG_VERSION_MINOR"));
    let third = env!("CARGO_PKG_VERSION_PATCH");
    assert_eq!(raw::version(), 10_000 * number(first) + 100 * number(second) + number(third));
}
