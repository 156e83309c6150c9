//! Holds loads and reads to their answers, and damaged containers to their refusals.

mod common;

use common::*;
use lapurmihi::{ByteOrder, Container, Plan, Refusal};

#[test]
fn the_sample_is_read() {
    let mut table = table();
    let container = Container::load(SAMPLE, &mut table).unwrap();
    assert_eq!(container.byte_order(), ByteOrder::Little);
    assert_eq!((container.version(), container.patch()), (1, 7));
    assert_eq!((container.blocksize(), container.maxchunks()), (512, 1));
    let sizes: Vec<_> = container.tasks().map(|t| (t.requested_size(), t.chunk_size())).collect();
    assert_eq!(sizes, [(500, 512), (600, 1024)]);
    let rows: Vec<_> =
        container.tasks().map(|t| (t.number(), t.rank(), t.chunks_used(), t.total())).collect();
    assert_eq!(rows, [(1, 0, 1, 501), (2, 1, 0, 0)]);
    let task = container.task(1).unwrap();
    assert_eq!(task.chunks().collect::<Vec<_>>(), [bytes(501)]);
    assert_eq!(task.chunk(1).unwrap().as_ptr(), &SAMPLE[1536], "a part of the image");
    assert_eq!(SAMPLE[2036], 250, "the last byte");
}

#[test]
fn a_container_of_before_is_read() {
    let mut table = vec![CELL; 6];
    let container = Container::load(BEFORE, &mut table).unwrap();
    assert_eq!((container.maxchunks(), container.length()), (2, 4656));
    let totals: Vec<_> = container.tasks().map(|t| (t.chunk_size(), t.total())).collect();
    assert_eq!(totals, [(512, 501), (1024, 0)]);
    let task = container.task(1).unwrap();
    assert_eq!(task.chunks().map(<[u8]>::len).collect::<Vec<_>>(), [500, 1]);
    assert_eq!(task.chunks().collect::<Vec<_>>().concat(), bytes(501));
    assert_eq!(task.chunk(2).unwrap().as_ptr(), &BEFORE[3072]);
    assert_eq!(table, [500, -1, 1, -1, CELL, CELL]);
}

#[test]
fn only_the_cells_of_the_container_are_filled() {
    let mut table = vec![CELL; 6];
    Container::load(SAMPLE, &mut table).unwrap();
    assert_eq!(table, [501, -1, CELL, CELL, CELL, CELL]);
}

#[test]
fn what_follows_the_container_is_not_looked_at() {
    let longer = [SAMPLE, &[0xFF; 100]].concat();
    let mut table = table();
    let container = Container::load(&longer, &mut table).unwrap();
    assert_eq!(container.task(1).unwrap().total(), 501);
    assert_eq!((container.image(), container.length()), (&longer[..], 3104));
}

#[test]
fn prefixes_are_read_back() {
    let prefixes = [vec![], b"data/run.sion".to_vec(), vec![0xFF; 1023], vec![7; 1024]];
    for (order, prefix) in
        ORDERS.into_iter().flat_map(|order| prefixes.iter().map(move |p| (order, p)))
    {
        let plan = Plan::new(512).byte_order(order).prefix(&prefix[..]).task(0, 5);
        let container = Container::from_bytes(packed(&plan, &[(1, b"abc")])).unwrap();
        assert_eq!(container.prefix(), prefix);
        assert_eq!(container.length() as usize, container.image().len());
    }
}

/// What a load answers, over a table that a refused one leaves as it was.
fn load(image: &[u8], cells: usize) -> Result<(), Refusal> {
    let mut table = vec![CELL; cells];
    let answer = Container::load(image, &mut table).map(drop).map_err(Refusal::from);
    assert!(answer.is_ok() || table.iter().all(|&cell| cell == CELL), "the table was changed");
    answer
}

#[test]
fn cut_containers_are_refused() {
    let cuts = [
        (0..4, Refusal::NoMark),
        (4..8, Refusal::NoOrder),
        (8..1120, Refusal::ShortMeta1),
        (1120..3104, Refusal::BadMeta2Place),
    ];
    for order in ORDERS {
        let container = paper_container(order);
        for (lengths, refusal) in cuts.clone() {
            for length in lengths {
                assert_eq!(load(&container[..length], 2), Err(refusal), "{length} bytes");
            }
        }
        assert_eq!(load(&container, 2), Ok(()));
        assert_eq!(load(&container, 1), Err(Refusal::TooShort));
    }
}

#[test]
fn flipped_fields_are_refused() {
    // the lowest byte of each field of a container in little byte order, and a bit of it
    let flips = [
        (0, 1, Refusal::NoMark),
        (4, 2, Refusal::NoOrder),
        (16, 1, Refusal::BadFormat),
        (20, 1, Refusal::BadBlocksize),
        (24, 128, Refusal::BadTasks),
        (28, 2, Refusal::BadFiles),
        (32, 1, Refusal::BadFiles),
        (1076, 1, Refusal::BadRank),
        (1095, 128, Refusal::BadSize),
        (1108, 64, Refusal::BadMaxchunks),
        (1112, 1, Refusal::BadMeta2Place),
        (3072, 1, Refusal::BadMeta2),
        (3088 + 1, 2, Refusal::BadMeta2),
        (3096, 1, Refusal::BadMeta2),
    ];
    for (place, bit, refusal) in flips {
        let mut container = SAMPLE.to_vec();
        container[place] ^= bit;
        assert_eq!(load(&container, 2), Err(refusal), "bit {bit} of byte {place}");
    }
    let mut open = SAMPLE.to_vec();
    open[1112..1120].fill(0);
    assert_eq!(load(&open, 2), Err(Refusal::NotClosed));
}

#[test]
fn a_chunk_may_be_full_and_not_fuller() {
    let with = |bytes: i64| {
        let mut container = SAMPLE.to_vec();
        container[3088..3096].copy_from_slice(&bytes.to_le_bytes());
        load(&container, 2)
    };
    for bytes in [0, 499, 500, 501, 511, 512] {
        assert_eq!(with(bytes), Ok(()), "{bytes} bytes");
    }
    for bytes in [-1, 513, 600, 1024, i64::MAX, i64::MIN] {
        assert_eq!(with(bytes), Err(Refusal::BadMeta2), "{bytes} bytes");
    }
}

#[test]
fn there_is_no_task_0_and_none_past_the_last() {
    let mut table = table();
    let container = Container::load(SAMPLE, &mut table).unwrap();
    for number in [0, 3, 1 << 32 | 1, u64::MAX] {
        assert_eq!(container.task(number).unwrap_err(), Refusal::NoTask);
    }
    assert_eq!(container.task(2).unwrap().number(), 2);
    assert_eq!(container.tasks().rev().map(|task| task.number()).collect::<Vec<_>>(), [2, 1]);
}

#[test]
fn only_used_chunks_are_handed_back() {
    let mut table = table();
    let container = Container::load(BEFORE, &mut table).unwrap();
    for (task, chunk) in [(1, 0), (1, 3), (1, u64::MAX), (2, 0), (2, 1)] {
        assert_eq!(container.task(task).unwrap().chunk(chunk), Err(Refusal::NoChunk));
    }
    let chunks = container.task(1).unwrap().chunks();
    assert_eq!(chunks.len(), 2);
    assert_eq!(chunks.rev().map(<[u8]>::len).collect::<Vec<_>>(), [1, 500]);
}

#[test]
fn reads_go_up_to_the_total_and_change_no_byte_behind() {
    for container in [SAMPLE, BEFORE] {
        reads_of(container);
    }
}

/// Reads of the paper's container, whose bytes stand in one chunk or in two.
fn reads_of(container: &[u8]) {
    let (all, mut table) = (bytes(501), table());
    let container = Container::load(container, &mut table).unwrap();
    let task = container.task(1).unwrap();
    for place in [0, 1, 499, 500, 501] {
        for length in [0, 1, 2, 3, 600] {
            let mut out = vec![0; length];
            let rest = &all[place..];
            let count = rest.len().min(length);
            assert_eq!(task.read_at(place as u64, &mut out), Ok(count));
            assert_eq!(out[..count], rest[..count]);
            assert!(out[count..].iter().all(|&byte| byte == 0));
        }
    }
    let mut out = [7; 3];
    for (number, place) in [(1, 502), (1, u64::MAX), (2, 1)] {
        let task = container.task(number).unwrap();
        assert_eq!(task.read_at(place, &mut out), Err(Refusal::PastTotal));
    }
    assert_eq!(out, [7; 3]);
}

#[test]
fn chunks_outlive_the_task() {
    let mut table = table();
    let container = Container::load(SAMPLE, &mut table).unwrap();
    let chunk = {
        let task = container.task(1).unwrap();
        assert_eq!(task.chunk_place(1), Ok(1536..2037));
        task.chunk(1).unwrap()
    };
    assert_eq!(chunk, bytes(501));
}

#[test]
fn tasks_are_found_by_their_ranks() {
    let plan = Plan::new(512).task(7, 3).task(2_147_483_647, 3).task(0, 3);
    let container = packed(&plan, &[(1, b"a"), (2, b"bb"), (3, b"ccc")]);
    let mut table = table();
    let container = Container::load(&container, &mut table).unwrap();
    for (rank, number) in [(7, 1), (2_147_483_647, 2), (0, 3)] {
        let task = container.task_by_rank(rank).unwrap();
        assert_eq!((task.rank(), task.number(), task.total()), (rank, number, number));
    }
    for rank in [1, 1 << 32 | 7, u64::MAX] {
        assert_eq!(container.task_by_rank(rank).unwrap_err(), Refusal::NoTask);
    }
}

#[test]
fn a_container_shows_itself() {
    let mut table = table();
    let container = Container::load(SAMPLE, &mut table).unwrap();
    let shown = format!("{container:?}");
    assert!(
        shown.starts_with("Container { byte_order: Little, version: 1, patch: 7, format: V3,"),
        "{shown}"
    );
    let task = "Task { number: 1, rank: 0, requested_size: 500, chunk_size: 512, chunks_used: 1, total: 501 }";
    assert!(shown.contains(task), "{shown}");
}
