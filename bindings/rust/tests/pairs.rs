//! Holds pairs of physical files to a small one worked through by hand: two tasks in file 0, one in file 1, ranks 2, 0 and 1.

mod common;

use common::*;
use lapurmihi::{ByteOrder, Field, Needs, OpenError, Pair, PairPlan, Plan, Refusal, CELLS};
use std::io::{ErrorKind, Read, Write};

/// File 0 has ranks 2 and 0, requested sizes 500 and 600, and 3 blocks; file 1 has rank 1, size 20, and 2 blocks.
fn plan(orders: [ByteOrder; 2]) -> PairPlan {
    let base = |order| Plan::new(512).version(1, 7).byte_order(order);
    let first = base(orders[0]).blocks(3).task(2, 500).task(0, 600);
    PairPlan::new(first, base(orders[1]).blocks(2).task(1, 20))
}

/// Both files after the requests of the worked pair: 500 and 13 bytes of rank 2, 512 and 1 of rank 1, 1024 of rank 0.
fn files(orders: [ByteOrder; 2]) -> [Vec<u8>; 2] {
    let (mut image0, mut image1) = (vec![9; 6237], vec![9; 2585]);
    let (mut table0, mut table1) = (vec![9; 7], vec![9; 3]);
    let images = [&mut image0[..], &mut image1[..]];
    let mut session = plan(orders).open(images, [&mut table0, &mut table1]).unwrap();
    for (rank, length, value) in
        [(2, 500, 12), (1, 512, 11), (0, 1024, 10), (2, 13, 22), (1, 1, 21)]
    {
        session.write(rank, &vec![value; length]).unwrap();
    }
    let refused = [(0, 1025, Refusal::TooLong), (1, 512, Refusal::NoChunkLeft)];
    for (rank, length, refusal) in refused.into_iter().chain([(3, 0, Refusal::NoTask)]) {
        assert_eq!(session.write(rank, &vec![99; length]), Err(refusal));
    }
    session.close().unwrap().map(<[u8]>::to_vec)
}

#[test]
fn what_it_needs() {
    let needs = [Needs { image: 6236, cells: 6 }, Needs { image: 2584, cells: 2 }];
    assert_eq!(plan(ORDERS).needs(), Ok(needs));
    let (mut image0, mut image1) = (vec![9; 6235], vec![9; 2584]);
    let (mut table0, mut table1) = (vec![9; 6], vec![9; 2]);
    let images = [&mut image0[..], &mut image1[..]];
    let opened = plan(ORDERS).open(images, [&mut table0, &mut table1]);
    assert_eq!(opened.err(), Some(Refusal::TooShort));
    assert_eq!((image0, image1), (vec![9; 6235], vec![9; 2584]));
    assert_eq!((table0, table1), (vec![9; 6], vec![9; 2]));
}

#[test]
fn the_worked_pair() {
    for [one, two] in [ORDERS, [ORDERS[1], ORDERS[0]], [ORDERS[0]; 2], [ORDERS[1]; 2]] {
        let files = files([one, two]);
        assert_eq!([files[0].len(), files[1].len()], [4684, 2584]);
        let number = |value: u32| match one {
            ByteOrder::Little => value.to_le_bytes(),
            ByteOrder::Big => value.to_be_bytes(),
        };
        let mapping = [3, 0, 1, 1, 0, 0, 0].map(number).concat();
        assert_eq!(files[0][4656..], mapping);

        let pair = Pair::from_bytes(files).unwrap();
        let told = pair.files().map(|file| (file.byte_order(), file.tasks(), file.length()));
        assert_eq!(told, [(one, 2, 4684), (two, 1, 2584)]);
        let places: Vec<_> = pair.tasks().map(|task| (task.file(), task.number())).collect();
        assert_eq!(places, [(0, 2), (1, 1), (0, 1)]);
        let starts = |rank| pair.task(rank).unwrap().chunk_place(1).unwrap().start;
        assert_eq!([starts(0), starts(1), starts(2)], [2048, 1536, 1536]);
        let totals: Vec<u64> = pair.tasks().map(|task| task.total()).collect();
        assert_eq!(totals, [1024, 513, 513]);
        let mut stream = vec![];
        pair.task(1).unwrap().stream().read_to_end(&mut stream).unwrap();
        assert_eq!(stream, [vec![11; 512], vec![21]].concat());
        assert_eq!(pair.task(1).unwrap().chunk(3), Err(Refusal::NoChunk));
        assert_eq!(pair.task(2).unwrap().read_at(514, &mut [0]), Err(Refusal::PastTotal));
        assert_eq!(pair.task(3).err(), Some(Refusal::NoTask));
    }
}

#[test]
fn a_refused_load_names_the_file_and_the_place() {
    let whole = files(ORDERS);
    let broken = |file: usize, at: usize, value: u8| {
        let mut files = whole.clone();
        files[file][at] = value;
        let error = Pair::from_bytes(files).unwrap_err();
        (error.file, error.error.refusal, error.error.fault)
    };
    for (file, at, value, refusal, place) in [
        (0, 0, 0, Refusal::NoMark, 0),
        (0, 28, 1, Refusal::BadFiles, 28),
        (1, 35, 0, Refusal::BadFiles, 32),
        (1, 0, 0, Refusal::NoMark, 0),
        (0, 4656, 4, Refusal::BadMapping, 4656),
        (0, 4660, 2, Refusal::BadMapping, 4660),
        (0, 4664, 2, Refusal::BadMapping, 4660),
        (0, 4664, 0, Refusal::BadMapping, 4660),
    ] {
        let (in_file, number, fault) = broken(file, at, value);
        assert_eq!((in_file, number, fault.place()), (file, refusal, place), "{file}, {at}");
    }
    let (_, _, fault) = broken(0, 4664, 0);
    assert_eq!((fault.field(), fault.says(), fault.least()), (Field::EntryRank, 2, 0));
    let line = "entry 1 of the mapping names a task of rank 2, and rank 0 is asked for";
    assert_eq!(fault.to_string(), line);

    let cut = [whole[0][..4683].to_vec(), whole[1].clone()];
    let error = Pair::from_bytes(cut).unwrap_err();
    let line =
        "file 0: 25 BAD_MAPPING at byte 4683: the image ends here, and 4684 bytes are needed";
    assert_eq!(error.to_string(), line);

    let (mut table0, mut table1) = ([0; CELLS], [7; 1]);
    let error = Pair::load([&whole[0], &whole[1]], [&mut table0, &mut table1]).unwrap_err();
    assert_eq!((error.file, error.error.fault.place()), (1, 0));
    assert_eq!((table0, table1), ([0; CELLS], [7])); // table 0 is not filled before file 1 is judged
}

#[test]
fn a_pair_in_two_files() {
    let folder = std::env::temp_dir().join(format!("lapurmihi-pair-{}", std::process::id()));
    std::fs::create_dir(&folder).unwrap();
    let (first, files) = (folder.join("night.sion"), files(ORDERS));
    assert_eq!(Pair::second_name(&first), folder.join("night.sion.000001"));
    std::fs::write(&first, &files[0]).unwrap();
    let missing = Pair::open(&first).unwrap_err();
    assert!(missing.file == 1 && matches!(missing.error, OpenError::File(_)));
    assert_eq!(std::io::Error::from(missing).kind(), ErrorKind::NotFound);
    std::fs::write(Pair::second_name(&first), &files[1]).unwrap();
    let pair = Pair::open(&first).unwrap();
    std::fs::remove_dir_all(&folder).unwrap();
    assert_eq!(pair.tasks().len(), 3);
}

#[test]
fn a_stream_fills_chunks_to_their_end() {
    let needs = plan(ORDERS).needs().unwrap();
    let [(mut image0, mut table0), (mut image1, mut table1)] =
        needs.map(|needs| (vec![0; needs.image], vec![0; needs.cells]));
    let images = [&mut image0[..], &mut image1[..]];
    let mut session = plan(ORDERS).open(images, [&mut table0, &mut table1]).unwrap();
    assert_eq!(session.writer(3).err(), Some(Refusal::NoTask));
    let mut writer = session.writer(1).unwrap();
    writer.write_all(&[1; 1000]).unwrap();
    let error = writer.write_all(&[2; 25]).unwrap_err();
    assert_eq!((error.kind(), writer.stored()), (ErrorKind::StorageFull, 1024));
    assert_eq!((session.chunks_begun(1), session.chunk_size(0)), (Ok(2), Ok(1024)));
    session.writer(2).unwrap().write_all(&[3; 1537]).unwrap_err();
    let pair = Pair::from_bytes(session.close().unwrap().map(<[u8]>::to_vec)).unwrap();
    let lengths: Vec<usize> = pair.task(2).unwrap().chunks().map(<[u8]>::len).collect();
    assert_eq!(lengths, [512, 512, 512]);
}
