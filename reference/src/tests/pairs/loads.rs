//! Holds where a pair's load breaks off: the tests of file 0, of file 1 and of the mapping in their order, and tables that a refusal leaves.

use super::{closed, ORDERS};
use crate::pair::{self, Broken, Forged};
use crate::tests::p12;
use crate::*;

fn broken(file: u32, refusal: u32, kind: Kind, place: u64, says: i64, range: (i64, i64)) -> Broken {
    let (least, most) = range;
    let fault = Fault { refusal, kind, place, says, least, most, task: 0, chunk: 0 };
    Broken { file, fault }
}

fn of_task(task: u32, Broken { file, fault }: Broken) -> Broken {
    Broken { file, fault: Fault { task, ..fault } }
}

fn of_chunk(task: u32, chunk: u32, Broken { file, fault }: Broken) -> Broken {
    Broken { file, fault: Fault { task, chunk, ..fault } }
}

/// Where a load with tables of so many cells breaks off; it leaves both tables as they were.
fn found(forged: &Forged, cells: [usize; 2]) -> Option<Broken> {
    let [mut table, mut other] = cells.map(|cells| vec![5; cells]);
    let broken = pair::load(forged.images(), [&mut table, &mut other]).err();
    let untouched = table.iter().chain(&other).all(|&cell| cell == 5);
    assert_eq!(untouched, broken.is_some());
    broken
}

/// A fault: the file, the field, the number set there, and where the load breaks off.
type Case = (usize, Field, i64, Broken);

const LAST_RANK: i64 = 2_147_483_647;
const LAST_SIZE: i64 = 1_073_741_824;

/// The faults of file 0, whose ranks stand at 1076, sizes at 1092, maxchunks at 1108, META2's start at 1112 and META2 at 4608.
fn of_file_0() -> Vec<Case> {
    let new = |refusal, kind, place, says, range| broken(0, refusal, kind, place, says, range);
    vec![
        (0, Field::Mark, 7, new(1, Kind::Mark, 0, 0, (0, 0))),
        (0, Field::Order, 2, new(2, Kind::Order, 4, 0, (0, 0))),
        (0, Field::Format, 5, new(4, Kind::Format, 16, 5, (3, 4))),
        (0, Field::Blocksize, 1000, new(5, Kind::Blocksize, 20, 1000, (512, 4_194_304))),
        (0, Field::Ntasks, 0, new(6, Kind::Tasks, 24, 0, (1, MAX_TASKS as i64))),
        (0, Field::Nfiles, 1, new(7, Kind::Files, 28, 1, (2, 2))),
        (0, Field::Filenumber, 1, new(7, Kind::FileNumber, 32, 1, (0, 0))),
        (0, Field::Rank(1), 2, of_task(2, new(8, Kind::Rank, 1084, 2, (0, LAST_RANK)))),
        (0, Field::Size(0), 0, of_task(1, new(9, Kind::Size, 1092, 0, (1, LAST_SIZE)))),
        (0, Field::Start, 0, new(10, Kind::Start, 1112, 0, (1, i64::MAX))),
        (0, Field::Maxchunks, 33, new(11, Kind::Maxchunks, 1108, 33, (0, 32))),
        (0, Field::Start, 4616, new(12, Kind::Start, 1112, 4616, (4608, 4608))),
        (0, Field::Count(1), 3, of_task(2, new(13, Kind::Count, 4616, 3, (0, 2)))),
        (0, Field::Cell(1, 1), 0, of_chunk(2, 2, new(13, Kind::Value, 4648, 0, (-1, -1)))),
    ]
}

/// The faults of file 1, whose rank stands at 1076, size at 1084, maxchunks at 1092, META2's start at 1096 and META2 at 2560.
fn of_file_1() -> Vec<Case> {
    let new = |refusal, kind, place, says, range| broken(1, refusal, kind, place, says, range);
    vec![
        (1, Field::Mark, 7, new(1, Kind::Mark, 0, 0, (0, 0))),
        (1, Field::Order, 2, new(2, Kind::Order, 4, 0, (0, 0))),
        (1, Field::Format, 2, new(4, Kind::Format, 16, 2, (3, 4))),
        (1, Field::Blocksize, 256, new(5, Kind::Blocksize, 20, 256, (512, 4_194_304))),
        (1, Field::Ntasks, -1, new(6, Kind::Tasks, 24, -1, (1, MAX_TASKS as i64))),
        (1, Field::Nfiles, 3, new(7, Kind::Files, 28, 3, (2, 2))),
        (1, Field::Filenumber, 0, new(7, Kind::FileNumber, 32, 0, (1, 1))),
        (1, Field::Rank(0), -1, of_task(1, new(8, Kind::Rank, 1076, -1, (0, LAST_RANK)))),
        (1, Field::Size(0), 0, of_task(1, new(9, Kind::Size, 1084, 0, (1, LAST_SIZE)))),
        (1, Field::Start, 0, new(10, Kind::Start, 1096, 0, (1, i64::MAX))),
        (1, Field::Maxchunks, -1, new(11, Kind::Maxchunks, 1092, -1, (0, 32))),
        (1, Field::Start, 1, new(12, Kind::Start, 1096, 1, (2560, 2560))),
        (1, Field::Count(0), 1, new(13, Kind::Maxchunks, 1092, 2, (1, 1))),
        (1, Field::Cell(1, 0), 513, of_chunk(1, 2, new(13, Kind::Value, 2576, 513, (0, 512)))),
    ]
}

/// The faults of the mapping: its size stands at 4656, and the entries of ranks 0, 1 and 2, which are 0 1, 1 0 and 0 0, from 4660.
fn of_mapping() -> Vec<Case> {
    let entry = |rank: u32, kind, says, range| {
        of_task(rank + 1, broken(0, 25, kind, 4660 + 8 * u64::from(rank), says, range))
    };
    vec![
        (0, Field::MappingSize, 4, broken(0, 25, Kind::MappingSize, 4656, 4, (3, 3))),
        (0, Field::EntryFile(0), 2, entry(0, Kind::EntryFile, 2, (0, 1))),
        (0, Field::EntryTask(0), 2, entry(0, Kind::EntryTask, 2, (0, 1))),
        (0, Field::EntryTask(0), 0, entry(0, Kind::EntryRank, 2, (0, 0))),
        (0, Field::EntryFile(1), -1, entry(1, Kind::EntryFile, -1, (0, 1))),
        (0, Field::EntryTask(1), 1, entry(1, Kind::EntryTask, 1, (0, 0))),
        (0, Field::EntryFile(2), 5, entry(2, Kind::EntryFile, 5, (0, 1))),
        (0, Field::EntryTask(2), -1, entry(2, Kind::EntryTask, -1, (0, 1))),
        (0, Field::EntryTask(2), 1, entry(2, Kind::EntryRank, 0, (2, 2))),
    ]
}

/// How many of all faults come before a table too short: those of file 0 up to 12, and of file 1 all of file 0 and up to 12.
const BEFORE_18: [usize; 2] = [12, 14 + 12];

/// One fault alone.
#[test]
fn each_fault() {
    for orders in ORDERS {
        let sound = closed(orders);
        assert_eq!(found(&sound, [4, 2]), None);
        for (file, field, number, wanted) in
            of_file_0().into_iter().chain(of_file_1()).chain(of_mapping())
        {
            let damaged = sound.with(file, field, number);
            assert_eq!(found(&damaged, [4, 2]), Some(wanted), "{file}, {field:?}");
        }
    }
}

/// All faults at once, then without the first, and so on, each set behind all later ones: the first that is there is told. A table too short
/// comes behind 12 of its own file, and before 13 of it.
#[test]
fn the_first_fault_counts() {
    let cases = [of_file_0(), of_file_1(), of_mapping()].concat();
    let short = |file, lent, need| Some(broken(file, 18, Kind::Table, 0, lent, (need, need)));
    for orders in ORDERS {
        let sound = closed(orders);
        for at in 0..=cases.len() {
            let mut damaged = sound.clone();
            for &(file, field, number, _) in cases[at..].iter().rev() {
                damaged.files[file].put(field, number);
            }
            let wanted = cases.get(at).map(|case| case.3);
            assert_eq!(found(&damaged, [4, 2]), wanted);
            let first = if at < BEFORE_18[0] { wanted } else { short(0, 3, 4) };
            assert_eq!(found(&damaged, [3, 0]), first);
            let second = if at < BEFORE_18[1] { wanted } else { short(1, 1, 2) };
            assert_eq!(found(&damaged, [4, 1]), second);
        }
    }
}

/// Cut in file 0, cut in file 1, and a mapping that does not fit: with fewer than 4 bytes of it, and with its size and not all entries.
#[test]
fn cuts() {
    for orders in ORDERS {
        let sound = closed(orders);
        let cut = |file: usize, length: usize| sound.changed(file, |it| it.cut(length));
        let image = |file, refusal, length: usize, end| {
            Some(broken(file, refusal, Kind::Image, length as u64, length as i64, (end, end)))
        };
        for (length, refusal, end) in [(1075, 3, 1076), (1119, 3, 1120), (4655, 12, 4656)] {
            assert_eq!(found(&cut(0, length), [4, 2]), image(0, refusal, length, end));
        }
        for (length, refusal, end) in [(1075, 3, 1076), (1103, 3, 1104), (2583, 12, 2584)] {
            assert_eq!(found(&cut(1, length), [4, 2]), image(1, refusal, length, end));
        }
        for length in (4656..4684).rev() {
            let cut = cut(0, length);
            assert_eq!(found(&cut, [4, 2]), image(0, 25, length, 4684));
            let both = cut.with(0, Field::MappingSize, 2).with(0, Field::EntryFile(0), 7);
            let size = Some(broken(0, 25, Kind::MappingSize, 4656, 2, (3, 3)));
            let wanted = if length < 4660 { image(0, 25, length, 4684) } else { size };
            assert_eq!(found(&both, [4, 2]), wanted);
            let later = cut.with(1, Field::Mark, 7);
            assert_eq!(found(&later, [4, 2]), Some(broken(1, 1, Kind::Mark, 0, 0, (0, 0))));
        }
        let longer = sound.changed(0, |it| it.padded(4700, 7)).changed(1, |it| it.padded(2600, 7));
        assert_eq!(found(&longer, [9, 9]), None);
    }
}

/// Numbers of mapping_size and of entries on both sides of their bounds; a mapping's number is signed.
#[test]
fn numbers_of_the_mapping() {
    let least = i64::from(i32::MIN);
    let says = |field, numbers: &[i64], wanted: Broken| {
        for (orders, &number) in
            ORDERS.iter().flat_map(|orders| numbers.iter().map(move |n| (orders, n)))
        {
            let fault = Fault { says: number, ..wanted.fault };
            let damaged = closed(*orders).with(0, field, number);
            assert_eq!(found(&damaged, [4, 2]), Some(Broken { fault, ..wanted }), "{field:?}");
        }
    };
    let size = broken(0, 25, Kind::MappingSize, 4656, 0, (3, 3));
    says(Field::MappingSize, &[0, 2, 4, -1, -3, 50_331_648, least], size);
    for rank in 0..3 {
        let task = rank as u32 + 1;
        let (place, last) = (4660 + 8 * rank as u64, i64::from(rank != 1));
        let file = of_task(task, broken(0, 25, Kind::EntryFile, place, 0, (0, 1)));
        says(Field::EntryFile(rank), &[2, -1, 16_777_216, least], file);
        let local = of_task(task, broken(0, 25, Kind::EntryTask, place, 0, (0, last)));
        says(Field::EntryTask(rank), &[last + 1, -1, 16_777_216, least], local);
    }
}

/// Ranks that are sound in each file and no whole in the two: the first entry whose task carries another rank is told.
#[test]
fn ranks_of_both_files() {
    let entry = |rank: u32, says| {
        let (place, least) = (4660 + 8 * u64::from(rank), i64::from(rank));
        Some(of_task(rank + 1, broken(0, 25, Kind::EntryRank, place, says, (least, least))))
    };
    for orders in ORDERS {
        let sound = closed(orders);
        let with = |file, task, rank| found(&sound.with(file, Field::Rank(task), rank), [4, 2]);
        assert_eq!(with(1, 0, 2), entry(1, 2));
        assert_eq!(with(1, 0, 0), entry(1, 0));
        assert_eq!(with(0, 0, 1), entry(2, 1));
        assert_eq!(with(0, 0, 3), entry(2, 3));
        assert_eq!(with(0, 1, LAST_RANK), entry(0, LAST_RANK));
        let wrong_file = |rank, file| found(&sound.with(0, Field::EntryFile(rank), file), [4, 2]);
        assert_eq!((wrong_file(1, 0), wrong_file(2, 1)), (entry(1, 2), entry(2, 1)));
        let exchanged = sound.with(0, Field::Rank(0), 0).with(0, Field::Rank(1), 2);
        assert_eq!(found(&exchanged, [4, 2]), entry(0, 2));
        let mapped = exchanged.with(0, Field::EntryTask(0), 0).with(0, Field::EntryTask(2), 1);
        assert_eq!(found(&mapped, [4, 2]), None);
    }
}

/// The mapping has the byte order of file 0, whatever that of file 1 is.
#[test]
fn the_order_of_the_mapping() {
    for orders in ORDERS {
        let swapped = closed(orders).changed(0, |it| it.swapped(Field::MappingSize));
        let wanted = broken(0, 25, Kind::MappingSize, 4656, 50_331_648, (3, 3));
        assert_eq!(found(&swapped, [4, 2]), Some(wanted));
    }
}

/// A pair's file is no single file, a single file is no file of a pair, and the two files have their places.
#[test]
fn files_that_do_not_suit() {
    for orders in ORDERS {
        let sound = closed(orders);
        for image in sound.images() {
            let wanted = broken(0, 7, Kind::Files, 28, 2, (1, 1)).fault;
            assert_eq!(load(image, &mut [0; 4]), Err(wanted));
        }
        let (single, _) = p12(orders[0]);
        let [image, other] = sound.images();
        let answer = |images| pair::load(images, [&mut [0; 4], &mut [0; 4]]).err();
        assert_eq!(answer([&single, other]), Some(broken(0, 7, Kind::Files, 28, 1, (2, 2))));
        assert_eq!(answer([image, &single]), Some(broken(1, 7, Kind::Files, 28, 1, (2, 2))));
        assert_eq!(answer([other, image]), Some(broken(0, 7, Kind::FileNumber, 32, 1, (0, 0))));
        assert_eq!(answer([image, image]), Some(broken(1, 7, Kind::FileNumber, 32, 0, (1, 1))));
    }
}
