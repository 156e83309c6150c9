//! Holds where a load breaks off: every row of the table of places, in both byte orders, and which of several faults is the first.

use super::session_in;
use crate::*;

const LAST_RANK: i64 = 2_147_483_647;
const LAST_SIZE: i64 = 1_073_741_824;

/// Three tasks with 3, 2 and no chunks: ranks at 1076, sizes at 1100, maxchunks at 1124, META2's start at 1128 and META2 at 7680, with the
/// counts 3, 2, 0 and from 7704 the values 512, 1024, -1, then 512, 7, -1, then 1, -1, -1. In version 4 the third task has one empty chunk.
fn night(format: u32, order: u32) -> Container {
    let (mut session, mut image, mut table) = session_in(format, 512, order, &[500, 600, 20], 3);
    for (task, length) in [(1, 512), (1, 512), (1, 1), (2, 1024), (2, 7)] {
        assert_eq!(write(&mut session, &mut image, &mut table, task, &vec![1; length]), Ok(()));
    }
    assert_eq!(close(&mut session, &mut image, &table), Ok(7776));
    Container::new(image, Order::from_number(order).expect("an order"), 3)
}

/// Runs a test on the container of version 3 in both byte orders.
fn in_both(test: impl Fn(Container)) {
    [0, 1].into_iter().for_each(|order| test(night(3, order)));
}

/// Where a load with a table of so many cells breaks off.
fn broken(container: &Container, cells: usize) -> Option<Fault> {
    load(&container.bytes, &mut vec![0; cells]).err()
}

fn fault(refusal: u32, kind: Kind, place: u64, says: i64, (least, most): (i64, i64)) -> Fault {
    Fault { refusal, kind, place, says, least, most, task: 0, chunk: 0 }
}

fn of_task(task: u32, fault: Fault) -> Fault {
    Fault { task, ..fault }
}

fn of_chunk(task: u32, chunk: u32, fault: Fault) -> Fault {
    Fault { task, chunk, ..fault }
}

/// One field set to each of some numbers, with the fault of all of them but for what the field says.
fn says(field: Field, numbers: &[i64], wanted: Fault) {
    in_both(|night| {
        for &number in numbers {
            let found = broken(&night.with(field, number), 9);
            assert_eq!(found, Some(Fault { says: number, ..wanted }), "{field:?}, {number}");
        }
    });
}

#[test]
fn a_sound_container_has_no_fault() {
    in_both(|night| assert_eq!(broken(&night, 9), None));
    assert_eq!(broken(&night(4, 1), 9), None);
}

#[test]
fn mark_and_order_say_nothing() {
    in_both(|night| {
        let wanted = Some(fault(1, Kind::Mark, 0, 0, (0, 0)));
        assert_eq!(broken(&night.with(Field::Mark, 7), 9), wanted);
        for length in 0..4 {
            assert_eq!(broken(&night.cut(length), 9), wanted);
        }
        let wanted = Some(fault(2, Kind::Order, 4, 0, (0, 0)));
        for number in [0, 2, -1] {
            assert_eq!(broken(&night.with(Field::Order, number), 9), wanted);
        }
        for length in 4..8 {
            assert_eq!(broken(&night.cut(length), 9), wanted);
        }
    });
}

/// The place is the image's length, and so is what it says.
#[test]
fn cuts_are_at_the_end_of_the_image() {
    in_both(|night| {
        let cuts = [(3, 1076, [8, 500, 1075]), (3, 1136, [1076, 1100, 1135])];
        for (refusal, needed, lengths) in cuts.into_iter().chain([(12, 7776, [1136, 7680, 7775])]) {
            for length in lengths {
                let image = fault(refusal, Kind::Image, length, length as i64, (needed, needed));
                assert_eq!(broken(&night.cut(length as usize), 9), Some(image));
            }
        }
    });
}

#[test]
fn numbers_of_meta1() {
    let least = i64::from(i32::MIN);
    let wanted = |refusal, kind, place, range| fault(refusal, kind, place, 0, range);
    says(Field::Format, &[2, 5, 0, -3, least], wanted(4, Kind::Format, 16, (3, 4)));
    let bounds = wanted(5, Kind::Blocksize, 20, (512, 4_194_304));
    says(Field::Blocksize, &[0, 256, 513, 1000, 8_388_608, -512, least], bounds);
    says(Field::Ntasks, &[0, 65, -1, least], wanted(6, Kind::Tasks, 24, (1, 64)));
    says(Field::Nfiles, &[0, 2, -1], wanted(7, Kind::Files, 28, (1, 1)));
    says(Field::Filenumber, &[1, -1, least], wanted(7, Kind::FileNumber, 32, (0, 0)));
    for (task, place) in [(0, 1076), (1, 1084), (2, 1092)] {
        let rank = of_task(task + 1, wanted(8, Kind::Rank, place, (0, LAST_RANK)));
        says(Field::Rank(task as usize), &[-1, LAST_RANK + 1, i64::MIN], rank);
        let size = of_task(task + 1, wanted(9, Kind::Size, place + 24, (1, LAST_SIZE)));
        says(Field::Size(task as usize), &[0, -1, LAST_SIZE + 1, i64::MIN], size);
    }
    says(Field::Start, &[0], wanted(10, Kind::Start, 1128, (1, i64::MAX)));
    says(Field::Maxchunks, &[-1, 33, least], wanted(11, Kind::Maxchunks, 1124, (0, 32)));
    let start = wanted(12, Kind::Start, 1128, (7680, 7680));
    says(Field::Start, &[1, 7679, 7688, -1, i64::MIN, i64::MAX], start);
}

/// With another maxchunks META2 has another place, whatever the counts are.
#[test]
fn the_start_is_judged_by_maxchunks() {
    in_both(|night| {
        for (maxchunks, right) in [(0, 1536), (2, 5632), (32, 67_072)] {
            let found = broken(&night.with(Field::Maxchunks, maxchunks), 9);
            assert_eq!(found, Some(fault(12, Kind::Start, 1128, 7680, (right, right))));
        }
    });
}

#[test]
fn a_short_table_is_at_0() {
    in_both(|night| {
        for cells in [0, 1, 8] {
            let table = fault(18, Kind::Table, 0, cells as i64, (9, 9));
            assert_eq!(broken(&night, cells), Some(table));
            assert_eq!(broken(&night.with(Field::Count(0), -1), cells), Some(table));
        }
    });
}

/// The first rank that is out of range or equals an earlier one, of whichever kind it is.
#[test]
fn ranks() {
    let cases = [
        ([5, 5, 7], 2, 5),
        ([5, 7, 5], 3, 5),
        ([7, 5, 5], 3, 5),
        ([5, 5, 5], 2, 5),
        ([5, 5, -1], 2, 5),
        ([5, -1, 5], 2, -1),
        ([-1, 5, 5], 1, -1),
        ([-1, -1, 5], 1, -1),
        ([LAST_RANK + 1, 0, 0], 1, LAST_RANK + 1),
    ];
    in_both(|night| {
        for (ranks, task, says) in cases {
            let mut night = night.clone();
            (0..3).for_each(|i| night.put(Field::Rank(i), ranks[i]));
            let rank = fault(8, Kind::Rank, 1068 + 8 * task, says, (0, LAST_RANK));
            assert_eq!(broken(&night, 9), Some(of_task(task as u32, rank)), "{ranks:?}");
        }
    });
}

#[test]
fn counts() {
    for (task, place) in [(0, 7680), (1, 7688), (2, 7696)] {
        let count = of_task(task + 1, fault(13, Kind::Count, place, 0, (0, 3)));
        says(Field::Count(task as usize), &[-1, 4, i64::MIN, i64::MAX], count);
        for order in [0, 1] {
            let found = broken(&night(4, order).with(Field::Count(task as usize), 0), 9);
            assert_eq!(found, Some(Fault { least: 1, ..count }));
        }
    }
}

/// Judged behind all counts and before all values; the place is that of maxchunks.
#[test]
fn the_greatest_count() {
    in_both(|night| {
        for (counts, greatest) in [([2, 2, 0], 2), ([0, 2, 1], 2), ([1, 0, 0], 1), ([0, 0, 0], 0)] {
            let mut night = night.clone();
            (0..3).for_each(|i| night.put(Field::Count(i), counts[i]));
            let wanted = fault(13, Kind::Maxchunks, 1124, 3, (greatest, greatest));
            assert_eq!(broken(&night, 9), Some(wanted));
            let wanted = of_task(3, fault(13, Kind::Count, 7696, 4, (0, 3)));
            assert_eq!(broken(&night.with(Field::Count(2), 4), 9), Some(wanted));
        }
    });
}

/// Of each value the task, the chunk and the place; in use it is up to what the chunk holds, and else -1.
#[test]
fn values() {
    let value =
        |task, chunk, place, range| of_chunk(task, chunk, fault(13, Kind::Value, place, 0, range));
    for (chunk, place) in [(1, 7704), (2, 7728), (3, 7752)] {
        let numbers = [-1, 513, i64::MIN, i64::MAX];
        says(Field::Cell(chunk - 1, 0), &numbers, value(1, chunk as u32, place, (0, 512)));
        let unused = value(3, chunk as u32, place + 16, (-1, -1));
        says(Field::Cell(chunk - 1, 2), &[0, 1, -2, 512, i64::MIN], unused);
    }
    says(Field::Cell(1, 1), &[-1, 1025], value(2, 2, 7736, (0, 1024)));
    says(Field::Cell(2, 1), &[0, 7], value(2, 3, 7760, (-1, -1)));
}

/// Chunk 1 of every task is judged before chunk 2 of any.
#[test]
fn the_value_of_the_least_offset_counts() {
    in_both(|night| {
        let both = night.with(Field::Cell(1, 0), 513).with(Field::Cell(0, 2), 0);
        let wanted = fault(13, Kind::Value, 7720, 0, (-1, -1));
        assert_eq!(broken(&both, 9), Some(of_chunk(3, 1, wanted)));
        let both = night.with(Field::Cell(2, 0), 600).with(Field::Cell(2, 1), 0);
        let wanted = fault(13, Kind::Value, 7752, 600, (0, 512));
        assert_eq!(broken(&both, 9), Some(of_chunk(1, 3, wanted)));
    });
}

/// Faults in the order in which they are found, each with the field and the number that make it.
fn stairs() -> Vec<(Field, i64, Fault)> {
    vec![
        (Field::Mark, 7, fault(1, Kind::Mark, 0, 0, (0, 0))),
        (Field::Order, 2, fault(2, Kind::Order, 4, 0, (0, 0))),
        (Field::Format, 5, fault(4, Kind::Format, 16, 5, (3, 4))),
        (Field::Blocksize, 1000, fault(5, Kind::Blocksize, 20, 1000, (512, 4_194_304))),
        (Field::Ntasks, 0, fault(6, Kind::Tasks, 24, 0, (1, 64))),
        (Field::Nfiles, 2, fault(7, Kind::Files, 28, 2, (1, 1))),
        (Field::Filenumber, 1, fault(7, Kind::FileNumber, 32, 1, (0, 0))),
        (Field::Rank(1), 0, of_task(2, fault(8, Kind::Rank, 1084, 0, (0, LAST_RANK)))),
        (Field::Rank(2), -1, of_task(3, fault(8, Kind::Rank, 1092, -1, (0, LAST_RANK)))),
        (Field::Size(0), 0, of_task(1, fault(9, Kind::Size, 1100, 0, (1, LAST_SIZE)))),
        (Field::Size(2), -5, of_task(3, fault(9, Kind::Size, 1116, -5, (1, LAST_SIZE)))),
        (Field::Start, 0, fault(10, Kind::Start, 1128, 0, (1, i64::MAX))),
        (Field::Maxchunks, 33, fault(11, Kind::Maxchunks, 1124, 33, (0, 32))),
        (Field::Start, 7688, fault(12, Kind::Start, 1128, 7688, (7680, 7680))),
        (Field::Count(1), 4, of_task(2, fault(13, Kind::Count, 7688, 4, (0, 3)))),
        (Field::Count(2), -1, of_task(3, fault(13, Kind::Count, 7696, -1, (0, 3)))),
        (Field::Count(0), 2, fault(13, Kind::Maxchunks, 1124, 3, (2, 2))),
        (Field::Cell(0, 1), 1025, of_chunk(2, 1, fault(13, Kind::Value, 7712, 1025, (0, 1024)))),
        (Field::Cell(1, 2), 0, of_chunk(3, 2, fault(13, Kind::Value, 7744, 0, (-1, -1)))),
    ]
}

/// All of them at once, then without the first, and so on: the first that is there is told. Cut within META2 as well, an image has the same
/// fault up to its start, and then the cut.
#[test]
fn the_first_fault_counts() {
    let stairs = stairs();
    in_both(|night| {
        for at in 0..stairs.len() {
            let mut broken_night = night.clone();
            stairs[at..]
                .iter()
                .rev()
                .for_each(|&(field, number, _)| broken_night.put(field, number));
            let wanted = stairs[at].2;
            assert_eq!(broken(&broken_night, 9), Some(wanted));
            let cut = broken(&broken_night.cut(7775), 0);
            let image = fault(12, Kind::Image, 7775, 7775, (7776, 7776));
            assert_eq!(cut, Some(if wanted.refusal == 13 { image } else { wanted }));
        }
    });
}
