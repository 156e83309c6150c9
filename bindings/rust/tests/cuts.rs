//! Holds power cuts: each call of a session cut after every byte store, and what loading it then gives.

#![cfg(feature = "cuts")]

mod common;

use common::*;
use lapurmihi::{ByteOrder, Container, Format, Plan, Refusal};

/// What a load of what is found answers: nothing where it is a container, else why not.
fn found(image: &[u8]) -> Option<Refusal> {
    Container::load(image, &mut table()).err().map(|error| error.refusal)
}

/// What may stand in the image before an opening of the paper's plan, each with what it loads as.
fn befores() -> [(Vec<u8>, Option<Refusal>); 3] {
    let mut earlier = paper_container(ByteOrder::Big);
    earlier.resize(6208, 0xAA);
    let none = Some(Refusal::NoMark);
    [(vec![0; 6208], none), (vec![9; 6208], none), (earlier, None)]
}

#[test]
fn an_opening_is_no_container_from_its_first_store_to_its_last() {
    for order in ORDERS {
        let plan = paper().byte_order(order);
        for (before, loads) in befores() {
            for budget in 0..=1538 {
                let (mut image, mut table) = (before.clone(), vec![CELL; 6]);
                let session = plan.open_within(&mut image, &mut table, budget).unwrap();
                assert_eq!((session.tasks(), session.chunks_begun(1)), (2, Ok(0)));
                assert_eq!(table, [-1; 6]);
                let wanted = match budget {
                    0 => loads,
                    1..=1536 => Some(Refusal::NoMark),
                    _ => Some(Refusal::NotClosed),
                };
                assert_eq!(found(&image), wanted, "{order:?}, {budget}");
                assert_eq!(image[1536..], before[1536..]);
            }
        }
    }
}

/// A write that is cut stores its first bytes and no others; the session counts all of them.
#[test]
fn a_write_is_part_of_a_session_whatever_is_lost() {
    let request = bytes(300);
    for budget in 0..=301 {
        let (mut image, mut table) = memory(&paper());
        let mut session = paper().open(&mut image, &mut table).unwrap();
        session.write(2, b"x").unwrap();
        assert_eq!(session.write_within(1, &request, budget as u64), Ok(()));
        assert_eq!(session.chunks_begun(1), Ok(1));
        let stored = budget.min(300);
        assert_eq!(image[1536..][..stored], request[..stored]);
        assert!(image[1536 + stored..2048].iter().all(|&byte| byte == 0xAA));
        assert_eq!(found(&image), Some(Refusal::NotClosed));
        assert_eq!(table, [300, 1, -1, -1, -1, -1]);
    }
}

/// What is found while a session is closed, for each budget from 0 to one more than there are stores; closed again, it is what it would be.
fn closing(plan: &Plan, stores: u64) -> Vec<Option<Refusal>> {
    let request = bytes(501);
    let whole = packed(plan, &[(1, &request)]);
    let (mut image, mut table) = memory(plan);
    let mut session = plan.open(&mut image, &mut table).unwrap();
    session.write(1, &request).unwrap();
    let cut = |budget| {
        let left = session.close_within(budget).unwrap();
        let loads = found(left);
        assert_eq!((left.len(), left == whole), (whole.len(), loads.is_none()), "{budget}");
        loads
    };
    let all = (0..=stores + 1).map(cut).collect();
    assert_eq!(session.close().unwrap(), whole);
    all
}

/// A list of answers, each so many times.
fn runs(runs: &[(Option<Refusal>, usize)]) -> Vec<Option<Refusal>> {
    runs.iter().flat_map(|&(loads, times)| vec![loads; times]).collect()
}

const NOT_CLOSED: Option<Refusal> = Some(Refusal::NotClosed);

/// 44 stores, of which the last that tells where META2 starts is the second or the last but one of the start's 8 bytes.
#[test]
fn a_close_is_not_closed_until_it_is_complete() {
    for (order, until) in ORDERS.into_iter().zip([38, 43]) {
        for format in [Format::V3, Format::V4] {
            let plan = paper().byte_order(order).format(format);
            let wanted = runs(&[(NOT_CLOSED, until), (None, 46 - until)]);
            assert_eq!(closing(&plan, 44), wanted, "{order:?}, {format:?}");
        }
    }
}

/// With META2 at 66,048 two bytes tell where it starts: between them the start is wrong.
#[test]
fn a_close_is_in_the_wrong_place_between_two_bytes_of_the_start() {
    for (order, until) in ORDERS.into_iter().zip([22, 26]) {
        let plan = Plan::new(512).byte_order(order).task(0, 64_512);
        let between = Some(Refusal::BadMeta2Place);
        let wanted = runs(&[(NOT_CLOSED, until), (between, 1), (None, 29 - until)]);
        assert_eq!(closing(&plan, 28), wanted, "{order:?}");
    }
}

#[test]
fn a_refused_call_is_refused_whatever_its_budget() {
    for budget in [0, 1, u64::MAX] {
        let (mut image, mut table) = memory(&paper());
        let short = paper().open_within(&mut image[1..], &mut table, budget).map(drop);
        assert_eq!(short, Err(Refusal::TooShort));
        assert!(image.iter().all(|&byte| byte == 0xAA) && table == [CELL; 6]);

        let mut session = paper().open(&mut image, &mut table).unwrap();
        let before = format!("{session:?}");
        assert_eq!(session.write_within(1, &bytes(513), budget), Err(Refusal::TooLong));
        assert_eq!(session.write_within(3, b"x", budget), Err(Refusal::NoTask));
        assert_eq!(session.write_within(1, b"", budget), Ok(()));
        assert_eq!(format!("{session:?}"), before);
        session.close_within(0).unwrap();
        assert_eq!(session.write_within(2, b"x", budget), Ok(())); // it stays open
    }
}
