//! Holds what is found after a power cut: each call of a session cut after every byte store, and what loading it then gives.

use super::{p12_requests, session_in, Opened, SIZES};
use crate::*;

/// The byte orders, with what is found before an opening: zeros, nines, and a container that was complete.
fn befores() -> Vec<(u32, Vec<u8>, u32)> {
    let images = |order: u32| {
        let (closed, _) = super::p12(1 - order);
        [(vec![0; 6208], 1), (vec![9; 6208], 1), (closed, 0)].map(|(i, number)| (order, i, number))
    };
    [0, 1].into_iter().flat_map(images).collect()
}

/// What a load of all that is found answers, over a table that is long enough.
fn found(image: &[u8]) -> u32 {
    super::refusal(image, &mut [0; 64]).unwrap_or(0)
}

/// Opens P12's session in version 3 over an image, with just so many byte stores.
fn opened(order: u32, mut image: Vec<u8>, budget: u64) -> Opened {
    let mut table = vec![7; 6];
    let session =
        open_within(order, 1, 7, 3, 512, &[0, 1], &SIZES, b"p", 3, &mut image, &mut table, budget);
    (session.expect("a sound plan"), image, table)
}

/// P12's opening makes 1,537 stores: it gives what was there before the first, 1 up to the last but one, and 10 with the last.
#[test]
fn an_opening_is_1_from_its_first_store_to_its_last() {
    for (order, before, number) in befores() {
        let whole = opened(order, before.clone(), u64::MAX);
        assert_eq!(found(&before), number);
        for budget in 0..=1538 {
            let (session, image, table) = opened(order, before.clone(), budget);
            assert_eq!((&session, &table), (&whole.0, &whole.2));
            let moment = usize::from(budget > 0) + usize::from(budget > 1536);
            let wanted = ([number, 1, 10][moment], [before[0], 0, b's'][moment]);
            assert_eq!((found(&image), image[0]), wanted, "{order}, {budget}");
            let stored = (budget as usize).clamp(1, 1536);
            assert_eq!(image[1..stored], whole.1[1..stored]);
            assert_eq!(image[stored..], before[stored..]);
            assert_eq!(image == whole.1, budget > 1536);
        }
    }
}

#[test]
fn a_write_changes_its_own_place_alone() {
    for (order, before, _) in befores() {
        let (mut session, mut image, mut table) = opened(order, before, u64::MAX);
        for (bytes, place) in p12_requests().into_iter().zip([1536, 1836, 2036]) {
            let before = (session.clone(), image.clone(), table.clone());
            assert_eq!(write(&mut session, &mut image, &mut table, 1, &bytes), Ok(()));
            for budget in 0..=bytes.len() + 1 {
                let (mut cut, mut left, mut cells) = before.clone();
                let answer =
                    write_within(&mut cut, &mut left, &mut cells, 1, &bytes, budget as u64);
                assert_eq!((answer, &cut, &cells), (Ok(()), &session, &table));
                let reached = place + budget.min(bytes.len());
                assert_eq!(left[..place], before.1[..place]);
                assert_eq!(left[place..reached], image[place..reached]);
                assert_eq!(left[reached..], before.1[reached..]);
                assert_eq!(found(&left), 10);
            }
        }
    }
}

/// What is found while a session is closed, an answer for each budget from 0 to one more than there are stores. Made again on what is found,
/// the close gives all that it would have given.
fn closing(session: &Session, before: &[u8], table: &[i64], stores: u64) -> Vec<u32> {
    let (mut closed, mut image) = (session.clone(), before.to_vec());
    let length = close(&mut closed, &mut image, table);
    let cut = |budget| {
        let (mut cut, mut left) = (session.clone(), before.to_vec());
        assert_eq!(close_within(&mut cut, &mut left, table, budget), length);
        assert_eq!(cut, closed);
        let number = found(&left);
        assert_eq!(left == image, number == 0, "{budget}");
        let mut again = session.clone();
        assert_eq!(close(&mut again, &mut left, table), length);
        assert_eq!((&again, &left), (&closed, &image));
        number
    };
    (0..=stores + 1).map(cut).collect()
}

/// A list of answers, each so many times.
fn runs(runs: &[(u32, usize)]) -> Vec<u32> {
    runs.iter().flat_map(|&(number, times)| vec![number; times]).collect()
}

/// P12's close makes 44 stores. Its META2 starts at 3072, of which one byte is not 0: the container is complete as soon as that byte is
/// stored, and 12 is never found.
#[test]
fn a_close_with_one_byte_to_tell_has_no_12() {
    for (order, before, _) in befores() {
        let (mut session, mut image, mut table) = opened(order, before, u64::MAX);
        for bytes in p12_requests() {
            assert_eq!(write(&mut session, &mut image, &mut table, 1, &bytes), Ok(()));
        }
        let until = [38, 43][order as usize];
        let wanted = runs(&[(10, until), (0, 46 - until)]);
        assert_eq!(closing(&session, &image, &table, 44), wanted, "{order}");
    }
}

/// One task of size 64,512 with one chunk in use has META2 at 66,048, which is 1 times 65,536 and 2 times 256: of 28 stores the one that puts
/// the first of these two bytes leaves a start that is wrong.
#[test]
fn a_close_with_two_bytes_to_tell_has_12_between_them() {
    for (order, until) in [(0, 22), (1, 26)] {
        for format in [3, 4] {
            let (mut session, mut image, mut table) = session_in(format, 512, order, &[64_512], 1);
            assert_eq!(write(&mut session, &mut image, &mut table, 1, b"x"), Ok(()));
            let wanted = runs(&[(10, until), (12, 1), (0, 29 - until)]);
            assert_eq!(closing(&session, &image, &table, 28), wanted, "{order}, {format}");
        }
    }
}

/// Below 66,048 a start of META2, which is a multiple of 512, has one byte that is not 0.
#[test]
fn no_start_below_66048_has_two_bytes_to_tell() {
    let telling = |start: u64| start.to_le_bytes().into_iter().filter(|&byte| byte != 0).count();
    let starts: Vec<u64> = (0..=66_048).step_by(512).filter(|&at| telling(at) > 1).collect();
    assert_eq!(starts, [66_048]);
}

#[test]
fn a_refused_call_stores_nothing_whatever_its_budget() {
    for budget in [0, 1, 9, u64::MAX] {
        let (mut image, mut table) = (vec![9; 6207], vec![7; 6]);
        let answer =
            open_within(0, 1, 7, 3, 512, &[0, 1], &SIZES, b"p", 3, &mut image, &mut table, budget);
        assert_eq!((answer, image, table), (Err(18), vec![9; 6207], vec![7; 6]));

        let (mut session, before, mut table) = opened(0, vec![9; 6208], u64::MAX);
        let mut image = before.clone();
        let long = write_within(&mut session, &mut image, &mut table, 1, &[1; 513], budget);
        let none = write_within(&mut session, &mut image, &mut table, 3, &[1], budget);
        session.head.closed = 1;
        let closed = close_within(&mut session, &mut image, &table, budget);
        assert_eq!((long, none, closed, image), (Err(15), Err(14), Err(17), before));
    }
}
