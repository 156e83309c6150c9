//! Holds what a pair's calls leave when they are cut: the stores of each image, in their order, go by a budget of its own.

use super::{order_of, plans, requests, Pair, ORDERS};
use crate::pair;

/// An opening makes 1,537 stores in each file: 0 in the mark's first byte, all up to D, and the `s`.
#[test]
fn openings() {
    let before = Pair::lent([6236, 2584], [6, 2]);
    let mut whole = before.clone();
    assert_eq!(whole.open(&plans([0, 1]), [u64::MAX; 2]), Ok(()));
    for budgets in [[0, 0], [1, 1537], [700, 2], [1536, 1119], [1537, 0], [1537, 1537], [9999, 1]] {
        let mut cut = before.clone();
        assert_eq!(cut.open(&plans([0, 1]), budgets), Ok(()));
        assert_eq!((&cut.sessions, &cut.tables), (&whole.sessions, &whole.tables));
        for (file, budget) in budgets.into_iter().enumerate() {
            let (found, stored) = (&cut.images[file], budget.clamp(1, 1536) as usize);
            let moment = usize::from(budget > 0) + usize::from(budget > 1536);
            assert_eq!(found[0], [9, 0, b's'][moment]);
            assert_eq!(found[1..stored], whole.images[file][1..stored]);
            assert_eq!(found[stored..], before.images[file][stored..]);
        }
    }
}

/// An image of which the first so many stores, in this order of places, have the bytes of the whole call.
fn reached(before: &[u8], whole: &[u8], stores: &[usize], budget: u64) -> Vec<u8> {
    let mut image = before.to_vec();
    for &at in stores.iter().take(budget as usize) {
        image[at] = whole[at];
    }
    image
}

/// A write spends the budget of the file that carries its rank, and no other.
#[test]
fn writes() {
    for (i, (rank, bytes)) in requests().into_iter().enumerate() {
        let mut before = Pair::opened(&plans([1, 0]));
        for (rank, bytes) in &requests()[..i] {
            assert_eq!(before.write(*rank, bytes), Ok(()));
        }
        let mut whole = before.clone();
        assert_eq!(whole.write(rank, &bytes), Ok(()));
        let (file, length) = (usize::from(rank == 1), bytes.len() as u64);
        let (old, new) = (&before.images[file], &whole.images[file]);
        let stores: Vec<usize> = (0..old.len()).filter(|&at| old[at] != new[at]).collect();
        assert_eq!(stores.len() as u64, length);
        for budget in [0, 1, length / 2, length, length + 1] {
            let (mut cut, mut budgets) = (before.clone(), [3; 2]);
            budgets[file] = budget;
            let Pair { sessions, images: [image, other], tables: [table, cells] } = &mut cut;
            let (images, tables) = ([&mut image[..], other], [&mut table[..], cells]);
            let answer = pair::write_within(sessions, images, tables, rank, &bytes, budgets);
            assert_eq!(
                (answer, &cut.sessions, &cut.tables),
                (Ok(()), &whole.sessions, &whole.tables)
            );
            assert_eq!(cut.images[file], reached(old, new, &stores, budget));
            assert_eq!(cut.images[1 - file], before.images[1 - file]);
        }
    }
}

/// The stores of a close in file 0: 48 bytes of META2 at 4608, 28 of the mapping behind it, maxchunks at 1108 and the start at 1112.
fn stores_of_0() -> Vec<usize> {
    (4608..4684).chain(1108..1120).collect()
}

/// The stores of a close in file 1: 24 bytes of META2 at 2560, maxchunks at 1092 and the start at 1096.
fn stores_of_1() -> Vec<usize> {
    (2560..2584).chain(1092..1104).collect()
}

#[test]
fn closes() {
    let stores = [stores_of_0(), stores_of_1()];
    assert_eq!([stores[0].len(), stores[1].len()], [88, 36]);
    for orders in ORDERS {
        let before = Pair::filled(orders);
        let mut whole = before.clone();
        let lengths = whole.close();
        for budget in 0..=89 {
            let (mut cut, budgets) = (before.clone(), [budget, 89 - budget]);
            let Pair { sessions, images: [image, other], tables: [table, cells] } = &mut cut;
            let answer = pair::close_within(sessions, [image, other], [table, cells], budgets);
            assert_eq!((answer, &cut.sessions), (lengths, &whole.sessions));
            for file in 0..2 {
                let (old, new) = (&before.images[file], &whole.images[file]);
                let wanted = reached(old, new, &stores[file], budgets[file]);
                assert_eq!(cut.images[file], wanted, "{budgets:?}");
            }
        }
    }
}

/// With the mapping stored and not yet the two fields, file 0 is not closed; a close made again on what is found gives all.
#[test]
fn a_close_cut_behind_the_mapping() {
    let before = Pair::filled([0, 1]);
    let (mut whole, mut cut) = (before.clone(), before.clone());
    assert_eq!(whole.close(), Ok([4684, 2584]));
    let Pair { sessions, images: [image, other], tables: [table, cells] } = &mut cut;
    let answer = pair::close_within(sessions, [image, other], [table, cells], [76, 0]);
    assert_eq!(answer, Ok([4684, 2584]));
    let order = order_of(0);
    let found =
        |image: &[u8]| (order.int(image, 4656), order.int(image, 1108), order.long(image, 1112));
    assert_eq!((found(&cut.images[0]), &cut.images[1]), ((3, 0, 0), &before.images[1]));
    cut.sessions = before.sessions;
    assert_eq!(cut.close(), Ok([4684, 2584]));
    assert_eq!(cut, whole);
}
