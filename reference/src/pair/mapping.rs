//! Holds the mapping of a pair, from each global rank to the file and the task that carry it: as the two records give it, as its bytes are
//! stored behind META2 of file 0, and the tests of them, which are all of refusal 25.

use crate::load::within;
use crate::{Fault, Head, Kind, Loaded};

/// mapping_size, the number of both files' tasks.
fn size(heads: [&Head; 2]) -> usize {
    heads[0].tasks() + heads[1].tasks()
}

/// The bytes of the whole mapping: mapping_size, and two numbers for each rank.
pub(super) fn bytes(heads: [&Head; 2]) -> u64 {
    4 + 8 * size(heads) as u64
}

/// Whether each rank below mapping_size is carried; since there are so many tasks, each is then carried once, and no other rank is.
pub(super) fn complete(heads: [&Head; 2]) -> bool {
    let mut carried = vec![false; size(heads)];
    for &rank in heads.into_iter().flat_map(Head::ranks) {
        if let Some(mark) = usize::try_from(rank).ok().and_then(|rank| carried.get_mut(rank)) {
            *mark = true;
        }
    }
    carried.into_iter().all(|mark| mark)
}

/// The file and the task, both counted from 0, that carry a rank; none for a rank that is not below mapping_size, if the pair lacks none.
pub(super) fn carrier(heads: [&Head; 2], rank: u64) -> Option<(usize, usize)> {
    let task = |file: usize| heads[file].ranks().iter().position(|&carried| carried == rank);
    (0..2).find_map(|file| task(file).map(|task| (file, task)))
}

/// The mapping's bytes, in the order of file 0.
pub(super) fn stored(heads: [&Head; 2]) -> Vec<u8> {
    let (size, order) = (size(heads), heads[0].byte_order());
    let entries = (0..size as u64).filter_map(|rank| carrier(heads, rank));
    let numbers = entries.flat_map(|(file, task)| [file, task]);
    let all = [size].into_iter().chain(numbers);
    all.flat_map(|number| order.int_bytes(number as i32)).collect()
}

/// Test 25 of file 0, which has passed all others, as file 1 has: mapping_size, then the fit, then the entries.
pub(super) fn judge(image: &[u8], loaded: &[Loaded; 2]) -> Result<(), Fault> {
    let heads = [&loaded[0].head, &loaded[1].head];
    let (start, size) = (loaded[0].end(), size(heads));
    let end = start + bytes(heads);
    let (length, short) = (image.len() as u64, Fault::short(25, image, end));

    short.unless(length >= start + 4)?;
    let (start, right) = (start as usize, size as i64);
    let says = i64::from(heads[0].byte_order().int(image, start));
    within(25, Kind::MappingSize, start, says, right..=right)?;
    short.unless(length >= end)?;
    for rank in 0..size {
        entry(image, start + 4 + 8 * rank, rank, heads).map_err(|fault| fault.of_task(rank))?;
    }
    Ok(())
}

/// The entry of a rank names an existing task that carries it: the file number, the local rank, and then the rank that is carried there.
fn entry(image: &[u8], place: usize, rank: usize, heads: [&Head; 2]) -> Result<(), Fault> {
    let number = |at| i64::from(heads[0].byte_order().int(image, at));
    let head = heads[within(25, Kind::EntryFile, place, number(place), 0..=1)? as usize];
    let last = head.tasks() as i64 - 1;
    let task = within(25, Kind::EntryTask, place, number(place + 4), 0..=last)? as usize;
    let (carried, rank) = (head.ranks[task] as i64, rank as i64);
    within(25, Kind::EntryRank, place, carried, rank..=rank)?;
    Ok(())
}
