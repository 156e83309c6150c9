//! Holds the loader: every test of one file, in the paper's order, the record it leaves, and where it breaks off.

use crate::layout::{
    bad_rank, bad_size, blocksize_ok, maxchunks_at, meta1_end, sizes_at, start_at,
};
use crate::layout::{FORMATS, MARK, MAX_CHUNKS, MAX_RANK, MAX_SIZE, MAX_TASKS, RANKS_AT};
use crate::record::{Member, SINGLE};
use crate::{Fault, Head, Kind, Loaded, Order};
use std::ops::RangeInclusive;

/// Loads a container; tests in the order 1, 2, 3, 4, 5, 6, 7, 3, 8, 9, 10, 11, 12, 18, 13.
pub fn load(image: &[u8], table: &mut [i64]) -> Result<Loaded, Fault> {
    let loaded = judge_file(SINGLE, image, table)?;
    fill(&loaded, image, table);
    Ok(loaded)
}

/// All tests of this file of so many, over a table that stays as it is.
pub(crate) fn judge_file(member: Member, image: &[u8], table: &[i64]) -> Result<Loaded, Fault> {
    let order = byte_order(image)?;
    let mut head = scalars(member, image, order)?;
    lists(image, order, &mut head)?;
    let (maxchunks, meta2) = find_meta2(image, order, &head)?;

    let mut loaded = Loaded { head, maxchunks };
    let (lent, need) = (table.len() as i64, loaded.cells() as i64);
    Fault::new(18, Kind::Table, 0, lent, need..=need).unless(lent >= need)?;
    counts(image, order, meta2, maxchunks, &mut loaded.head)?;
    values(image, order, values_at(&loaded), maxchunks, &loaded.head)?;
    Ok(loaded)
}

/// Fills the cells with the values of a file that has passed.
pub(crate) fn fill(loaded: &Loaded, image: &[u8], table: &mut [i64]) {
    let values = loaded.head.byte_order().longs(&image[values_at(loaded)..]);
    for (cell, value) in table[..loaded.cells()].iter_mut().zip(values) {
        *cell = value;
    }
}

/// Where the values of META2 start.
fn values_at(loaded: &Loaded) -> usize {
    loaded.end() as usize - 8 * loaded.cells()
}

/// The number, if it is in its range.
pub(crate) fn within(
    refusal: u32,
    kind: Kind,
    place: usize,
    says: i64,
    range: RangeInclusive<i64>,
) -> Result<i64, Fault> {
    let inside = range.contains(&says);
    Fault::new(refusal, kind, place, says, range).unless(inside)?;
    Ok(says)
}

/// Passes if the image has so many bytes.
fn reaches(refusal: u32, image: &[u8], needed: u64) -> Result<(), Fault> {
    Fault::short(refusal, image, needed).unless(image.len() as u64 >= needed)
}

/// Tests 1 and 2.
fn byte_order(image: &[u8]) -> Result<Order, Fault> {
    Fault::new(1, Kind::Mark, 0, 0, 0..=0).unless(image.starts_with(&MARK))?;
    let unordered = Fault::new(2, Kind::Order, 4, 0, 0..=0);
    unordered.unless(image.len() >= 8)?;
    let found = [Order::Little, Order::Big].into_iter().find(|order| order.int(image, 4) == 1);
    found.ok_or(unordered)
}

/// Tests 3 (1076), 4, 5, 6, 7 and 3 (full).
fn scalars(member: Member, image: &[u8], order: Order) -> Result<Head, Fault> {
    reaches(3, image, RANKS_AT as u64)?;
    let number = |place| i64::from(order.int(image, place));
    let format = within(4, Kind::Format, 16, number(16), FORMATS)? as u32;
    let odd = Fault::new(5, Kind::Blocksize, 20, number(20), 512..=4_194_304);
    let blocksize = u32::try_from(number(20)).map_err(|_| odd)?;
    odd.unless(blocksize_ok(blocksize))?;
    let n = within(6, Kind::Tasks, 24, number(24), 1..=MAX_TASKS as i64)? as u32;
    let Member { files, file } = member;
    within(7, Kind::Files, 28, number(28), i64::from(files)..=i64::from(files))?;
    within(7, Kind::FileNumber, 32, number(32), i64::from(file)..=i64::from(file))?;
    reaches(3, image, meta1_end(u64::from(n)))?;

    let (version, patch) = (order.int(image, 8), order.int(image, 12));
    let numbers = Head { version, patch, format, blocksize, n, files, file, ..Head::refused() };
    Ok(Head { order: order.number(), closed: 0, ..numbers })
}

/// Tests 8 and 9; a negative number turns into one far over either bound.
fn lists(image: &[u8], order: Order, head: &mut Head) -> Result<(), Fault> {
    let n = head.tasks();
    let ranks = order.longs(&image[RANKS_AT..sizes_at(n)]);
    let sizes = order.longs(&image[sizes_at(n)..maxchunks_at(n)]);
    for (i, (rank, size)) in ranks.zip(sizes).enumerate() {
        head.ranks[i] = rank as u64;
        head.sizes[i] = size as u64;
    }
    if let Some(i) = bad_rank(&head.ranks[..n]) {
        let (place, says) = (RANKS_AT + 8 * i, head.ranks[i] as i64);
        return Err(Fault::new(8, Kind::Rank, place, says, 0..=MAX_RANK as i64).of_task(i));
    }
    if let Some(i) = bad_size(&head.sizes[..n]) {
        let (place, says) = (sizes_at(n) + 8 * i, head.sizes[i] as i64);
        return Err(Fault::new(9, Kind::Size, place, says, 1..=MAX_SIZE as i64).of_task(i));
    }
    Ok(())
}

/// Tests 10, 11 and 12; hands back maxchunks and where META2 starts.
fn find_meta2(image: &[u8], order: Order, head: &Head) -> Result<(u32, usize), Fault> {
    let n = head.tasks();
    let start = order.long(image, start_at(n));
    Fault::new(10, Kind::Start, start_at(n), 0, 1..=i64::MAX).unless(start != 0)?;
    let (place, says) = (maxchunks_at(n), i64::from(order.int(image, maxchunks_at(n))));
    let maxchunks = within(11, Kind::Maxchunks, place, says, 0..=i64::from(MAX_CHUNKS))?;

    let right = head.layout().meta2(maxchunks as u64) as i64;
    within(12, Kind::Start, start_at(n), start, right..=right)?;
    reaches(12, image, head.layout().end(maxchunks as u64))?;
    Ok((maxchunks as u32, right as usize))
}

/// Test 13 of the counts, one by one, and of the greatest of them.
fn counts(
    image: &[u8],
    order: Order,
    meta2: usize,
    maxchunks: u32,
    head: &mut Head,
) -> Result<(), Fault> {
    let range = head.least_count() as i64..=i64::from(maxchunks);
    for i in 0..head.tasks() {
        let place = meta2 + 8 * i;
        let count = within(13, Kind::Count, place, order.long(image, place), range.clone());
        head.counts[i] = count.map_err(|fault| fault.of_task(i))? as u64;
    }
    let (greatest, place) = (head.greatest() as i64, maxchunks_at(head.tasks()));
    within(13, Kind::Maxchunks, place, i64::from(maxchunks), greatest..=greatest)?;
    Ok(())
}

/// Test 13 of the values, which start at `first`, in the order of their offsets.
fn values(
    image: &[u8],
    order: Order,
    first: usize,
    maxchunks: u32,
    head: &Head,
) -> Result<(), Fault> {
    let n = head.tasks();
    for i in 0..n * maxchunks as usize {
        let (chunk, task, place) = ((i / n) as u64 + 1, i % n, first + 8 * i);
        let value = order.long(image, place);
        within(13, Kind::Value, place, value, head.values(chunk, task))
            .map_err(|fault| fault.of_task(task).of_chunk(chunk))?;
    }
    Ok(())
}
