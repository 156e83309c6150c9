//! Holds packing: a loaded container of a single file is written into a second image so that each task has one chunk of just the size that
//! its stream needs. As an opening's, the mark is broken from the first store to the last; there is a call within a budget of them.

use crate::demand;
use crate::drive::Drive;
use crate::layout::{maxchunks_at, start_at, FLAGS_AT, MAX_SIZE, RANKS_AT};
use crate::read::{part, total_of};
use crate::session::{meta1, meta2, ENOUGH};
use crate::Loaded;

/// The bytes of the packed container; tests in the order 17, 18, 19, 9.
pub fn packed_length(loaded: &Loaded, image: &[u8], table: &[i64]) -> Result<u64, u32> {
    Ok(packed(loaded, image, table)?.end())
}

/// Writes the packed container into a second image and reports its length; tests as `packed_length`, then 18 of the second image.
pub fn pack(loaded: &Loaded, image: &[u8], table: &[i64], second: &mut [u8]) -> Result<u64, u32> {
    pack_within(loaded, image, table, second, ENOUGH)
}

/// Writes the packed container: 0 into the mark's first byte, all later bytes by their offsets, then the mark's first byte. Just the first
/// `budget` of these byte stores reach the second image.
pub fn pack_within(
    loaded: &Loaded,
    image: &[u8],
    table: &[i64],
    second: &mut [u8],
    budget: u64,
) -> Result<u64, u32> {
    let packed = packed(loaded, image, table)?;
    demand(second.len() as u64 >= packed.end(), 18)?;

    let (layout, meta1) = (packed.head.layout(), closed_meta1(&packed, image));
    let mut drive = Drive::new(second, budget);
    drive.put(0, &[0]);
    drive.put(1, &meta1[1..]);
    drive.clear(meta1.len(), layout.d as usize);
    for task in 0..packed.cells() {
        put_stream(loaded, image, table, task, &packed, &mut drive);
    }
    let start = layout.meta2(u64::from(packed.maxchunks));
    drive.put(start as usize, &meta2(&packed.head, values(loaded, table, &packed)));
    drive.put(0, &meta1[..1]);
    Ok(packed.end())
}

/// The record that a load of the packed container gives, with one cell for each task or, if no task has a chunk, none; tests 17, 18, 19, 9.
fn packed(loaded: &Loaded, image: &[u8], table: &[i64]) -> Result<Loaded, u32> {
    loaded.judge(image, table)?;
    let mut head = loaded.head.clone();
    for task in 0..head.tasks() {
        let total = total_of(loaded, table, task);
        demand(total <= MAX_SIZE, 9)?;
        head.sizes[task] = total.max(1);
        head.counts[task] = total.min(1).max(head.least_count());
    }
    let maxchunks = head.greatest() as u32;
    Ok(Loaded { head, maxchunks })
}

/// META1 of the packed container, of which flags and prefix are the image's, byte by byte.
fn closed_meta1(packed: &Loaded, image: &[u8]) -> Vec<u8> {
    let (n, order) = (packed.head.tasks(), packed.head.byte_order());
    let start = packed.head.layout().meta2(u64::from(packed.maxchunks));
    let mut bytes = meta1(&packed.head, &[]);
    bytes[FLAGS_AT..RANKS_AT].copy_from_slice(&image[FLAGS_AT..RANKS_AT]);
    order.put_int(&mut bytes, maxchunks_at(n), packed.maxchunks as i32);
    order.put_long(&mut bytes, start_at(n), start as i64);
    bytes
}

/// Stores the stream of a task, counted from 0, into its chunk 1, and zeros into the gap behind it.
fn put_stream(
    loaded: &Loaded,
    image: &[u8],
    table: &[i64],
    task: usize,
    packed: &Loaded,
    drive: &mut Drive,
) {
    let start = packed.head.layout().chunk(task, 0);
    let (mut at, end) = (start as usize, start + packed.head.capacity(task));
    for chunk in 0..loaded.head.counts[task] {
        let written = part(loaded, image, table, task, chunk);
        drive.put(at, written);
        at += written.len();
    }
    drive.clear(at, end as usize);
}

/// The values of the packed META2: for each task its total, or -1 if its count is 0; none at all if every count is.
fn values<'a>(
    loaded: &'a Loaded,
    table: &'a [i64],
    packed: &'a Loaded,
) -> impl Iterator<Item = i64> + 'a {
    (0..packed.cells()).map(move |task| match packed.head.counts[task] {
        0 => -1,
        _ => total_of(loaded, table, task) as i64,
    })
}
