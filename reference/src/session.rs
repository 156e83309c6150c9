//! Holds a session: opening, writing and closing, each also within a budget of byte stores, after which the power goes. A budget is of the
//! image's stores alone: answer, record and table of a call that is cut are those of the whole call.

use crate::demand;
use crate::drive::Drive;
use crate::layout::{maxchunks_at, meta1_end, sizes_at, start_at};
use crate::layout::{IDLE_FORMAT, MARK, RANKS_AT};
use crate::record::SINGLE;
use crate::{Head, Plan, Session};

/// More byte stores than any call makes.
pub(crate) const ENOUGH: u64 = u64::MAX;

/// Opens a session; tests in the order 2, 4, 5, 6, 21, 8, 9, 20, 18.
#[allow(clippy::too_many_arguments)]
pub fn open(
    order: u32,
    version: i32,
    patch: i32,
    format: u32,
    blocksize: u32,
    ranks: &[u64],
    sizes: &[u64],
    prefix: &[u8],
    k: u32,
    image: &mut [u8],
    table: &mut [i64],
) -> Result<Session, u32> {
    open_within(
        order, version, patch, format, blocksize, ranks, sizes, prefix, k, image, table, ENOUGH,
    )
}

/// Opens a session, of whose byte stores just the first `budget` reach the image.
#[allow(clippy::too_many_arguments)]
pub fn open_within(
    order: u32,
    version: i32,
    patch: i32,
    format: u32,
    blocksize: u32,
    ranks: &[u64],
    sizes: &[u64],
    prefix: &[u8],
    k: u32,
    image: &mut [u8],
    table: &mut [i64],
    budget: u64,
) -> Result<Session, u32> {
    let plan = Plan { order, version, patch, format, blocksize, ranks, sizes, prefix, k };
    let session = plan.session(SINGLE)?;
    session.judge_lengths(0, image, table)?;
    begin(&session, prefix, image, table, budget);
    Ok(session)
}

/// What an opening stores: the cells of a session in which nothing is written, and META1 with the zeros up to D.
pub(crate) fn begin(
    session: &Session,
    prefix: &[u8],
    image: &mut [u8],
    table: &mut [i64],
    budget: u64,
) {
    let (head, cells) = (&session.head, &mut table[..session.cells()]);
    cells.fill(-1);
    if head.format == IDLE_FORMAT {
        cells[..head.tasks()].fill(0);
    }
    put_meta1(&meta1(head, prefix), head.layout().d, Drive::new(image, budget));
}

/// META1 of a session just opened.
pub(crate) fn meta1(head: &Head, prefix: &[u8]) -> Vec<u8> {
    let (n, order) = (head.tasks(), head.byte_order());
    let mut bytes = vec![0; meta1_end(n as u64) as usize];
    bytes[..4].copy_from_slice(&MARK);
    let later = [head.format, head.blocksize, head.n, head.files, head.file];
    let ints = [1, head.version, head.patch].into_iter().chain(later.map(|value| value as i32));
    for (i, value) in ints.enumerate() {
        order.put_int(&mut bytes, 4 + 4 * i, value);
    }
    bytes[52..52 + prefix.len()].copy_from_slice(prefix);
    for i in 0..n {
        order.put_long(&mut bytes, RANKS_AT + 8 * i, head.ranks[i] as i64);
        order.put_long(&mut bytes, sizes_at(n) + 8 * i, head.sizes[i] as i64);
    }
    bytes
}

/// Stores META1 and zeros up to D under a mark that is broken as long as this lasts: its first byte is 0 from the first store to the last.
fn put_meta1(meta1: &[u8], d: u64, mut drive: Drive) {
    drive.put(0, &[0]);
    drive.put(1, &meta1[1..]);
    drive.clear(meta1.len(), d as usize);
    drive.put(0, &meta1[..1]);
}

/// Writes the bytes of one request; tests in the order 17, 18, 19, 14, empty accepted, 15, 16.
pub fn write(
    session: &mut Session,
    image: &mut [u8],
    table: &mut [i64],
    task: u64,
    bytes: &[u8],
) -> Result<(), u32> {
    write_within(session, image, table, task, bytes, ENOUGH)
}

/// Writes the bytes of one request in their order, of which just the first `budget` reach the image.
pub fn write_within(
    session: &mut Session,
    image: &mut [u8],
    table: &mut [i64],
    task: u64,
    bytes: &[u8],
    budget: u64,
) -> Result<(), u32> {
    session.judge(image, table)?;
    let task = session.head.task(task)?;
    store(session, image, table, task, bytes, budget)
}

/// Stores the bytes of one request of a task, counted from 0; empty accepted, then tests 15 and 16.
pub(crate) fn store(
    session: &mut Session,
    image: &mut [u8],
    table: &mut [i64],
    task: usize,
    bytes: &[u8],
    budget: u64,
) -> Result<(), u32> {
    if bytes.is_empty() {
        return Ok(());
    }
    let length = bytes.len() as u64;
    demand(length <= session.head.capacity(task), 15)?;

    let (chunk, used) = room(session, table, task, length).ok_or(16u32)?;
    let start = (session.head.layout().chunk(task, chunk) + used) as usize;
    Drive::new(image, budget).put(start, bytes);
    table[chunk as usize * session.head.tasks() + task] = (used + length) as i64;
    session.head.counts[task] = chunk + 1;
    Ok(())
}

/// The chunk, counted from 0, that takes a request, and the bytes already in it.
fn room(session: &Session, table: &[i64], task: usize, length: u64) -> Option<(u64, u64)> {
    let count = session.head.counts[task];
    if let Some(last) = count.checked_sub(1) {
        let used = table[last as usize * session.head.tasks() + task] as u64;
        if used + length <= session.head.capacity(task) {
            return Some((last, used));
        }
    }
    (count < u64::from(session.k)).then_some((count, 0))
}

/// Closes a session and reports the container's length; tests in the order 17, 18, 19.
pub fn close(session: &mut Session, image: &mut [u8], table: &[i64]) -> Result<u64, u32> {
    close_within(session, image, table, ENOUGH)
}

/// Closes a session: META2, then maxchunks, then start_of_varheader, of whose byte stores just the first `budget` reach the image.
pub fn close_within(
    session: &mut Session,
    image: &mut [u8],
    table: &[i64],
    budget: u64,
) -> Result<u64, u32> {
    session.judge(image, table)?;
    Ok(finish(session, image, table, &[], budget))
}

/// Stores META2 and the mapping behind it, if there is any, then maxchunks and start_of_varheader; marks the session closed, and gives the
/// container's length.
pub(crate) fn finish(
    session: &mut Session,
    image: &mut [u8],
    table: &[i64],
    mapping: &[u8],
    budget: u64,
) -> u64 {
    let (head, order) = (&session.head, session.head.byte_order());
    let (n, maxchunks, layout) = (head.tasks(), head.greatest(), head.layout());
    let (start, end) = (layout.meta2(maxchunks), layout.end(maxchunks));
    let values = table[..n * maxchunks as usize].iter().copied();

    let mut drive = Drive::new(image, budget);
    drive.put(start as usize, &meta2(head, values));
    drive.put(end as usize, mapping);
    drive.put(maxchunks_at(n), &order.int_bytes(maxchunks as i32));
    drive.put(start_at(n), &order.long_bytes(start as i64));
    session.head.closed = 1;
    end + mapping.len() as u64
}

/// META2 of a record's counts and these values.
pub(crate) fn meta2(head: &Head, values: impl Iterator<Item = i64>) -> Vec<u8> {
    let order = head.byte_order();
    let counts = head.counts[..head.tasks()].iter().map(|&count| count as i64);
    counts.chain(values).flat_map(|value| order.long_bytes(value)).collect()
}
