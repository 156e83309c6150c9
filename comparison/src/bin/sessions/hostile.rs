//! Holds the changes to a good session and to a loaded container, each of one thing, after which a call may be out of order.

use crate::drawn::spoilt_rank;
use crate::memory::Memory;
use crate::plan::Plan;
use lapurmihi::TASKS;
use reference::{Head, Loaded, Rng, Session, IDLE_FORMAT};

/// Changes one thing of a session; gives the number that every call must then answer, or none where that depends on more than the change.
pub fn change_session(memory: &mut Memory, plan: &Plan, rng: &mut Rng) -> Option<u32> {
    let change = rng.below(6);
    match change {
        0 | 1 => spoil_record(&mut memory.session, rng),
        2 => lend_less(memory, plan, rng),
        3 => spoil_cell(memory, rng),
        4 => change_record(&mut memory.session, rng),
        _ => change_cell(memory, rng),
    }
    match change {
        0 | 1 => Some(17),
        2 => Some(18),
        3 => Some(19),
        _ => None,
    }
}

/// One field that breaks its rule.
fn spoil_record(session: &mut Session, rng: &mut Rng) {
    let Session { head, k } = session;
    let n = head.n as usize;
    let task = rng.below(n);
    match rng.below(10) {
        0 => head.blocksize = rng.pick(&[0, 256, 768, 8_388_608]),
        1 => head.n = rng.pick(&[0, 65, u32::MAX]),
        2 => head.sizes[task] = rng.pick(&[0, 1_073_741_825, u64::MAX]),
        3 => head.counts[task] = u64::from(*k) + 1,
        4 => *k = rng.pick(&[0, 33, u32::MAX]),
        5 => spoil_file(head, rng),
        _ => spoil_head(head, rng),
    }
}

/// One field that breaks its rule in both kinds of record, and by which no length goes.
pub fn spoil_head(head: &mut Head, rng: &mut Rng) {
    let n = head.n as usize;
    let task = rng.below(n);
    match rng.below(7) {
        0 => head.order = rng.pick(&[2, u32::MAX]),
        1 => head.closed = rng.pick(&[1, 7, u32::MAX]),
        2 => head.counts[task] = rng.pick(&[33, u64::MAX]),
        3 => head.format = rng.pick(&[0, 2, 5, u32::MAX]),
        4 if head.format == IDLE_FORMAT => head.counts[task] = 0,
        _ => head.ranks[task] = spoilt_rank(&head.ranks[..n], task, rng),
    }
}

/// nfiles and filenumber of another file than a single one: of none, of one of a pair, or of one that there cannot be.
pub fn spoil_file(head: &mut Head, rng: &mut Rng) {
    let most = u32::MAX;
    let others = [(0, 0), (0, 1), (2, 0), (2, 1), (1, 1), (3, 2), (most, 0), (1, most)];
    (head.files, head.file) = rng.pick(&others);
}

/// An image or a table that is too short.
fn lend_less(memory: &mut Memory, plan: &Plan, rng: &mut Rng) {
    match rng.below(4) {
        0 => memory.image.length = plan.needed_bytes() - 1,
        1 => memory.image.length = rng.pick(&[0, 1088]),
        2 => memory.table.length = plan.needed_cells() - 1,
        _ => memory.table.length = 0,
    }
}

/// One of the n·K cells against META2's rule.
fn spoil_cell(Memory { session, table, .. }: &mut Memory, rng: &mut Rng) {
    let (at, value) = broken_cell(&session.head, (session.head.n * session.k) as usize, rng);
    table.values[at] = value;
}

/// The index of one of the first cells, and a value for it against META2's rule.
pub fn broken_cell(head: &Head, cells: usize, rng: &mut Rng) -> (usize, i64) {
    let Cell { at, used, size, holds } = any_cell(head, cells, rng);
    let value = match used {
        true => rng.pick(&[-1, -2, holds + 1, holds + 1, i64::MIN, i64::MAX]),
        false => rng.pick(&[0, 1, size, holds, -2, i64::MIN]),
    };
    (at, value)
}

/// One field set to another value: near the old one, or where it is not judged.
fn change_record(session: &mut Session, rng: &mut Rng) {
    let Session { head, k } = session;
    let n = head.n as usize;
    let task = rng.below(n);
    match rng.below(12) {
        0 => head.version = rng.number() as i32,
        1 => head.patch = rng.number() as i32,
        2 => head.order = 1 - head.order,
        3 => head.format = 7 - head.format,
        4 => head.blocksize = rng.pick(&[head.blocksize / 2, 2 * head.blocksize]),
        5 => head.n = rng.pick(&[head.n - 1, head.n + 1]),
        6 => *k = rng.pick(&[*k - 1, *k + 1]),
        7 => head.counts[task] = rng.pick(&[head.counts[task] + 1, u64::from(*k)]),
        8 => head.sizes[task] = rng.pick(&[1, head.sizes[task] + 1, 1_073_741_824]),
        9 | 10 if n < TASKS => fill_behind(head, rng),
        _ => head.ranks[task] = rng.below(1 << 31) as u64,
    }
}

/// Any of the lists past n, where its entries are not judged.
fn fill_behind(head: &mut Head, rng: &mut Rng) {
    for list in [&mut head.ranks, &mut head.sizes, &mut head.counts] {
        if rng.one_in(2) {
            list[head.n as usize..].fill_with(|| rng.number());
        }
    }
}

/// A used cell set to another value that it may have, or a cell behind the n·K that are judged.
fn change_cell(Memory { session, table, .. }: &mut Memory, rng: &mut Rng) {
    let Cell { at, used, size, holds } =
        any_cell(&session.head, (session.head.n * session.k) as usize, rng);
    if used {
        let any = rng.below(holds as usize + 1) as i64;
        table.values[at] = rng.pick(&[any, any, size, (size + 1).min(holds), holds - 1, holds]);
    } else if let Some(last) = table.values.last_mut() {
        *last = rng.number() as i64;
    }
}

/// The index of a cell, whether it is of a chunk in use, the task's size, and what the chunk holds.
struct Cell {
    at: usize,
    used: bool,
    size: i64,
    holds: i64,
}

/// One of the first cells.
fn any_cell(head: &Head, cells: usize, rng: &mut Rng) -> Cell {
    let at = rng.below(cells);
    let (chunk, task) = (at / head.n as usize, at % head.n as usize);
    let (size, holds) = (head.sizes[task] as i64, head.capacity(task) as i64);
    Cell { at, used: (chunk as u64) < head.counts[task], size, holds }
}

/// One field, length or cell of a loaded container set to another value.
pub fn change_loaded(memory: &mut Memory, rng: &mut Rng) {
    let Memory { loaded: Loaded { head, maxchunks }, image, table, .. } = memory;
    let task = rng.below(head.n as usize);
    match rng.below(15) {
        0 => head.closed = rng.pick(&[1, 7, u32::MAX]),
        1 => head.order = rng.pick(&[1 - head.order, 2]),
        2 => head.blocksize = rng.pick(&[768, 2 * head.blocksize]),
        3 => head.n = rng.pick(&[0, 65, head.n - 1, head.n + 1]),
        4 => head.ranks[task] = rng.pick(&[1 << 31, head.ranks[0]]),
        5 => head.sizes[task] = rng.pick(&[0, 1, head.sizes[task] + 1]),
        6 => head.counts[task] = rng.pick(&[0, 33, head.counts[task] + 1]),
        7 => *maxchunks = rng.pick(&[*maxchunks + 1, 33]),
        8 => image.length = rng.pick(&[image.length - 60, 1_088]),
        9 => head.version = rng.number() as i32,
        10 => head.patch = rng.number() as i32,
        11 => head.format = rng.pick(&[5, 7 - head.format]),
        12 => spoil_file(head, rng),
        13 if (head.n as usize) < TASKS => fill_behind(head, rng),
        _ if table.length == 0 => head.order = u32::MAX,
        _ if rng.one_in(3) => table.length -= 1,
        _ => {
            let Cell { at, size, holds, .. } = any_cell(head, table.length, rng);
            table.values[at] = rng.pick(&[-2, -1, 0, size, size + 1, holds, holds + 1, i64::MAX]);
        }
    }
}
