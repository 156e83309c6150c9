//! Holds the changes to the records of a good pair, each of one thing, after which a call may be out of order.

use crate::memory::Memory;
use reference::{Head, Loaded, Rng, Session};

/// Changes one thing of both sessions or of what is lent to them.
pub fn change_sessions(sessions: &mut [Session; 2], memory: &mut Memory, rng: &mut Rng) {
    let file = rng.below(2);
    match rng.below(10) {
        0 => {
            let k = sessions[file].k;
            sessions[file].k = rng.pick(&[0, k.wrapping_sub(1), k + 1, 33, u32::MAX]);
        }
        1 => sessions.swap(0, 1),
        2 | 3 => lend_less(memory, file, rng),
        4 => change_cell(memory, file, rng),
        _ => change_head(sessions, |session| &mut session.head, file, rng),
    }
}

/// Changes one thing of both loaded records or of what is lent to them.
pub fn change_loaded(loaded: &mut [Loaded; 2], memory: &mut Memory, rng: &mut Rng) {
    let file = rng.below(2);
    match rng.below(10) {
        0 => {
            let most = loaded[file].maxchunks;
            loaded[file].maxchunks = rng.pick(&[0, most.wrapping_sub(1), most + 1, 33, u32::MAX]);
        }
        1 => loaded.swap(0, 1),
        2 | 3 => lend_less(memory, file, rng),
        4 => change_cell(memory, file, rng),
        _ => change_head(loaded, |loaded| &mut loaded.head, file, rng),
    }
}

/// One field of one record, or a rank that the other file has, that none has, or that is exchanged with one of the other file's.
fn change_head<R>(
    records: &mut [R; 2],
    head_of: impl Fn(&mut R) -> &mut Head,
    file: usize,
    rng: &mut Rng,
) {
    let other = head_of(&mut records[1 - file]).clone();
    let head = head_of(&mut records[file]);
    let (n, m) = (head.n as usize, other.n as usize);
    let (task, beside) = (rng.below(n), rng.below(m));
    match rng.below(14) {
        0 => head.order = rng.pick(&[1 - head.order, 2, u32::MAX]),
        1 => head.closed = rng.pick(&[1, 7, u32::MAX]),
        2 => head.format = rng.pick(&[7 - head.format, 0, 5]),
        3 => head.blocksize = rng.pick(&[0, 768, 2 * head.blocksize, head.blocksize / 2]),
        4 => head.n = rng.pick(&[0, 1, head.n - 1, head.n + 1, 65, u32::MAX]),
        5 => (head.files, head.file) = rng.pick(&[(1, 0), (2, 0), (2, 1), (0, 0), (3, 2), (2, 2)]),
        6 => head.sizes[task] = rng.pick(&[0, 1, head.sizes[task] + 1, 1_073_741_825, u64::MAX]),
        7 => head.counts[task] = rng.pick(&[0, head.counts[task] + 1, 33, u64::MAX]),
        8 => head.version = rng.number() as i32,
        9 => head.ranks[task] = other.ranks[beside],
        10 => head.ranks[task] = rng.pick(&[(n + m) as u64, 1 << 31, u64::MAX, head.ranks[0]]),
        11 if n < 64 => head.ranks[n..].fill_with(|| rng.number()),
        _ => {
            let rank = head.ranks[task];
            head.ranks[task] = other.ranks[beside];
            head_of(&mut records[1 - file]).ranks[beside] = rank;
        }
    }
}

/// An image or a table that is shorter.
fn lend_less(memory: &mut Memory, file: usize, rng: &mut Rng) {
    if rng.one_in(2) {
        let length = memory.images[file].len();
        let kept = rng.pick(&[length.saturating_sub(1), length.saturating_sub(40), 1088, 0]);
        memory.images[file].truncate(kept);
    } else {
        let cells = memory.tables[file].len();
        memory.tables[file].truncate(rng.pick(&[cells.saturating_sub(1), 0]));
    }
}

/// A cell set to a value that it may have or not.
fn change_cell(memory: &mut Memory, file: usize, rng: &mut Rng) {
    let cells = memory.tables[file].len();
    if cells > 0 {
        let any = rng.below(1200) as i64;
        memory.tables[file][rng.below(cells)] =
            rng.pick(&[-1, -2, 0, any, any, i64::MIN, i64::MAX]);
    }
}
