//! Holds the random containers: sound ones of random plans, and damaged ones, all fixed by the seed.

#[cfg(test)]
mod packing;

use crate::forge::Plan;
use reference::{capacity, Container, Field, Order, Rng, MAX_TASKS};

/// The bounds of the rules and of the number formats; fields are set to these or one more or less.
const BOUNDS: [i64; 12] =
    [0, 1, 32, MAX_TASKS as i64, 256, 512, 768, 1 << 22, 1 << 30, 1 << 31, 1 << 32, i64::MIN];

/// The containers of a seed with their names.
pub fn all(seed: u64, count: u32) -> impl Iterator<Item = (String, Vec<u8>)> {
    let mut rng = Rng::new(seed);
    (0..count).map(move |i| (format!("{i:05}.sion"), container(&mut rng)))
}

fn container(rng: &mut Rng) -> Vec<u8> {
    if rng.one_in(50) {
        return noise(rng);
    }
    let sound = sound(rng);
    let damaged = match rng.below(22) {
        0..=4 => sound,
        5 => extended(rng, sound),
        6 => truncated(rng, sound),
        7 => flipped(rng, sound),
        8..=12 => field_set(rng, sound),
        13..=15 => {
            let once = field_set(rng, sound);
            field_set(rng, once)
        }
        16 => moved(rng, sound),
        17 => not_closed(rng, sound),
        18 => sound.grouped_by_task(),
        19 | 20 => value_set(rng, sound),
        _ => {
            let field = any_field(rng, &sound);
            sound.swapped(field)
        }
    };
    damaged.bytes
}

/// Random bytes, some of them behind a right start.
fn noise(rng: &mut Rng) -> Vec<u8> {
    let start: &[u8] = rng.pick(&[b"", b"sio", b"sion", b"sion\x01\0\0\0", b"sion\0\0\0\x01"]);
    let length = rng.pick(&[0, 3, 8, 1075, 1076, 1200]);
    let rest = rng.below(length + 1);
    [start, &rng.bytes(rest)].concat()
}

/// A container of requests, or of chunks that need not be filled by the write rule.
fn sound(rng: &mut Rng) -> Container {
    let plan = plan(rng);
    if rng.one_in(3) {
        let chunks = chunks(rng, &plan);
        return plan.of_chunks(&chunks);
    }
    let most = 2 * plan.sizes.len() * plan.k as usize + 1;
    let requests: Vec<(u64, Vec<u8>)> = (0..rng.below(most)).map(|_| request(rng, &plan)).collect();
    plan.build(&requests)
}

fn plan(rng: &mut Rng) -> Plan {
    let most = rng.pick(&[1, 1, 2, 2, 2, 3, 3, 3, 4, 4, 4, 5, 5, 6, 12, MAX_TASKS]);
    let n = 1 + rng.below(most);
    let order = rng.pick(&[Order::Little, Order::Big]);
    let sizes: Vec<u64> = (0..n).map(|_| size(rng)).collect();
    let mut plan = Plan::new(order, &sizes);
    let blocks = match n {
        1 | 2 if rng.one_in(8) => 32,
        0..=12 => 3,
        _ => rng.pick(&[1, 1, 1, 2]),
    };
    plan.k = 1 + rng.below(blocks) as u32;
    if n < 5 && plan.k < 4 && rng.one_in(5) {
        plan.blocksize = 512 << rng.below(4);
    }
    plan.version = rng.number() as i32 >> rng.below(32);
    plan.format = rng.pick(&[3, 4]);
    plan.patch = rng.number() as i32 >> rng.below(32);
    plan.ranks = ranks(rng, n);
    let length = rng.pick(&[0, 1, 20, 1023, 1024]);
    plan.prefix = rng.bytes(length);
    plan.background = if rng.one_in(2) { 0 } else { rng.number() as u8 };
    plan
}

fn size(rng: &mut Rng) -> u64 {
    match rng.below(4) {
        0 => rng.pick(&[1, 2, 511, 512, 513, 1024]),
        1 => 1 + rng.below(1500) as u64,
        _ => 1 + rng.below(512) as u64,
    }
}

/// Ranks in a random order, small and dense or anywhere in the range.
fn ranks(rng: &mut Rng, n: usize) -> Vec<u64> {
    let bound = rng.pick(&[n, 2 * n, 1 << 31]);
    let mut ranks: Vec<u64> = Vec::new();
    while ranks.len() < n {
        let any = rng.below(bound);
        let rank = rng.pick(&[any, any, 0, bound - 1]) as u64;
        if !ranks.contains(&rank) {
            ranks.push(rank);
        }
    }
    ranks
}

/// A request that is mostly in order: sometimes of no such task, empty or too long.
fn request(rng: &mut Rng, plan: &Plan) -> (u64, Vec<u8>) {
    let n = plan.sizes.len();
    if rng.one_in(20) {
        return (rng.pick(&[0, n as u64 + 1, u64::MAX]), rng.bytes(1));
    }
    let task = rng.below(n);
    let length = match rng.below(8) {
        0 => 0,
        1 | 2 => near(rng, plan.blocksize, plan.sizes[task]),
        3 => 1,
        _ => rng.below(plan.capacity(task) as usize + 1) as u64,
    };
    (task as u64 + 1, rng.bytes(length as usize))
}

/// Some chunks of every task, each filled in any measure, often near its requested size or what it holds.
fn chunks(rng: &mut Rng, plan: &Plan) -> Vec<(u64, Vec<u8>)> {
    let mut chunks = Vec::new();
    for (task, &size) in plan.sizes.iter().enumerate() {
        let holds = plan.capacity(task);
        for _ in 0..rng.below(plan.k as usize + 1) {
            let any = rng.below(holds as usize + 1) as u64;
            let bound = near(rng, plan.blocksize, size).min(holds);
            let length = rng.pick(&[0, any, bound, bound]);
            chunks.push((task as u64 + 1, rng.bytes(length as usize)));
        }
    }
    chunks
}

/// The requested size or what a chunk of it holds, or one more or less.
fn near(rng: &mut Rng, blocksize: u32, size: u64) -> u64 {
    rng.pick(&[size, capacity(blocksize, size)]) + rng.pick(&[0, 1, 2]) - 1
}

/// Bytes behind META2, now and then up to the longest input or one past it.
fn extended(rng: &mut Rng, sound: Container) -> Container {
    let more = sound.bytes.len() + 1 + rng.below(300);
    let length = if rng.one_in(12) { rng.pick(&[65_535, 65_536, 65_537]).max(more) } else { more };
    sound.padded(length, rng.number() as u8)
}

/// Cut near a place that a test looks at, or anywhere.
fn truncated(rng: &mut Rng, sound: Container) -> Container {
    let (end, meta1) = (sound.bytes.len(), 1088 + 16 * sound.n);
    let near = rng.pick(&[4, 8, 1076, meta1, sound.meta2, sound.meta2 + 8 * sound.n, end]);
    let length = if rng.one_in(3) { rng.below(end) } else { near - rng.below(3) };
    sound.cut(length)
}

/// A few bytes changed, half of the time in the metadata.
fn flipped(rng: &mut Rng, mut sound: Container) -> Container {
    let end = sound.bytes.len();
    for _ in 0..1 + rng.below(4) {
        let at = match rng.below(4) {
            0 => rng.below(36),
            1 => sound.meta2 + rng.below(end - sound.meta2),
            _ => rng.below(end),
        };
        sound.bytes[at] ^= 1 << rng.below(8);
    }
    sound
}

/// One field set to a bound, its own or its neighbour's value, or one more or less than those.
fn field_set(rng: &mut Rng, sound: Container) -> Container {
    let field = any_field(rng, &sound);
    let (value, steps) = match rng.below(3) {
        0 => (rng.pick(&BOUNDS), [-1, 0, 1]),
        1 => (sound.get(field), [-1, 1, 2]),
        _ => (sound.get(neighbour(&sound, field)), [0, 0, 1]),
    };
    sound.with(field, value.wrapping_add(rng.pick(&steps)))
}

/// The value of one chunk, in use if the task has any, near the task's requested size or what the chunk holds.
fn value_set(rng: &mut Rng, sound: Container) -> Container {
    let task = rng.below(sound.n);
    let chunk = rng.below(sound.get(Field::Count(task)) as usize);
    let (blocksize, size) = (sound.get(Field::Blocksize), sound.get(Field::Size(task)));
    let value = near(rng, blocksize as u32, size as u64);
    sound.with(Field::Cell(chunk, task), value as i64)
}

fn any_field(rng: &mut Rng, sound: &Container) -> Field {
    let (task, chunk) = (rng.below(sound.n), rng.below(sound.maxchunks));
    match rng.below(22) {
        0 => Field::Mark,
        1 => Field::Order,
        2 => rng.pick(&[Field::Version, Field::Patch, Field::Flag1, Field::Flag2, Field::Prefix]),
        3 => Field::Format,
        4 | 5 => Field::Blocksize,
        6 | 7 => Field::Ntasks,
        8 => Field::Nfiles,
        9 => Field::Filenumber,
        10 | 11 => Field::Rank(task),
        12 | 13 => Field::Size(task),
        14 | 15 => Field::Maxchunks,
        16 | 17 => Field::Start,
        18 | 19 => Field::Count(task),
        _ => Field::Cell(chunk, task),
    }
}

/// The field whose value is the likeliest to be mistaken for that of another.
fn neighbour(sound: &Container, field: Field) -> Field {
    match field {
        Field::Rank(task) => Field::Rank((task + 1) % sound.n),
        Field::Size(task) => Field::Size((task + 1) % sound.n),
        Field::Count(task) => Field::Count((task + 1) % sound.n),
        Field::Cell(_, task) => Field::Size(task),
        Field::Maxchunks => Field::Count(0),
        Field::Ntasks => Field::Maxchunks,
        _ => Field::Ntasks,
    }
}

/// As opening and writing left it, with some of what lies behind META1.
fn not_closed(rng: &mut Rng, sound: Container) -> Container {
    let opened = sound.with(Field::Start, 0).with(Field::Maxchunks, 0);
    let meta1 = 1088 + 16 * sound.n;
    opened.cut(meta1 + rng.below(sound.bytes.len() - meta1 + 1))
}

/// META2 elsewhere, half of the time with a start that says so.
fn moved(rng: &mut Rng, sound: Container) -> Container {
    let at = sound.meta2.saturating_add_signed(rng.pick(&[-8, -1, 1, 8, 512]));
    let moved = sound.moved(at);
    if rng.one_in(2) {
        moved.with(Field::Start, at as i64)
    } else {
        moved
    }
}

#[test]
fn values_on_both_sides_of_size_and_capacity_come_up() {
    let (mut rng, mut seen) = (Rng::new(7), [0; 6]);
    for _ in 0..300 {
        let sound = sound(&mut rng);
        let changed = value_set(&mut rng, sound);
        for at in 0..changed.n * changed.maxchunks {
            let (chunk, task) = (at / changed.n, at % changed.n);
            let [value, size] =
                [Field::Cell(chunk, task), Field::Size(task)].map(|f| changed.get(f));
            let holds = capacity(changed.get(Field::Blocksize) as u32, size as u64) as i64;
            let bounds = [size - 1, size, size + 1, holds - 1, holds, holds + 1];
            if let Some(at) = bounds.iter().position(|&bound| size + 2 < holds && bound == value) {
                seen[at] += 1;
            }
        }
    }
    assert!(seen.iter().all(|&times| times > 10), "{seen:?}");
}

#[test]
fn every_answer_comes_up() {
    let mut seen = [0; 24];
    for (_, bytes) in all(7, 1500) {
        let line = crate::report::full_line(&bytes);
        if let Some(answer) = line.split(' ').next().and_then(|word| word.parse::<usize>().ok()) {
            seen[answer] += 1;
        }
    }
    assert!(seen[..14].iter().all(|&times| times > 3), "{seen:?}");
    assert!(seen[0] > 400 && seen[14..].iter().all(|&times| times == 0), "{seen:?}");
}
