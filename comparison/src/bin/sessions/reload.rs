//! Holds the load of a closed session's container, which has the session's fields and each task's accepted bytes, and all reads of it.

use crate::call::{Answer, Call};
use crate::counts::Counts;
use crate::hostile;
use crate::memory::{random_cells, Lent, Memory};
use crate::same::{same, same_list, same_memory};
use reference::{Head, Loaded, Rng, Session};

/// The most bytes behind the container.
const BEHIND: usize = 50;

/// Loads the container of so many bytes that a closed session left, with random ones behind it, and reads every task.
pub fn reload(
    closed: &Memory,
    length: u64,
    accepted: &[Vec<u8>],
    rng: &mut Rng,
    counts: &mut Counts,
) -> Result<(), String> {
    let behind = rng.below(BEHIND + 1);
    let image = [&closed.image.values[..length as usize], &rng.bytes(behind)].concat();
    let head = Head { closed: 0, ..closed.session.head.clone() };
    let loaded = Loaded { maxchunks: most_chunks(&closed.session) as u32, head };
    let cells = (loaded.head.n * loaded.maxchunks) as usize;
    let more = rng.below(5);
    let before = random_cells(cells + more, rng);
    let table = Lent::all([&closed.table.values[..cells], &before[cells..]].concat());

    let mut memory = Memory::new(Lent::all(image), Lent::all(before));
    same("the answer", memory.call(&Call::Load)?.refusal, 0)?;
    same_memory(&memory.for_library(), &Memory { loaded, table, ..memory.clone() })?;
    same("the length", memory.call(&Call::Length)?.numbers, [length, 0])?;
    for (task, bytes) in (1..).zip(accepted) {
        memory.buffer = Lent::all(vec![0; bytes.len() + 1]);
        let answer = memory.call(&Call::Read { task, place: 0 })?;
        let wanted = Answer::new(0, [bytes.len() as u64, 0]);
        same(&format!("bytes read of task {task}"), answer, wanted)?;
        let stream = &memory.buffer.values[..bytes.len()];
        same_list(&format!("the stream of task {task}"), stream, bytes)?;
    }
    read_all(memory, rng, counts)
}

/// The greatest number of chunks that a task has begun.
pub fn most_chunks(session: &Session) -> u64 {
    session.head.counts.iter().max().map_or(0, |&most| most)
}

/// Reads every chunk and stream, those that are not there included, then some of them after one change.
fn read_all(mut memory: Memory, rng: &mut Rng, counts: &mut Counts) -> Result<(), String> {
    let (tasks, chunks) = (u64::from(memory.loaded.head.n), u64::from(memory.loaded.maxchunks));
    for task in 0..=tasks + 1 {
        for chunk in 0..=chunks + 1 {
            counts.add(memory.call(&Call::Chunk { task, chunk })?);
        }
        read_stream(&mut memory, task, rng, counts)?;
    }
    whole(&mut memory, counts)?;
    hostile::change_loaded(&mut memory, rng);
    whole(&mut memory, counts)?;
    let (task, chunk) = (rng.below(tasks as usize + 2) as u64, rng.below(3) as u64);
    counts.add(memory.call(&Call::Chunk { task, chunk })?);
    read_stream(&mut memory, task, rng, counts)
}

/// Asks for the container's length and its prefix.
fn whole(memory: &mut Memory, counts: &mut Counts) -> Result<(), String> {
    counts.add(memory.call(&Call::Length)?);
    counts.add(memory.call(&Call::Prefix)?);
    Ok(())
}

/// Asks for a task's total, and reads from a random place in its stream, or from just behind it.
fn read_stream(
    memory: &mut Memory,
    task: u64,
    rng: &mut Rng,
    counts: &mut Counts,
) -> Result<(), String> {
    let total = counts.add(memory.call(&Call::Total { task })?).numbers[0] as usize;
    let (at, length) = (rng.below(total + 1), rng.below(total + 1));
    let place = rng.pick(&[0, at, total, total + 1, usize::MAX]) as u64;
    let length = rng.pick(&[0, 1, length, total, total + 9]);
    memory.buffer = Lent::all(rng.bytes(length));
    counts.add(memory.call(&Call::Read { task, place })?);
    Ok(())
}
