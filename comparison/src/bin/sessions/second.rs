//! Holds the reference's side of each call.

use crate::call::{Answer, Call};
use crate::memory::Memory;
use crate::plan::Plan;
use comparison::fault_of;
use reference::{Loaded, Session};

/// Makes the call, and gives the answer.
pub fn answer(call: &Call, memory: &mut Memory) -> Answer {
    let Memory { session, loaded, image, table, buffer } = memory;
    let (image, table, buffer) = (image.lend(), table.lend(), buffer.lend());
    let answer = match *call {
        Call::ChunkSize { size, blocksize } => {
            reference::chunk_size(size, blocksize).map(|holds| [holds, 0])
        }
        Call::Needs(ref plan) => needs(plan),
        Call::Open(ref plan) => {
            let opened = open(plan, image, table);
            *session = opened.clone().unwrap_or_else(|_| Session::refused());
            opened.map(|_| [0, 0])
        }
        Call::Write { task } => {
            reference::write(session, image, table, task, buffer).map(|()| [0, 0])
        }
        Call::Close => reference::close(session, image, table).map(|length| [length, 0]),
        Call::Load => return load(loaded, image, table),
        Call::Chunk { task, chunk } => {
            reference::chunk(loaded, image, table, task, chunk).map(|part| place(part, image))
        }
        Call::Total { task } => reference::total(loaded, image, table, task).map(|sum| [sum, 0]),
        Call::Read { task, place } => {
            reference::read(loaded, image, table, task, place, buffer).map(|copied| [copied, 0])
        }
        Call::Length => reference::length(loaded, image, table).map(|bytes| [bytes, 0]),
        Call::Prefix => reference::prefix(loaded, image, table).map(|part| place(part, image)),
    };
    match answer {
        Ok(numbers) => Answer::new(0, numbers),
        Err(refusal) => Answer::new(refusal, [0, 0]),
    }
}

/// What an opening needs by the paper's formulas, where the opening is refused only for being lent nothing.
fn needs(plan: &Plan) -> Result<[u64; 2], u32> {
    match open(plan, &mut [], &mut []) {
        Err(18) => Ok([plan.needed_bytes() as u64, plan.needed_cells() as u64]),
        other => other.map(|_| [0, 0]),
    }
}

fn open(plan: &Plan, image: &mut [u8], table: &mut [i64]) -> Result<Session, u32> {
    let Plan { order, version, patch, format, blocksize, k, .. } = *plan;
    let Plan { ranks, sizes, prefix, .. } = plan;
    reference::open(order, version, patch, format, blocksize, ranks, sizes, prefix, k, image, table)
}

fn load(loaded: &mut Loaded, image: &[u8], table: &mut [i64]) -> Answer {
    let found = reference::load(image, table);
    *loaded = found.clone().unwrap_or_else(|_| Loaded::refused());
    match found {
        Ok(_) => Answer::new(0, [0, 0]),
        Err(fault) => Answer::load(fault.refusal, fault_of(&fault)),
    }
}

/// Where a part of the image starts in it, and its length.
fn place(part: &[u8], image: &[u8]) -> [u64; 2] {
    let start = part.as_ptr() as usize - image.as_ptr() as usize;
    [start as u64, part.len() as u64]
}
