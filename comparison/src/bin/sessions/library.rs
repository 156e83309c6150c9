//! Holds the library's side of each call.

use crate::call::{Answer, Call};
use crate::memory::{LibraryMemory, Memory};
use crate::plan::Plan;
use lapurmihi::raw::{self, ByteCount, Closed, Loaded, Needed, Part, Session};

/// Makes the call, and gives the answer.
pub fn answer(call: &Call, memory: &mut LibraryMemory) -> Answer {
    let Memory { session, loaded, image, table, buffer } = memory;
    let (image, table, buffer) = (image.lend(), table.lend(), buffer.lend());
    match *call {
        Call::ChunkSize { size, blocksize } => counted(raw::chunk_size(size, blocksize)),
        Call::Needs(ref plan) => needs(plan),
        Call::Open(ref plan) => open(plan, session, image, table),
        Call::Write { task } => plain(raw::write(session, image, table, task, buffer)),
        Call::Close => {
            let Closed { refusal, length } = raw::close(session, image, table);
            Answer::new(refusal, [length, 0])
        }
        Call::Load => load(loaded, image, table),
        Call::Chunk { task, chunk } => placed(raw::chunk(loaded, image, table, task, chunk)),
        Call::Total { task } => counted(raw::total(loaded, image, table, task)),
        Call::Read { task, place } => counted(raw::read(loaded, image, table, task, place, buffer)),
        Call::Length => counted(raw::length(loaded, image, table)),
        Call::Prefix => placed(raw::prefix(loaded, image, table)),
    }
}

fn needs(plan: &Plan) -> Answer {
    let Plan { ranks, sizes, prefix, .. } = plan;
    let Needed { refusal, image, cells } = raw::needs(numbers(plan), ranks, sizes, prefix);
    Answer::new(refusal, [image, cells])
}

fn open(plan: &Plan, session: &mut Session, image: &mut [u8], table: &mut [i64]) -> Answer {
    let Plan { ranks, sizes, prefix, .. } = plan;
    let opened = raw::open(numbers(plan), ranks, sizes, prefix, image, table);
    *session = opened.session;
    plain(opened.refusal)
}

fn load(loaded: &mut Loaded, image: &[u8], table: &mut [i64]) -> Answer {
    let answer = raw::load(image, table);
    *loaded = answer.loaded;
    Answer::load(answer.refusal, answer.fault)
}

/// What of a plan is neither a list nor the prefix.
fn numbers(plan: &Plan) -> raw::Plan {
    let Plan { order, version, patch, format, blocksize, k: planned, .. } = *plan;
    raw::Plan { order, version, patch, format, blocksize, planned }
}

fn plain(refusal: u32) -> Answer {
    Answer::new(refusal, [0, 0])
}

fn placed(Part { refusal, start, length }: Part) -> Answer {
    Answer::new(refusal, [start, length])
}

fn counted(ByteCount { refusal, bytes }: ByteCount) -> Answer {
    Answer::new(refusal, [bytes, 0])
}
