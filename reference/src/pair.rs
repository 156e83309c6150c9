//! Holds the entries of a pair, which is one container in two physical files: opening, filling, closing, loading and reading it over two
//! records, two images and two tables, file 0 always first. Writes and reads name a global rank, counted from 0. Of each call that stores
//! there is one within a budget of byte stores for each image.

mod forged;
mod mapping;

pub use forged::Forged;

use crate::demand;
use crate::load::{fill, judge_file};
use crate::read::{chunk_of, copy_of, total_of};
use crate::record::PAIR;
use crate::session::{begin, finish, store, ENOUGH};
use crate::{Fault, Head, Loaded, Plan, Session};

/// What a session of one file needs to be lent.
#[derive(Clone, Copy, Debug, PartialEq, Eq)]
pub struct Needs {
    /// The bytes of the image; those of file 0 count the mapping's room.
    pub image: u64,
    pub cells: u64,
}

/// Where the load of a pair broke off: the file, 0 or 1, and the fault in it.
#[derive(Clone, Copy, Debug, PartialEq, Eq)]
pub struct Broken {
    pub file: u32,
    pub fault: Fault,
}

/// The written bytes of one chunk, the image that holds them, 0 or 1, and where they start there.
#[derive(Clone, Copy, Debug, PartialEq, Eq)]
pub struct Part<'a> {
    pub file: u32,
    pub start: u64,
    pub bytes: &'a [u8],
}

/// What the sessions of both files need to be lent; tests of file 0 up to 20, then of file 1, then 8 of both lists of ranks.
pub fn needs(plans: &[Plan; 2]) -> Result<[Needs; 2], u32> {
    let sessions = planned(plans)?;
    let rooms = rooms(heads(&sessions));
    let of_file = |file: usize| {
        let session: &Session = &sessions[file];
        Needs { image: session.end() + rooms[file], cells: session.cells() as u64 }
    };
    Ok([0, 1].map(of_file))
}

/// The records of both sessions as an opening leaves them; tests as `needs`.
fn planned(plans: &[Plan; 2]) -> Result<[Session; 2], u32> {
    let sessions = [plans[0].session(PAIR[0])?, plans[1].session(PAIR[1])?];
    demand(mapping::complete(heads(&sessions)), 8)?;
    Ok(sessions)
}

fn heads(sessions: &[Session; 2]) -> [&Head; 2] {
    [&sessions[0].head, &sessions[1].head]
}

/// The bytes that each file of a session needs behind META2: the mapping stands in file 0.
fn rooms(heads: [&Head; 2]) -> [u64; 2] {
    [mapping::bytes(heads), 0]
}

/// Opens a session; tests as `needs`, then 18 of file 0, then 18 of file 1.
pub fn open(
    plans: &[Plan; 2],
    images: [&mut [u8]; 2],
    tables: [&mut [i64]; 2],
) -> Result<[Session; 2], u32> {
    open_within(plans, images, tables, [ENOUGH; 2])
}

/// Opens a session: file 0 wholly, then file 1. Of the byte stores of each image just the first ones, up to its budget, reach it.
pub fn open_within(
    plans: &[Plan; 2],
    images: [&mut [u8]; 2],
    tables: [&mut [i64]; 2],
    budgets: [u64; 2],
) -> Result<[Session; 2], u32> {
    let sessions = planned(plans)?;
    let rooms = rooms(heads(&sessions));
    for file in 0..2 {
        sessions[file].judge_lengths(rooms[file], images[file], tables[file])?;
    }
    for (file, (image, table)) in images.into_iter().zip(tables).enumerate() {
        begin(&sessions[file], plans[file].prefix, image, table, budgets[file]);
    }
    Ok(sessions)
}

/// Writes the bytes of one request of a rank; tests 17 of file 0, 17 of file 1, 18 and 19 of file 0, 18 and 19 of file 1, 14, empty accepted,
/// 15, 16.
pub fn write(
    sessions: &mut [Session; 2],
    images: [&mut [u8]; 2],
    tables: [&mut [i64]; 2],
    rank: u64,
    bytes: &[u8],
) -> Result<(), u32> {
    write_within(sessions, images, tables, rank, bytes, [ENOUGH; 2])
}

/// Writes the bytes of one request in their order, of which just as many as the budget of the image that takes them reach it.
pub fn write_within(
    sessions: &mut [Session; 2],
    images: [&mut [u8]; 2],
    tables: [&mut [i64]; 2],
    rank: u64,
    bytes: &[u8],
    budgets: [u64; 2],
) -> Result<(), u32> {
    judge_sessions(sessions, [&*images[0], &*images[1]], [&*tables[0], &*tables[1]])?;
    let (file, task) = mapping::carrier(heads(sessions), rank).ok_or(14u32)?;
    let (session, budget) = (&mut sessions[file], budgets[file]);
    let (image, table) = (&mut *images[file], &mut *tables[file]);
    store(session, image, table, task, bytes, budget)
}

/// Closes a session and reports the lengths of both files; tests 17 of file 0, 17 of file 1, 18 and 19 of file 0, 18 and 19 of file 1.
pub fn close(
    sessions: &mut [Session; 2],
    images: [&mut [u8]; 2],
    tables: [&[i64]; 2],
) -> Result<[u64; 2], u32> {
    close_within(sessions, images, tables, [ENOUGH; 2])
}

/// Closes a session: META2 of file 0, the mapping, maxchunks and start_of_varheader of file 0, then META2 and the two fields of file 1. Of the
/// byte stores of each image just the first ones, up to its budget, reach it.
pub fn close_within(
    sessions: &mut [Session; 2],
    images: [&mut [u8]; 2],
    tables: [&[i64]; 2],
    budgets: [u64; 2],
) -> Result<[u64; 2], u32> {
    judge_sessions(sessions, [&*images[0], &*images[1]], tables)?;
    let mapping = mapping::stored(heads(sessions));
    let [image, other] = images;
    let length = finish(&mut sessions[0], image, tables[0], &mapping, budgets[0]);
    Ok([length, finish(&mut sessions[1], other, tables[1], &[], budgets[1])])
}

/// Tests 17 of both sessions, then 18 and 19 of file 0, then of file 1.
fn judge_sessions(
    sessions: &[Session; 2],
    images: [&[u8]; 2],
    tables: [&[i64]; 2],
) -> Result<(), u32> {
    let (heads, [first, second]) = (heads(sessions), sessions);
    demand(first.sound(PAIR[0]), 17)?;
    demand(second.sound(PAIR[1]) && mapping::complete(heads), 17)?;
    let rooms = rooms(heads);
    first.judge_lent(rooms[0], images[0], tables[0])?;
    second.judge_lent(rooms[1], images[1], tables[1])
}

/// Loads a pair; all tests of file 0 as a single file's load makes them, then all of file 1, then 25.
pub fn load(images: [&[u8]; 2], tables: [&mut [i64]; 2]) -> Result<[Loaded; 2], Broken> {
    let judged = |file: usize| {
        let found = judge_file(PAIR[file], images[file], tables[file]);
        found.map_err(|fault| Broken { file: file as u32, fault })
    };
    let loaded = [judged(0)?, judged(1)?];
    mapping::judge(images[0], &loaded).map_err(|fault| Broken { file: 0, fault })?;
    for (file, table) in tables.into_iter().enumerate() {
        fill(&loaded[file], images[file], table);
    }
    Ok(loaded)
}

/// The written bytes of one chunk, counted from 1, of a rank; tests as `total`, then 22.
pub fn chunk<'a>(
    loaded: &[Loaded; 2],
    images: [&'a [u8]; 2],
    tables: [&[i64]; 2],
    rank: u64,
    chunk: u64,
) -> Result<Part<'a>, u32> {
    let (file, task) = judge_read(loaded, images, tables, rank)?;
    let (start, bytes) = chunk_of(&loaded[file], images[file], tables[file], task, chunk)?;
    Ok(Part { file: file as u32, start, bytes })
}

/// The length of a rank's stream; tests 17 of file 0, 17 of file 1, 18 and 19 of file 0, 18 and 19 of file 1, 14.
pub fn total(
    loaded: &[Loaded; 2],
    images: [&[u8]; 2],
    tables: [&[i64]; 2],
    rank: u64,
) -> Result<u64, u32> {
    let (file, task) = judge_read(loaded, images, tables, rank)?;
    Ok(total_of(&loaded[file], tables[file], task))
}

/// Copies from place `p` of a rank's stream on and reports the bytes copied; tests as `total`, then 23.
pub fn read(
    loaded: &[Loaded; 2],
    images: [&[u8]; 2],
    tables: [&[i64]; 2],
    rank: u64,
    p: u64,
    out: &mut [u8],
) -> Result<u64, u32> {
    let (file, task) = judge_read(loaded, images, tables, rank)?;
    copy_of(&loaded[file], images[file], tables[file], task, p, out)
}

/// Tests 17 of both records, 18 and 19 of file 0, then of file 1, then 14; hands back file and task, counted from 0, that carry the rank.
fn judge_read(
    loaded: &[Loaded; 2],
    images: [&[u8]; 2],
    tables: [&[i64]; 2],
    rank: u64,
) -> Result<(usize, usize), u32> {
    let [first, second] = loaded;
    let heads = [&first.head, &second.head];
    demand(first.sound(PAIR[0]), 17)?;
    demand(second.sound(PAIR[1]) && mapping::complete(heads), 17)?;
    first.judge_lent(images[0], tables[0])?;
    second.judge_lent(images[1], tables[1])?;
    mapping::carrier(heads, rank).ok_or(14)
}
