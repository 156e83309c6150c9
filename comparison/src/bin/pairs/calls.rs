//! Holds each call of a pair, made on both sides: passes with the refusal number where answers, records and all lent memory are the same.

use crate::drawn::Plans;
use crate::memory::Memory;
use comparison::{fault_of, loaded_of, same, same_list, same_session, session_of};
use lapurmihi::raw::{self, pair as library};
use reference::{pair, Loaded, Rng, Session};

/// No budget at all, or one for each image.
pub type Budgets = Option<[u64; 2]>;

fn both_sessions(library: [&raw::Session; 2], wanted: &[Session; 2]) -> Result<(), String> {
    let in_file = |file: usize| {
        same_session(library[file], &session_of(&wanted[file]))
            .map_err(|difference| format!("file {file}: {difference}"))
    };
    in_file(0)?;
    in_file(1)
}

pub fn needs(plans: &Plans) -> Result<u32, String> {
    let answer = library::needs(plans.numbers(), plans.ranks(), plans.sizes(), plans.prefixes());
    let found = [answer.image0, answer.cells0, answer.image1, answer.cells1];
    let (refusal, wanted) = match pair::needs(&plans.reference()) {
        Ok([one, two]) => (0, [one.image, one.cells, two.image, two.cells]),
        Err(refusal) => (refusal, [0; 4]),
    };
    same("needs", answer.refusal, refusal)?;
    same("what is needed", found, wanted)?;
    Ok(refusal)
}

/// Gives the sessions of an accepted opening.
pub fn open(
    plans: &Plans,
    memory: &mut Memory,
    budgets: Budgets,
) -> Result<(u32, [Session; 2]), String> {
    let (mut one, (numbers, ranks)) = (memory.clone(), (plans.numbers(), plans.ranks()));
    let (sizes, prefixes, (images, tables)) = (plans.sizes(), plans.prefixes(), one.lent());
    let answer = match budgets {
        None => library::open(numbers, ranks, sizes, prefixes, images, tables),
        Some(budgets) => {
            raw::pair_open_within(numbers, ranks, sizes, prefixes, images, tables, budgets)
        }
    };
    let (images, tables) = memory.lent();
    let opened = match budgets {
        None => pair::open(&plans.reference(), images, tables),
        Some(budgets) => pair::open_within(&plans.reference(), images, tables, budgets),
    };
    let (refusal, wanted) = match opened {
        Ok(sessions) => (0, sessions),
        Err(refusal) => (refusal, [Session::refused(), Session::refused()]),
    };
    same("open", answer.refusal, refusal)?;
    both_sessions([&answer.session0, &answer.session1], &wanted)?;
    one.same(memory)?;
    Ok((refusal, wanted))
}

pub fn write(
    sessions: &mut [Session; 2],
    memory: &mut Memory,
    rank: u64,
    bytes: &[u8],
    budgets: Budgets,
) -> Result<u32, String> {
    let (mut one, [mut first, mut second]) =
        (memory.clone(), [0, 1].map(|file| session_of(&sessions[file])));
    let (images, tables) = one.lent();
    let records = [&mut first, &mut second];
    let answer = match budgets {
        None => library::write(records, images, tables, rank, bytes),
        Some(budgets) => raw::pair_write_within(records, images, tables, rank, bytes, budgets),
    };
    let (images, tables) = memory.lent();
    let written = match budgets {
        None => pair::write(sessions, images, tables, rank, bytes),
        Some(budgets) => pair::write_within(sessions, images, tables, rank, bytes, budgets),
    };
    let refusal = written.err().unwrap_or(0);
    same(&format!("write of {} bytes by rank {rank}", bytes.len()), answer, refusal)?;
    both_sessions([&first, &second], sessions)?;
    one.same(memory)?;
    Ok(refusal)
}

/// Gives the lengths of an accepted close.
pub fn close(
    sessions: &mut [Session; 2],
    memory: &mut Memory,
    budgets: Budgets,
) -> Result<(u32, [u64; 2]), String> {
    let (mut one, [mut first, mut second]) =
        (memory.clone(), [0, 1].map(|file| session_of(&sessions[file])));
    let ([image0, image1], [table0, table1]) = one.lent();
    let (records, images, tables) =
        ([&mut first, &mut second], [image0, image1], [&*table0, &*table1]);
    let answer = match budgets {
        None => library::close(records, images, tables),
        Some(budgets) => raw::pair_close_within(records, images, tables, budgets),
    };
    let (images, [table0, table1]) = memory.lent();
    let closed = match budgets {
        None => pair::close(sessions, images, [table0, table1]),
        Some(budgets) => pair::close_within(sessions, images, [table0, table1], budgets),
    };
    let (refusal, lengths) = match closed {
        Ok(lengths) => (0, lengths),
        Err(refusal) => (refusal, [0; 2]),
    };
    same("close", answer.refusal, refusal)?;
    same("both lengths", [answer.length0, answer.length1], lengths)?;
    both_sessions([&first, &second], sessions)?;
    one.same(memory)?;
    Ok((refusal, lengths))
}

/// Gives the number, the file in which it broke off, and the records of an accepted load.
pub fn load(memory: &mut Memory) -> Result<(u32, u32, [Loaded; 2]), String> {
    let mut one = memory.clone();
    let (images, [table0, table1]) = (memory.images.clone(), {
        let [table0, table1] = &mut one.tables;
        [table0, table1]
    });
    let answer = library::load([&images[0], &images[1]], [table0, table1]);
    let [table0, table1] = &mut memory.tables;
    let loaded = pair::load([&images[0], &images[1]], [table0, table1]);
    let (refusal, file, fault, wanted) = match loaded {
        Ok(loaded) => (0, 0, raw::Fault::default(), loaded),
        Err(broken) => {
            let none = [Loaded::refused(), Loaded::refused()];
            (broken.fault.refusal, broken.file, fault_of(&broken.fault), none)
        }
    };
    same("load", (answer.refusal, answer.file), (refusal, file))?;
    same("where it broke off", answer.fault, fault)?;
    for (file, found) in [&answer.loaded0, &answer.loaded1].into_iter().enumerate() {
        let wanted = loaded_of(&wanted[file]);
        same(&format!("the record of file {file}"), found.numbers, wanted.numbers)?;
        same_list("its ranks", &found.ranks, &wanted.ranks)?;
        same_list("its sizes", &found.sizes, &wanted.sizes)?;
        same_list("its counts", &found.counts, &wanted.counts)?;
    }
    one.same(memory)?;
    Ok((refusal, file, wanted))
}

/// A chunk, the total and a read of one rank; gives their three numbers.
pub fn reads(
    loaded: &[Loaded; 2],
    memory: &Memory,
    rank: u64,
    rng: &mut Rng,
) -> Result<[u32; 3], String> {
    let records = [loaded_of(&loaded[0]), loaded_of(&loaded[1])];
    let (found, images, tables) = ([&records[0], &records[1]], memory.images(), memory.tables());
    let chunk = rng.pick(&[0, 1, 1, 1, 2, 2, 3, 4, 33, u64::MAX]);
    let part = library::chunk(found, images, tables, rank, chunk);
    let (first, file, start, bytes) = match pair::chunk(loaded, images, tables, rank, chunk) {
        Ok(part) => (0, part.file, part.start, part.bytes),
        Err(refusal) => (refusal, 0, 0, &[][..]),
    };
    let place = (part.refusal, part.file, part.start, part.length);
    same(
        &format!("chunk {chunk} of rank {rank}"),
        place,
        (first, file, start, bytes.len() as u64),
    )?;
    let image = images[part.file as usize];
    same_list("its bytes", &image[part.start as usize..][..part.length as usize], bytes)?;

    let counted = library::total(found, images, tables, rank);
    let total = pair::total(loaded, images, tables, rank);
    let second = total.err().unwrap_or(0);
    let wanted = (second, total.unwrap_or(0));
    same(&format!("the total of rank {rank}"), (counted.refusal, counted.bytes), wanted)?;

    let any = rng.below(total.unwrap_or(0) as usize + 2) as u64;
    let place = rng.pick(&[0, any, any, total.unwrap_or(0), u64::MAX]);
    let (length, fresh) = (rng.pick(&[0, 1, 100, 3000]), rng.number() as u8);
    let (mut out, mut other) = (vec![fresh; length], vec![fresh; length]);
    let copied = library::read(found, images, tables, rank, place, &mut out);
    let read = pair::read(loaded, images, tables, rank, place, &mut other);
    let third = read.err().unwrap_or(0);
    let wanted = (third, read.unwrap_or(0));
    same(&format!("a read of rank {rank} from {place}"), (copied.refusal, copied.bytes), wanted)?;
    same_list("the output", &out, &other)?;
    Ok([first, second, third])
}
