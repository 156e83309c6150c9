//! Holds the course of one pair: opened, written to, closed, loaded and read, with hostile records, cuts and damage on the way, each on a copy.

use crate::calls::{close, load, needs, open, reads, write};
use crate::counts::Counts;
use crate::damaged::{damaged, forged};
use crate::drawn::{plans, Plans};
use crate::hostile::{change_loaded, change_sessions};
use crate::memory::Memory;
use comparison::{same, same_list};
use reference::{Layout, Loaded, PairTally, PairTask, Rng, Session};

/// How many damaged copies of each pair are loaded.
const DAMAGED: usize = 8;

pub fn run(rng: &mut Rng, counts: &mut Counts) -> Result<(), String> {
    let plans = plans(rng);
    counts.add(needs(&plans)?);
    let (lengths, cells) = plans.lengths(rng);
    let mut memory = Memory::random(lengths, cells, rng);
    if rng.one_in(4) {
        counts.add(open(&plans, &mut memory.clone(), budgets(rng, 1600))?.0);
    }
    let (refusal, mut sessions) = open(&plans, &mut memory, None)?;
    if counts.add(refusal) != 0 {
        return Ok(());
    }
    requests(&plans, &mut sessions, &mut memory, rng, counts)?;
    let tasks = [0, 1].map(|file| sessions[file].head.n as usize);
    let orders = [0, 1].map(|file| sessions[file].head.order);
    close_cut(&sessions, &memory, rng, counts)?;
    let (refusal, lengths) = close(&mut sessions, &mut memory, None)?;
    if counts.add(refusal) != 0 {
        return Err(format!("a good pair's close is refused with {refusal}"));
    }
    counts.add(write(&mut sessions, &mut memory, 0, b"", None)?); // closed: 17
    for file in 0..2 {
        memory.images[file].truncate(lengths[file] as usize);
    }
    let pair = forged(memory.images.clone(), orders, tasks);
    loads(memory, rng, counts)?;
    for _ in 0..DAMAGED {
        let images = damaged(&pair, rng).files.map(|container| container.bytes);
        let tables = [0, 1].map(|_| vec![7; rng.pick(&[2048, 2048, 2048, 4, 0])]);
        loads(Memory { images, tables }, rng, counts)?;
    }
    Ok(())
}

/// A budget for each image, of stores in a call that makes about so many.
fn budgets(rng: &mut Rng, stores: usize) -> Option<[u64; 2]> {
    Some([0, 1].map(|_| rng.below(stores + 100) as u64))
}

/// Writes by ranks, mostly in order; the answers are those of the tally over both files too.
fn requests(
    plans: &Plans,
    sessions: &mut [Session; 2],
    memory: &mut Memory,
    rng: &mut Rng,
    counts: &mut Counts,
) -> Result<(), String> {
    let ranks = plans.0[0].ranks.len() + plans.0[1].ranks.len();
    let mut tally = tally(sessions);
    for _ in 0..rng.below(3 * ranks.min(12) + 2) {
        let rank = if rng.one_in(20) { rng.pick(&[ranks, usize::MAX]) } else { rng.below(ranks) };
        let rank = rank as u64;
        let bytes = bytes(sessions, rank, rng);
        if rng.one_in(3) {
            let (mut sessions, mut memory) = (sessions.clone(), memory.clone());
            change_sessions(&mut sessions, &mut memory, rng);
            counts.add(write(&mut sessions, &mut memory, rank, &bytes, None)?);
        }
        if rng.one_in(5) {
            let (mut sessions, mut memory) = (sessions.clone(), memory.clone());
            counts.add(write(&mut sessions, &mut memory, rank, &bytes, budgets(rng, bytes.len()))?);
        }
        let wanted = tally.feed(rank, bytes.len() as u64);
        let refusal = counts.add(write(sessions, memory, rank, &bytes, None)?);
        same("the tally's answer", refusal, wanted.number)?;
        if let Some((file, offset)) = wanted.place {
            let there = &memory.images[file as usize][offset as usize..][..bytes.len()];
            same_list("the bytes where the tally puts them", there, &bytes)?;
        }
    }
    Ok(())
}

/// A request's bytes: often as many as a chunk holds, or about as many.
fn bytes(sessions: &[Session; 2], rank: u64, rng: &mut Rng) -> Vec<u8> {
    let holds = sessions.iter().find_map(|session| {
        let task =
            session.head.ranks[..session.head.n as usize].iter().position(|&one| one == rank);
        task.map(|task| session.head.capacity(task) as usize)
    });
    let holds = holds.unwrap_or(10);
    let any = rng.below(holds + 1);
    let length = rng.pick(&[0, 1, any, any, any, holds / 2, holds, holds + 1]);
    rng.bytes(length)
}

/// A close of changed sessions, and one within budgets.
fn close_cut(
    sessions: &[Session; 2],
    memory: &Memory,
    rng: &mut Rng,
    counts: &mut Counts,
) -> Result<(), String> {
    for _ in 0..3 {
        let (mut sessions, mut memory) = (sessions.clone(), memory.clone());
        change_sessions(&mut sessions, &mut memory, rng);
        counts.add(close(&mut sessions, &mut memory, None)?.0);
    }
    let (mut sessions, mut memory) = (sessions.clone(), memory.clone());
    counts.add(close(&mut sessions, &mut memory, budgets(rng, 200))?.0);
    Ok(())
}

/// A load, and reads of what it hands back, also of changed records.
fn loads(mut memory: Memory, rng: &mut Rng, counts: &mut Counts) -> Result<(), String> {
    let (refusal, file, loaded) = load(&mut memory)?;
    counts.add_load(refusal, file);
    if refusal != 0 {
        return Ok(());
    }
    let ranks = (loaded[0].head.n + loaded[1].head.n) as usize;
    for _ in 0..3 {
        let rank = rng.pick(&[rng.clone().below(ranks), 0, ranks - 1, ranks, usize::MAX]) as u64;
        add_all(reads(&loaded, &memory, rank, rng)?, counts);
        let (mut changed, mut memory): ([Loaded; 2], Memory) = (loaded.clone(), memory.clone());
        change_loaded(&mut changed, &mut memory, rng);
        add_all(reads(&changed, &memory, rank, rng)?, counts);
    }
    Ok(())
}

fn add_all(numbers: [u32; 3], counts: &mut Counts) {
    for number in numbers {
        counts.add(number);
    }
}

/// The tally of both files, by ranks.
fn tally(sessions: &[Session; 2]) -> PairTally {
    let mut tasks = vec![];
    for (file, Session { head, k }) in (0..).zip(sessions) {
        let layout = Layout::new(head.blocksize, &head.sizes[..head.n as usize]);
        for task in 0..head.n as usize {
            let starts = (0..u64::from(*k)).map(|chunk| layout.chunk(task, chunk)).collect();
            let (rank, c) = (head.ranks[task], head.capacity(task));
            tasks.push(PairTask { rank, file, k: *k, c, starts });
        }
    }
    PairTally::new(tasks)
}
