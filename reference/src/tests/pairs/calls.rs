//! Holds the refusals of a pair's calls but for its load: each number in its order, and that a refused call leaves everything as it was.

use super::{closed, plans, Pair, ORDERS};
use crate::pair;
use crate::tests::session;
use crate::*;

/// The number that a fault gets, and how it is made.
type Step<T> = (u32, Box<dyn Fn(&mut T)>);

fn step<T: 'static>(number: u32, change: fn(&mut T)) -> Step<T> {
    (number, Box::new(change))
}

/// The answers to all faults at once, then without the first, and so on to none; each step is made behind all later ones.
fn answers<T>(sound: impl Fn() -> T, steps: &[Step<T>], call: impl Fn(T) -> u32) -> Vec<u32> {
    let answer = |at: usize| {
        let mut broken = sound();
        steps[at..].iter().rev().for_each(|(_, change)| change(&mut broken));
        call(broken)
    };
    (0..=steps.len()).map(answer).collect()
}

/// The number of each step, and behind them that of a call without a fault.
fn numbers<T>(steps: &[Step<T>], last: u32) -> Vec<u32> {
    steps.iter().map(|&(number, _)| number).chain([last]).collect()
}

fn number<T>(answer: Result<T, u32>) -> u32 {
    answer.err().unwrap_or(0)
}

/// What an opening is given.
struct Opening {
    plans: [Plan<'static>; 2],
    lent: Pair,
}

/// The faults of one file's plan.
fn plan_steps(file: usize) -> Vec<Step<Opening>> {
    let step = |number, change: fn(&mut Plan<'static>)| -> Step<Opening> {
        (number, Box::new(move |it| change(&mut it.plans[file])))
    };
    vec![
        step(2, |plan| plan.order = 2),
        step(4, |plan| plan.format = 5),
        step(5, |plan| plan.blocksize = 768),
        step(6, |plan| plan.ranks = &[0, 1, 2]),
        step(21, |plan| plan.prefix = &[b'x'; 1025]),
        step(8, |plan| plan.ranks = [&[1 << 31][..], &[2, 2]][plan.sizes.len() - 1]),
        step(9, |plan| plan.sizes = [&[1_073_741_825][..], &[500, 0]][plan.sizes.len() - 1]),
        step(20, |plan| plan.k = 33),
    ]
}

#[test]
fn openings() {
    let lent = || Pair::lent([6236, 2584], [6, 2]);
    let mut steps = plan_steps(0);
    steps.extend(plan_steps(1));
    steps.push(step(8, |it| it.plans[1].ranks = &[3]));
    steps.push(step(8, |it| it.plans[1].ranks = &[2]));
    steps.push(step(18, |it| it.lent.images[0].truncate(6235)));
    steps.push(step(18, |it| it.lent.tables[0].truncate(5)));
    steps.push(step(18, |it| it.lent.images[1].truncate(2583)));
    steps.push(step(18, |it| it.lent.tables[1].truncate(1)));
    let sound = || Opening { plans: plans([1, 0]), lent: lent() };
    let opened = answers(sound, &steps, |Opening { plans, mut lent }| {
        let before = lent.clone();
        let answer = number(lent.open(&plans, [u64::MAX; 2]));
        assert_eq!(lent == before, answer != 0);
        answer
    });
    assert_eq!(opened, numbers(&steps, 0));

    let needed = answers(sound, &steps[..18], |Opening { plans, .. }| number(pair::needs(&plans)));
    assert_eq!(needed, numbers(&steps[..18], 0));
}

/// Over both lists each rank from 0 up comes once.
#[test]
fn ranks_of_both_lists() {
    let lists: [(&[u64], &[u64], u32); 9] = [
        (&[0, 1], &[2], 0),
        (&[2, 1], &[0], 0),
        (&[0], &[2, 1], 0),
        (&[0, 1], &[1], 8),
        (&[0, 1], &[3], 8),
        (&[1, 2], &[3], 8),
        (&[0, 2_147_483_647], &[1], 8),
        (&[0, 1], &[0, 1], 8),
        (&[1, 1], &[0], 8),
    ];
    for (ranks, others, wanted) in lists {
        let plan = |ranks, n| Plan { ranks, sizes: &[1; 2][..n], ..plans([0, 0])[0] };
        let plans = [plan(ranks, ranks.len()), plan(others, others.len())];
        assert_eq!(number(pair::needs(&plans)), wanted, "{ranks:?}, {others:?}");
    }
}

/// A write that is refused for room.
struct Writing {
    pair: Pair,
    rank: u64,
    length: usize,
}

impl Writing {
    fn new() -> Writing {
        Writing { pair: Pair::filled([0, 1]), rank: 1, length: 512 }
    }
}

/// The faults that writing and closing test alike.
fn session_steps() -> Vec<Step<Writing>> {
    vec![
        step(17, |it| it.pair.sessions[0].head.files = 1),
        step(17, |it| it.pair.sessions[1].head.file = 0),
        step(17, |it| it.pair.sessions[1].head.ranks[0] = 3),
        step(18, |it| it.pair.images[0].truncate(6235)),
        step(19, |it| it.pair.tables[0][5] = 0),
        step(18, |it| it.pair.images[1].truncate(2583)),
        step(19, |it| it.pair.tables[1][0] = 513),
    ]
}

#[test]
fn writes_and_closes() {
    let mut steps = session_steps();
    let closed = answers(Writing::new, &steps, |Writing { mut pair, .. }| {
        let before = pair.clone();
        let answer = number(pair.close());
        assert_eq!(pair == before, answer != 0);
        answer
    });
    assert_eq!(closed, numbers(&steps, 0));

    steps.push(step(14, |it| it.rank = 3));
    steps.push(step(15, |it| it.length = 513));
    let written = answers(Writing::new, &steps, |Writing { mut pair, rank, length }| {
        let before = pair.clone();
        let answer = number(pair.write(rank, &vec![1; length]));
        assert_eq!(pair, before);
        answer
    });
    assert_eq!(written, numbers(&steps, 16));
}

/// The shortest memory that is not refused, and one less of each: the mapping's room counts, whatever maxchunks is.
#[test]
fn lengths_of_a_session() {
    let answers = |bytes: [usize; 2], cells: [usize; 2]| {
        let mut pair = Pair::filled([0, 1]);
        for file in 0..2 {
            pair.images[file].truncate(bytes[file]);
            pair.tables[file].truncate(cells[file]);
        }
        (number(pair.write(0, &[])), number(pair.close()))
    };
    assert_eq!(answers([6236, 2584], [6, 2]), (0, 0));
    for bytes in [[6235, 2584], [6208, 2584], [4684, 2584], [6236, 2583]] {
        assert_eq!(answers(bytes, [6, 2]), (18, 18));
    }
    for cells in [[5, 2], [6, 1]] {
        assert_eq!(answers([6236, 2584], cells), (18, 18));
    }
}

/// Records that no call for a pair takes, whichever of the two is unsound.
#[test]
fn unsound_sessions() {
    let changes: [fn(&mut [Session; 2]); 16] = [
        |it| it.swap(0, 1),
        |it| it[1] = it[0].clone(),
        |it| it[0].head.files = 1,
        |it| it[0].head.files = 3,
        |it| it[1].head.files = 0,
        |it| it[0].head.file = 1,
        |it| it[1].head.file = 2,
        |it| it[0].head.closed = 1,
        |it| it[1].head.closed = 9,
        |it| it[0].head.ranks[1] = 1,
        |it| it[1].head.ranks[0] = 0,
        |it| it[0].head.ranks[0] = 3,
        |it| it[1].head.n = 2,
        |it| it[1].head.n = u32::MAX,
        |it| it[0].k = 0,
        |it| it[1].head.counts[0] = 3,
    ];
    for change in changes {
        let mut pair = Pair::filled([0, 1]);
        change(&mut pair.sessions);
        let before = pair.clone();
        assert_eq!((pair.write(0, &[]), pair.close()), (Err(17), Err(17)));
        assert_eq!(pair, before);
    }
}

/// A pair that is read.
struct Reading {
    loaded: [Loaded; 2],
    images: [Vec<u8>; 2],
    tables: [Vec<i64>; 2],
    rank: u64,
    chunk: u64,
    p: u64,
}

impl Reading {
    fn new() -> Reading {
        let forged = closed([1, 0]);
        let (mut table, mut cells) = (vec![0; 4], vec![0; 2]);
        let loaded = pair::load(forged.images(), [&mut table, &mut cells]).expect("a sound pair");
        let [file, other] = forged.files;
        let (images, tables) = ([file.bytes, other.bytes], [table, cells]);
        Reading { loaded, images, tables, rank: 1, chunk: 2, p: 513 }
    }

    fn chunk(self) -> u32 {
        let Reading { loaded, images: [image, other], tables: [table, cells], .. } = &self;
        number(pair::chunk(loaded, [image, other], [table, cells], self.rank, self.chunk))
    }

    fn total(self) -> u32 {
        let Reading { loaded, images: [image, other], tables: [table, cells], .. } = &self;
        number(pair::total(loaded, [image, other], [table, cells], self.rank))
    }

    /// The number of a copying read, which leaves the output as it was.
    fn read(self) -> u32 {
        let Reading { loaded, images: [image, other], tables: [table, cells], .. } = &self;
        let mut out = [7; 9];
        let (images, tables) = ([&image[..], other], [&table[..], cells]);
        let answer = pair::read(loaded, images, tables, self.rank, self.p, &mut out);
        assert_eq!(out, [7; 9]);
        number(answer)
    }
}

/// A loaded pair needs no mapping: file 0 is long enough with 4,656 bytes.
#[test]
fn reads() {
    let mut steps = vec![
        step(17, |it: &mut Reading| it.loaded[0].head.closed = 1),
        step(17, |it| it.loaded[1].head.file = 0),
        step(17, |it| it.loaded[0].head.ranks[1] = 7),
        step(18, |it| it.images[0].truncate(4655)),
        step(18, |it| it.tables[0].truncate(3)),
        step(19, |it| it.tables[0][2] = -1),
        step(18, |it| it.images[1].truncate(2583)),
        step(19, |it| it.tables[1][1] = 513),
        step(14, |it| it.rank = 3),
    ];
    assert_eq!(answers(Reading::new, &steps, Reading::total), numbers(&steps, 0));
    steps.push(step(22, |it| it.chunk = 3));
    assert_eq!(answers(Reading::new, &steps, Reading::chunk), numbers(&steps, 0));
    steps.pop();
    steps.push(step(23, |it| it.p = 514));
    assert_eq!(answers(Reading::new, &steps, Reading::read), numbers(&steps, 0));

    let mut short = Reading::new();
    short.images[0].truncate(4656);
    assert_eq!(short.total(), 0);
}

/// A record of a pair's file is no single file's, whichever file it is of, and no record of a single file is a pair's.
#[test]
fn records_of_a_single_file_and_of_a_pair() {
    for orders in ORDERS {
        let mut pair = Pair::filled(orders);
        for file in 0..2 {
            let (session, image) = (&mut pair.sessions[file], &mut pair.images[file]);
            let table = &mut pair.tables[file];
            assert_eq!(write(session, image, table, 1, &[]), Err(17));
            assert_eq!(close(session, image, table), Err(17));
        }
    }
    let Reading { mut loaded, images, tables, .. } = Reading::new();
    for file in 0..2 {
        let (loaded, image, table) = (&loaded[file], &images[file], &tables[file]);
        assert_eq!(total(loaded, image, table, 1), Err(17));
        assert_eq!(chunk(loaded, image, table, 1, 1), Err(17));
        assert_eq!(read(loaded, image, table, 1, 0, &mut []), Err(17));
        assert_eq!(packed_length(loaded, image, table), Err(17));
        assert_eq!(pack(loaded, image, table, &mut []), Err(17));
        assert_eq!(
            (length(loaded, image, table), prefix(loaded, image, table)),
            (Err(17), Err(17))
        );
    }
    for file in 0..2 {
        (loaded[file].head.files, loaded[file].head.file) = (1, 0);
        assert!(length(&loaded[file], &images[file], &tables[file]).is_ok());
        (loaded[file].head.files, loaded[file].head.file) = (2, file as u32);
    }
    assert_eq!(Reading { loaded: loaded.clone(), ..Reading::new() }.total(), 0);
    loaded.iter_mut().for_each(|loaded| (loaded.head.files, loaded.head.file) = (1, 0));
    assert_eq!(Reading { loaded, ..Reading::new() }.total(), 17);
    let (session, ..) = session(0, &[500], 1);
    assert_eq!((session.head.files, session.head.file), (1, 0));
    assert_eq!((Session::refused().head.files, Session::refused().head.file), (0, 0));
}
