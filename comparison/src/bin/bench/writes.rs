//! Holds the times of writes of three lengths, to a session of 64 tasks and to one of a single task, of an opening and of a close.

use crate::rounds::{chunks_in_words, compare, in_words, tasks_in_words, time};
use comparison::session_of;
use lapurmihi::raw::{self, Plan, Session};
use std::hint::black_box;

/// Lengths of a write, each with the writes in a turn to 64 tasks and to one: a turn takes some milliseconds.
const WRITES: [(usize, [usize; 2]); 3] =
    [(64, [2_000, 50_000]), (4_096, [2_000, 6_000]), (65_536, [200, 400])];
/// Openings and closes in a turn.
const OPENINGS: usize = 10_000;
const CLOSES: usize = 1_000;
/// The planned blocks of most sessions.
const K: u32 = 32;
const BLOCKSIZE: u32 = 4_096;

pub fn all() {
    for (at, (tasks, size)) in [(64, 131_072), (1, 1 << 20)].into_iter().enumerate() {
        let mut both = [Lent::new(tasks, size, K), Lent::new(tasks, size, K)];
        for (length, writes) in WRITES {
            write(&mut both, &vec![1; length], writes[at]);
        }
    }
    open(&mut [Lent::new(1, 32_768, 1), Lent::new(1, 32_768, 1)]);
    close(&mut [Lent::new(64, 4_096, K), Lent::new(64, 4_096, K)]);
}

/// The image and the table that one side is lent, and the plan of the session.
struct Lent {
    k: u32,
    ranks: Vec<u64>,
    sizes: Vec<u64>,
    image: Vec<u8>,
    table: Vec<i64>,
}

impl Lent {
    fn new(tasks: usize, size: u64, k: u32) -> Lent {
        let (ranks, sizes): (Vec<u64>, _) = ((0..tasks as u64).collect(), vec![size; tasks]);
        let needed = raw::needs(plan(k), &ranks, &sizes, b"");
        let (image, table) = (vec![0; needed.image as usize], vec![0; needed.cells as usize]);
        Lent { k, ranks, sizes, image, table }
    }

    fn open_ours(&mut self) -> Session {
        let Lent { k, ranks, sizes, image, table } = self;
        let opened = raw::open(plan(*k), ranks, sizes, b"", image, table);
        assert_eq!(opened.refusal, 0, "the session opens");
        opened.session
    }

    fn open_theirs(&mut self) -> reference::Session {
        let Lent { k, ranks, sizes, image, table } = self;
        let opened = reference::open(0, 1, 7, 3, BLOCKSIZE, ranks, sizes, b"", *k, image, table);
        opened.expect("the session opens")
    }

    /// Opens a session anew, then times the library's writes to its tasks by turns.
    fn ours(&mut self, bytes: &[u8], writes: usize) -> (f64, Session) {
        let (mut session, mut refused) = (self.open_ours(), 0);
        let Lent { image, table, ranks, .. } = self;
        let nanos = time(writes, |i| {
            let task = (i % ranks.len()) as u64 + 1;
            refused |= raw::write(&mut session, image, table, task, black_box(bytes));
        });
        assert_eq!(refused, 0, "every write is accepted");
        (nanos, session)
    }

    /// The same on the reference's side.
    fn theirs(&mut self, bytes: &[u8], writes: usize) -> (f64, reference::Session) {
        let (mut session, mut refused) = (self.open_theirs(), 0);
        let Lent { image, table, ranks, .. } = self;
        let nanos = time(writes, |i| {
            let task = (i % ranks.len()) as u64 + 1;
            let written = reference::write(&mut session, image, table, task, black_box(bytes));
            refused |= written.err().unwrap_or(0);
        });
        assert_eq!(refused, 0, "every write is accepted");
        (nanos, session)
    }

    /// Times plain copies of the same bytes to the places where the writes put them.
    fn copies(&mut self, bytes: &[u8], places: &[usize]) -> f64 {
        let Lent { image, .. } = self;
        time(places.len(), |i| {
            black_box(&mut image[places[i]..places[i] + bytes.len()])
                .copy_from_slice(black_box(bytes));
        })
    }

    /// Where so many writes of this length go, to the tasks by turns.
    fn places(&self, length: usize, writes: usize) -> Vec<usize> {
        let layout = reference::Layout::new(BLOCKSIZE, &self.sizes);
        let in_a_chunk = self.sizes[0] as usize / length;
        let place = |i: usize| {
            let (task, before) = (i % self.ranks.len(), i / self.ranks.len());
            let chunk = layout.chunk(task, (before / in_a_chunk) as u64) as usize;
            chunk + before % in_a_chunk * length
        };
        (0..writes).map(place).collect()
    }
}

/// The numbers that every session is opened with.
fn plan(k: u32) -> Plan {
    Plan { order: 0, version: 1, patch: 7, format: 3, blocksize: BLOCKSIZE, planned: k }
}

/// Both sides once to see that they agree, then the rounds; every turn starts from a session just opened.
fn write([left, right]: &mut [Lent; 2], bytes: &[u8], writes: usize) {
    let (session, other) = (left.ours(bytes, writes).1, right.theirs(bytes, writes).1);
    assert!(session == session_of(&other) && left.table == right.table, "both sides agree");
    assert!(left.image == right.image, "both images agree");
    let places = left.places(bytes.len(), writes);
    assert!(places.iter().all(|&at| left.image[at..at + bytes.len()] == *bytes), "bytes are there");

    let tasks = left.ranks.len();
    let what = format!("write {}, {}", in_words(bytes.len()), tasks_in_words(tasks));
    let mut plain = Lent::new(tasks, left.sizes[0], K);
    let mut copy = || plain.copies(bytes, &places);
    let (ours, theirs) = (|| left.ours(bytes, writes).0, || right.theirs(bytes, writes).0);
    compare(&what, ours, theirs, Some(&mut copy));
}

/// Openings over the same memory again and again.
fn open([left, right]: &mut [Lent; 2]) {
    let (session, other) = (left.open_ours(), right.open_theirs());
    assert_eq!(session, session_of(&other), "both records agree");
    assert!(left.image == right.image && left.table == right.table, "both sides agree");

    let what = format!("open, {}", chunks_in_words(left.ranks.len(), left.k as usize));
    let ours = || {
        time(OPENINGS, |_| {
            let Lent { k, ranks, sizes, image, table } = black_box(&mut *left);
            black_box(raw::open(plan(*k), ranks, sizes, b"", image, table));
        })
    };
    let theirs = || {
        time(OPENINGS, |_| {
            let Lent { k, ranks, sizes, image, table } = black_box(&mut *right);
            let opened =
                reference::open(0, 1, 7, 3, BLOCKSIZE, ranks, sizes, b"", *k, image, table);
            let _ = black_box(opened);
        })
    };
    compare(&what, ours, theirs, None);
}

/// Closes of a session in which every task has filled every chunk; each finds the closed mark unset again.
fn close([left, right]: &mut [Lent; 2]) {
    let bytes = vec![1; left.sizes[0] as usize];
    let writes = left.ranks.len() * left.k as usize;
    let (mut session, mut other) = (left.ours(&bytes, writes).1, right.theirs(&bytes, writes).1);
    let closed = raw::close(&mut session, &mut left.image, &left.table);
    let length = reference::close(&mut other, &mut right.image, &right.table);
    assert_eq!((closed.refusal, Ok(closed.length)), (0, length), "both sides close");
    assert!(session == session_of(&other) && left.image == right.image, "both sides agree");

    let what = format!("close, {}", chunks_in_words(left.ranks.len(), left.k as usize));
    let ours = || {
        time(CLOSES, |_| {
            session.numbers.closed = 0;
            black_box(raw::close(black_box(&mut session), &mut left.image, &left.table));
        })
    };
    let theirs = || {
        time(CLOSES, |_| {
            other.head.closed = 0;
            let _ =
                black_box(reference::close(black_box(&mut other), &mut right.image, &right.table));
        })
    };
    compare(&what, ours, theirs, None);
}
