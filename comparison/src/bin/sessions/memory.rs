//! Holds what a call works on: the records, and the memory that it is lent.

use comparison::{loaded_of, session_of};
use lapurmihi::raw;
use reference::{Loaded, Rng, Session};

/// How many values stand behind the lent ones.
const BEHIND: usize = 8;

/// Values of which a call is lent the first; those behind them no call may change either.
#[derive(Clone)]
pub struct Lent<T> {
    pub values: Vec<T>,
    pub length: usize,
}

impl<T: Clone + Default> Lent<T> {
    /// Lends all of the values.
    pub fn all(mut values: Vec<T>) -> Lent<T> {
        let length = values.len();
        values.resize(length + BEHIND, T::default());
        Lent { values, length }
    }

    pub fn lend(&mut self) -> &mut [T] {
        &mut self.values[..self.length]
    }
}

/// The records and the memory of one side, which has its own kinds of record; unless said otherwise they are the reference's.
#[derive(Clone)]
pub struct Memory<S = Session, L = Loaded> {
    pub session: S,
    pub loaded: L,
    pub image: Lent<u8>,
    pub table: Lent<i64>,
    /// What a write takes its bytes from, and what a read copies into.
    pub buffer: Lent<u8>,
}

/// The library's side.
pub type LibraryMemory = Memory<raw::Session, raw::Loaded>;

impl Memory {
    /// An image and a table, with records that nothing accepts and an empty buffer.
    pub fn new(image: Lent<u8>, table: Lent<i64>) -> Memory {
        let (session, loaded) = (Session::refused(), Loaded::refused());
        Memory { session, loaded, image, table, buffer: Lent::all(vec![]) }
    }

    /// So many random bytes and cells, with random ones behind them.
    pub fn random(bytes: usize, cells: usize, rng: &mut Rng) -> Memory {
        let image = Lent { values: rng.bytes(bytes + BEHIND), length: bytes };
        let table = Lent { values: random_cells(cells + BEHIND, rng), length: cells };
        Memory::new(image, table)
    }

    /// A copy as the library lays it out.
    pub fn for_library(&self) -> LibraryMemory {
        let Memory { session, loaded, image, table, buffer } = self.clone();
        let (session, loaded) = (session_of(&session), loaded_of(&loaded));
        Memory { session, loaded, image, table, buffer }
    }

    /// Whether a task of the session, counted from 0, has room for a byte.
    pub fn room(&self, task: usize) -> bool {
        self.session.head.counts[task] < u64::from(self.session.k) || self.left(task) > 0
    }

    /// What is left of the chunk that a task of the session, counted from 0, has in use.
    pub fn left(&self, task: usize) -> usize {
        let head = &self.session.head;
        let used = match head.counts[task] as usize {
            0 => 0,
            count => self.table.values[(count - 1) * head.n as usize + task],
        };
        head.capacity(task) as usize - used as usize
    }
}

/// So many random cells.
pub fn random_cells(cells: usize, rng: &mut Rng) -> Vec<i64> {
    (0..cells).map(|_| rng.number() as i64).collect()
}
