//! Holds the calls of an open session and of a loaded container, and the faults that they find.

use crate::call::Call;
use crate::hostile::{broken_cell, spoil_file, spoil_head};
use crate::memory::{Lent, Memory};
use crate::plan::Plan;
use crate::turns::{Input, Test};
use reference::{Head, Rng, Session};

/// The call of an entry that names a task, and a chunk or a place of it.
pub type Ask = fn(u64, u64) -> Call;

/// An entry: its name, its tests in the paper's order, and the call of it.
pub type Entry = (&'static str, &'static [Test<Request>], Ask);

/// The entries that take a session's record.
pub const OF_SESSION: [Entry; 2] = [
    ("write", &[RECORD, LENT, CELL, TASK, LENGTH, FULL], |task, _| Call::Write { task }),
    ("close", &[RECORD, LENT, CELL], |_, _| Call::Close),
];

/// The entries that take a loaded container's record.
pub const OF_LOADED: [Entry; 5] = [
    ("chunk", &[RECORD, LENT, CELL, TASK, CHUNK], |task, chunk| Call::Chunk { task, chunk }),
    ("total", &[RECORD, LENT, CELL, TASK], |task, _| Call::Total { task }),
    ("read", &[RECORD, LENT, CELL, TASK, PLACE], |task, place| Call::Read { task, place }),
    ("length", &[RECORD, LENT, CELL], |_, _| Call::Length),
    ("prefix", &[RECORD, LENT, CELL], |_, _| Call::Prefix),
];

const RECORD: Test<Request> = &[
    ("record", 17, |it, _, rng| spoil_head(it.head(), rng)),
    ("file", 17, |it, _, rng| spoil_file(it.head(), rng)),
];
const LENT: Test<Request> = &[
    ("image", 18, |it, _, rng| {
        it.memory.image.length = rng.pick(&[0, 1088, it.memory.image.length - 1]);
    }),
    ("table", 18, |it, _, _| it.memory.table.length -= 1),
];
const CELL: Test<Request> = &[("cell", 19, |it, _, rng| it.break_cell(rng))];
const TASK: Test<Request> = &[("task", 14, |it, _, rng| it.name_none(rng))];
/// An empty request is accepted where a long one is refused.
const LENGTH: Test<Request> = &[
    ("empty", 0, |it, _, _| it.memory.buffer = Lent::all(vec![])),
    ("long", 15, |it, task, rng| it.lengthen(task, rng)),
];
const FULL: Test<Request> = &[("full", 16, |it, task, _| it.fill(task))];
const CHUNK: Test<Request> = &[("chunk", 22, |it, _, rng| it.at = rng.pick(&[0, 33, u64::MAX]))];
const PLACE: Test<Request> = &[("place", 23, |it, _, rng| it.at = rng.pick(&[1 << 40, u64::MAX]))];

/// What a call is made on, and what it names; it is in order until a fault is put in.
#[derive(Clone)]
pub struct Request {
    memory: Memory,
    /// Whether the call goes by the session's record, not by the loaded one.
    of_session: bool,
    /// The task, counted from 0, and the one that the call names, counted from 1.
    task: usize,
    named: u64,
    /// The chunk or the place that the call names.
    at: u64,
}

impl Input for Request {
    fn any_task(&self, _: &mut Rng) -> usize {
        self.task
    }
}

impl Request {
    /// One byte for a task that has room, with no more lent than is needed; none if no task has, or if a table short of a cell would be
    /// empty.
    pub fn of_session(memory: &Memory, plan: &Plan, rng: &mut Rng) -> Option<Request> {
        let roomy: Vec<usize> = (0..plan.sizes.len()).filter(|&task| memory.room(task)).collect();
        if roomy.is_empty() || plan.needed_cells() < 2 {
            return None;
        }
        let (task, mut memory) = (rng.pick(&roomy), memory.clone());
        memory.buffer = Lent::all(rng.bytes(1));
        memory.image.length = plan.needed_bytes();
        memory.table.length = plan.needed_cells();
        Some(Request::new(memory, true, task))
    }

    /// A chunk, the total or the stream of a task that has a chunk.
    pub fn of_loaded(memory: Memory, rng: &mut Rng) -> Request {
        let counts = memory.loaded.head.counts;
        let used: Vec<usize> = (0..counts.len()).filter(|&task| counts[task] > 0).collect();
        Request::new(memory, false, rng.pick(&used))
    }

    fn new(memory: Memory, of_session: bool, task: usize) -> Request {
        Request { memory, of_session, task, named: task as u64 + 1, at: 1 }
    }

    /// Makes the call on both sides, a read into random bytes, and gives the answer.
    pub fn make(&self, ask: Ask, rng: &mut Rng) -> Result<u32, String> {
        let (call, mut memory) = (ask(self.named, self.at), self.memory.clone());
        if let Call::Read { .. } = call {
            memory.buffer = Lent::all(rng.bytes(9));
        }
        Ok(memory.call(&call)?.refusal)
    }

    /// What both kinds of record hold, of the one that the call goes by.
    fn head(&mut self) -> &mut Head {
        match self.of_session {
            true => &mut self.memory.session.head,
            false => &mut self.memory.loaded.head,
        }
    }

    /// A cell against META2's rule, but not the last, which the table may be short of.
    fn break_cell(&mut self, rng: &mut Rng) {
        let cells = self.memory.table.length - 1;
        let (at, value) = broken_cell(self.head(), cells, rng);
        self.memory.table.values[at] = value;
    }

    /// A task that there is not.
    fn name_none(&mut self, rng: &mut Rng) {
        let n = u64::from(self.head().n);
        self.named = rng.pick(&[0, n + 1, u64::MAX]);
    }

    /// One byte more than a chunk of the task holds.
    fn lengthen(&mut self, task: usize, rng: &mut Rng) {
        let holds = self.head().capacity(task) as usize;
        self.memory.buffer = Lent::all(rng.bytes(holds + 1));
    }

    /// Every chunk of the task in use, and no room in the last.
    fn fill(&mut self, task: usize) {
        let Memory { session: Session { head, k }, table, .. } = &mut self.memory;
        head.counts[task] = u64::from(*k);
        for chunk in 0..*k as usize {
            table.values[chunk * head.n as usize + task] = head.capacity(task) as i64;
        }
    }
}
