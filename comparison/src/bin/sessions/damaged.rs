//! Holds a closed session's container, and the faults that a load finds in its bytes and in its table.

use crate::call::Call;
use crate::drawn::spoilt_rank;
use crate::hostile::broken_cell;
use crate::memory::{Lent, Memory};
use crate::turns::{Input, Test};
use reference::{Container, Field, Head, Order, Rng, IDLE_FORMAT};

/// What a load tests, in the paper's order. A cut leaves what the next test looks at, so that a length fault and the next fault are both in
/// the bytes.
pub const TESTS: [Test<Damaged>; 15] = [
    &[
        ("under 4 bytes", 1, |it, _, rng| it.cut(0, 4, rng)),
        ("mark", 1, |it, _, rng| it.container.bytes[rng.below(4)] ^= 1 << rng.below(8)),
    ],
    &[
        ("under 8 bytes", 2, |it, _, rng| it.cut(4, 8, rng)),
        ("order", 2, |it, _, rng| it.set(Field::Order, &[0, 2, 257, -1], rng)),
    ],
    &[("under 1076 bytes", 3, |it, _, rng| it.cut(20, 1076, rng))],
    &[("format", 4, |it, _, rng| it.set(Field::Format, &[0, 2, 5, 259, -3], rng))],
    &[("blocksize", 5, |it, _, rng| {
        it.set(Field::Blocksize, &[0, 256, 768, 8_388_608, -512], rng)
    })],
    &[("ntasks", 6, |it, _, rng| it.set(Field::Ntasks, &[0, 65, -1], rng))],
    FILES,
    &[("META1 cut", 3, |it, _, rng| {
        it.cut(1076 + 8 * it.container.n, 1088 + 16 * it.container.n, rng);
    })],
    RANKS,
    SIZES,
    &[("not closed", 10, |it, _, _| it.container.put(Field::Start, 0))],
    &[("maxchunks", 11, |it, _, rng| it.set(Field::Maxchunks, &[-1, 33, 1 << 31], rng))],
    PLACE,
    &[("table", 18, |it, _, rng| it.cells = rng.pick(&[0, it.cells - 1]))],
    RULE,
];

/// Test 7, of two fields.
const FILES: Test<Damaged> = &[
    ("nfiles", 7, |it, _, rng| it.set(Field::Nfiles, &[0, 2, -1], rng)),
    ("filenumber", 7, |it, _, rng| it.set(Field::Filenumber, &[1, -1], rng)),
];

/// Test 8, of one rank, and of several that are out of range or come twice.
const RANKS: Test<Damaged> = &[
    ("rank", 8, |it, task, rng| {
        let rank = spoilt_rank(&it.head.ranks[..it.container.n], task, rng);
        it.container.put(Field::Rank(task), rank as i64);
    }),
    ("ranks", 8, |it, task, rng| {
        let n = it.container.n;
        for other in 0..n {
            let from = rng.pick(&[other, 0, n - 1]);
            it.container.put(Field::Rank(other), it.head.ranks[from] as i64);
        }
        it.set(Field::Rank(task), &[-1, 1 << 31, i64::MIN], rng);
    }),
];

const SIZES: Test<Damaged> =
    &[("size", 9, |it, task, rng| it.set(Field::Size(task), &[0, 1_073_741_825, -1], rng))];

/// Test 12, which comes before test 18 and so before test 13 too.
pub const PLACE: Test<Damaged> = &[
    ("start", 12, |it, _, rng| {
        let start = it.container.meta2 as i64;
        it.set(Field::Start, &[start - 8, start + 1, -start, i64::MAX], rng);
    }),
    ("META2 cut", 12, |it, _, rng| {
        let end = it.container.bytes.len();
        it.cut(end - 8, end, rng);
    }),
];

/// The tests that look at several fields, of which two are broken at once.
pub const WITHIN: [Test<Damaged>; 4] = [FILES, SIZES, PLACE, RULE];

/// Test 13; a broken cell is not the last, which a cut may take.
pub const RULE: Test<Damaged> = &[
    ("count", 13, |it, task, rng| {
        let under = if it.head.format == IDLE_FORMAT { 0 } else { -1 };
        let over = it.container.maxchunks as i64 + 1;
        it.set(Field::Count(task), &[under, -1, over, i64::MAX], rng);
    }),
    ("greatest count", 13, |it, _, _| {
        let most = it.container.maxchunks as i64;
        for field in (0..it.container.n).map(Field::Count) {
            let count = it.container.get(field);
            it.container.put(field, if count == most { most - 1 } else { count });
        }
    }),
    ("cell", 13, |it, _, rng| {
        let n = it.container.n;
        let (at, value) = broken_cell(&it.head, n * it.container.maxchunks - 1, rng);
        it.container.put(Field::Cell(at / n, at % n), value);
    }),
];

/// A container with the head of its record, and how many cells of a table are lent to its load.
#[derive(Clone)]
pub struct Damaged {
    container: Container,
    head: Head,
    pub cells: usize,
}

impl Damaged {
    /// The container of a closed session, undamaged; none if a table short of a cell would be empty.
    pub fn sound(closed: &Memory, length: u64) -> Option<Damaged> {
        let head = closed.session.head.clone();
        let bytes = closed.image.values[..length as usize].to_vec();
        let container = Container::new(bytes, Order::from_number(head.order)?, head.n as usize);
        let cells = container.n * container.maxchunks;
        (cells > 1).then_some(Damaged { container, head, cells })
    }

    /// Loads it into a table that has these cells, and gives the answer and what is left.
    pub fn load(&self, before: Vec<i64>) -> Result<(u32, Memory), String> {
        let image = Lent::all(self.container.bytes.clone());
        let mut memory = Memory::new(image, Lent::all(before));
        let answer = memory.call(&Call::Load)?;
        Ok((answer.refusal, memory))
    }

    /// A copy with a few bytes of its metadata changed, which may be no fault at all.
    pub fn flipped(&self, rng: &mut Rng) -> Damaged {
        let mut copy = self.clone();
        let (meta1, meta2) = (1088 + 16 * copy.container.n, copy.container.meta2);
        let end = copy.container.bytes.len();
        for _ in 0..1 + rng.below(3) {
            let (start, bound) = rng.pick(&[(0, 36), (1076, meta1), (meta2, end)]);
            copy.container.bytes[start + rng.below(bound - start)] ^= 1 << rng.below(8);
        }
        copy
    }

    /// One of the numbers for a field.
    fn set(&mut self, field: Field, values: &[i64], rng: &mut Rng) {
        self.container.put(field, rng.pick(values));
    }

    /// Cuts the bytes to a length from the least to under the bound, often to one of these two ends.
    fn cut(&mut self, least: usize, bound: usize, rng: &mut Rng) {
        let any = least + rng.below(bound - least);
        self.container.bytes.truncate(rng.pick(&[least, any, any, bound - 1]));
    }
}

impl Input for Damaged {
    fn any_task(&self, rng: &mut Rng) -> usize {
        rng.below(self.container.n)
    }
}
