//! Holds the plans of both files drawn at random: sound ones, and ones with a fault or two.

use lapurmihi::raw;
use reference::{pair, Rng, MAX_TASKS};

/// What one file is planned with.
#[derive(Clone, Debug)]
pub struct Drawn {
    order: u32,
    version: i32,
    patch: i32,
    format: u32,
    blocksize: u32,
    k: u32,
    pub ranks: Vec<u64>,
    pub sizes: Vec<u64>,
    prefix: Vec<u8>,
}

impl Drawn {
    pub fn reference(&self) -> reference::Plan<'_> {
        let Drawn { order, version, patch, format, blocksize, k, .. } = *self;
        let (ranks, sizes, prefix) = (&self.ranks, &self.sizes, &self.prefix);
        reference::Plan { order, version, patch, format, blocksize, ranks, sizes, prefix, k }
    }

    fn numbers(&self) -> raw::Plan {
        let Drawn { order, version, patch, format, blocksize, k: planned, .. } = *self;
        raw::Plan { order, version, patch, format, blocksize, planned }
    }
}

/// Both plans.
#[derive(Clone, Debug)]
pub struct Plans(pub [Drawn; 2]);

impl Plans {
    pub fn reference(&self) -> [reference::Plan<'_>; 2] {
        [self.0[0].reference(), self.0[1].reference()]
    }

    pub fn numbers(&self) -> [raw::Plan; 2] {
        [self.0[0].numbers(), self.0[1].numbers()]
    }

    pub fn ranks(&self) -> [&[u64]; 2] {
        [&self.0[0].ranks, &self.0[1].ranks]
    }

    pub fn sizes(&self) -> [&[u64]; 2] {
        [&self.0[0].sizes, &self.0[1].sizes]
    }

    pub fn prefixes(&self) -> [&[u8]; 2] {
        [&self.0[0].prefix, &self.0[1].prefix]
    }

    /// The lengths to lend: those that are needed and a few more, sometimes less, and few where the plans are refused.
    pub fn lengths(&self, rng: &mut Rng) -> ([usize; 2], [usize; 2]) {
        let Ok(needs) = pair::needs(&self.reference()) else { return ([2000; 2], [8; 2]) };
        let (images, cells) = (needs.map(|need| need.image), needs.map(|need| need.cells));
        let mut about = |need: u64| {
            let more = rng.pick(&[0, 0, 1, 700]);
            let less = if rng.one_in(30) { 1 + rng.below(50) } else { 0 };
            (need as usize + more).saturating_sub(less)
        };
        (images.map(&mut about), cells.map(&mut about))
    }
}

/// Both plans, of which one may have a fault, or the ranks of both.
pub fn plans(rng: &mut Rng) -> Plans {
    let mut counts = [0, 1].map(|_| if rng.one_in(60) { MAX_TASKS } else { 1 + rng.below(5) });
    if rng.one_in(40) {
        counts[rng.below(2)] = rng.pick(&[0, MAX_TASKS + 1]);
    }
    let mut ranks: Vec<u64> = (0..(counts[0] + counts[1]) as u64).collect();
    for at in (1..ranks.len()).rev() {
        ranks.swap(at, rng.below(at + 1));
    }
    if rng.one_in(15) && !ranks.is_empty() {
        let at = rng.below(ranks.len());
        ranks[at] = rng.pick(&[0, ranks.len() as u64, 1 << 31, u64::MAX, ranks[0]]);
    }
    let (first, second) = ranks.split_at(counts[0]);
    let mut plans = [drawn(first, rng), drawn(second, rng)];
    for plan in &mut plans {
        spoil(plan, rng);
    }
    Plans(plans)
}

/// A sound plan of tasks with these ranks.
fn drawn(ranks: &[u64], rng: &mut Rng) -> Drawn {
    let many = ranks.len() > 8;
    let size = |rng: &mut Rng| match rng.below(4) {
        0 => rng.pick(&[1, 2, 511, 512, 513, 1024]),
        _ => 1 + rng.below(1200) as u64,
    };
    let prefix = rng.pick(&[0, 20, 1023, 1024]);
    Drawn {
        order: rng.below(2) as u32,
        version: rng.number() as i32,
        patch: rng.number() as i32,
        format: rng.pick(&[3, 4]),
        blocksize: 512 << rng.pick(&[0, 0, 0, 1, 2]),
        k: 1 + rng.below(if many { 2 } else { 4 }) as u32,
        ranks: ranks.to_vec(),
        sizes: ranks.iter().map(|_| size(rng)).collect(),
        prefix: rng.bytes(prefix),
    }
}

/// One in a few plans gets a fault that a single file's opening finds.
fn spoil(plan: &mut Drawn, rng: &mut Rng) {
    if !rng.one_in(12) {
        return;
    }
    match rng.below(7) {
        0 => plan.order = rng.pick(&[2, u32::MAX]),
        1 => plan.format = rng.pick(&[0, 2, 5, u32::MAX]),
        2 => plan.blocksize = rng.pick(&[0, 256, 768, 8_388_608]),
        3 => plan.sizes.push(1),
        4 => plan.prefix = rng.bytes(1025),
        5 => plan.k = rng.pick(&[0, 33, u32::MAX]),
        _ => plan.sizes.iter_mut().for_each(|size| *size = rng.pick(&[0, 1_073_741_825, *size])),
    }
}
