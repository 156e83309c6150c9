//! Holds the plans drawn at random: sound ones, and ones with a fault or two.

use crate::plan::Plan;
use crate::turns::{Input, Test};
use reference::Rng;

/// What an opening tests, in the paper's order.
pub const TESTS: [Test<Plan>; 9] = [
    &[("order", 2, |plan, _, rng| plan.order = rng.pick(&[2, 3, u32::MAX]))],
    &[("format", 4, |plan, _, rng| plan.format = rng.pick(&[0, 2, 5, 259, u32::MAX]))],
    &[("blocksize", 5, |plan, _, rng| plan.blocksize = rng.pick(&[0, 256, 768, 8_388_608]))],
    &[("lists", 6, |plan, _, rng| spoil_lists(plan, rng))],
    &[("prefix", 21, |plan, _, rng| plan.prefix = rng.bytes(1025))],
    &[("rank", 8, |plan, task, rng| plan.ranks[task] = spoilt_rank(&plan.ranks, task, rng))],
    &[("size", 9, |plan, task, rng| plan.sizes[task] = rng.pick(&[0, 1_073_741_825, u64::MAX]))],
    &[("planned blocks", 20, |plan, _, rng| plan.k = spoilt_k(plan, rng))],
    &[
        ("image", 18, spoil_image),
        ("table", 18, |plan, _, rng| plan.cells = rng.pick(&[0, plan.needed_cells() - 1])),
    ],
];

impl Input for Plan {
    fn any_task(&self, rng: &mut Rng) -> usize {
        rng.below(self.sizes.len())
    }
}

/// A plan and the number that answers it: faults of later tests are put in first, so the last one decides.
pub fn plan(rng: &mut Rng) -> (Plan, u32) {
    let (mut plan, mut answer) = (sound(rng), 0);
    for &fault in TESTS.iter().rev().flat_map(|test| test.iter().rev()) {
        if rng.one_in(30) {
            plan.put(fault, rng);
            answer = fault.1;
        }
    }
    (plan, answer)
}

/// A plan without a fault.
pub fn sound(rng: &mut Rng) -> Plan {
    let n = if rng.one_in(40) { 64 } else { 1 + rng.below(6) };
    let k = match n {
        64 => 1 + rng.below(2),
        1 | 2 if rng.one_in(8) => 32,
        _ => 1 + rng.below(4),
    };
    let shift = if n < 64 && rng.one_in(100) { 7 } else { rng.pick(&[0, 0, 0, 1, 2, 3]) };
    let sizes: Vec<u64> = (0..n).map(|_| size(rng)).collect();
    let mut plan = Plan::new(rng.below(2) as u32, 512 << shift, &sizes, k as u32);
    plan.version = rng.number() as i32;
    plan.patch = rng.number() as i32;
    plan.format = rng.pick(&[3, 4]);
    plan.ranks = ranks(rng, n);
    let length = rng.pick(&[0, 20, 1023, 1024]);
    plan.prefix = rng.bytes(length);
    plan.bytes += rng.pick(&[0, 0, 1, 700]);
    plan.cells += rng.pick(&[0, 0, 1, 9]);
    plan
}

fn size(rng: &mut Rng) -> u64 {
    if rng.one_in(4) {
        rng.pick(&[1, 2, 511, 512, 513, 1024])
    } else {
        1 + rng.below(1500) as u64
    }
}

/// Different ranks in a random order, dense or anywhere in the range.
fn ranks(rng: &mut Rng, n: usize) -> Vec<u64> {
    let bound = rng.pick(&[n, 1 << 31]);
    let mut ranks: Vec<u64> = Vec::new();
    while ranks.len() < n {
        let any = rng.below(bound);
        let rank = rng.pick(&[any, any, bound - 1]) as u64;
        if !ranks.contains(&rank) {
            ranks.push(rank);
        }
    }
    ranks
}

/// No task, 65 tasks, or lists of unequal length.
fn spoil_lists(plan: &mut Plan, rng: &mut Rng) {
    match rng.below(5) {
        0 => (plan.ranks, plan.sizes) = (vec![], vec![]),
        1 => (plan.ranks, plan.sizes) = ((0..65).collect(), vec![1; 65]),
        2 => plan.ranks.truncate(plan.sizes.len() - 1),
        3 => plan.sizes.truncate(plan.ranks.len() - 1),
        _ => plan.sizes.push(1),
    }
}

/// The rank of another task, or one over the greatest.
pub fn spoilt_rank(ranks: &[u64], task: usize, rng: &mut Rng) -> u64 {
    let n = ranks.len();
    if n > 1 && rng.one_in(2) {
        ranks[(task + 1 + rng.below(n - 1)) % n]
    } else {
        rng.pick(&[1 << 31, u64::MAX])
    }
}

/// A K outside its range; more than the greatest if too little is lent, which might do for 0.
fn spoilt_k(plan: &Plan, rng: &mut Rng) -> u32 {
    if plan.bytes < plan.needed_bytes() || plan.cells < plan.needed_cells() {
        rng.pick(&[33, u32::MAX])
    } else {
        rng.pick(&[0, 33, u32::MAX])
    }
}

/// An image that is too short, or more to hold than any image here can.
fn spoil_image(plan: &mut Plan, task: usize, rng: &mut Rng) {
    let needed = plan.needed_bytes();
    match rng.below(6) {
        0 | 1 => plan.bytes = needed - 1,
        2 => plan.bytes = 0,
        3 => plan.bytes = rng.below(needed),
        4 => plan.sizes[task] = 1_073_741_824,
        _ => {
            plan.blocksize = 4_194_304;
            plan.sizes.fill(1_073_741_824);
            plan.k = 32;
        }
    }
}
