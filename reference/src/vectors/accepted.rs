//! Holds the accepted containers of the collection.

use super::{visible, Bases, List, I32, I64};
use crate::forge::Plan;
use reference::{Container, Field, Order};

/// The accepted ones that are too large to come in both orders.
pub fn large(list: &mut List) {
    let (little, big) = (Order::Little, Order::Big);
    list.add("ok-maxchunks-31", &chunks_written(little, 31));
    list.add("ok-maxchunks-32", &chunks_written(big, 32));
    list.add("ok-written-64", &all_written(big, 64));
    let plan = Plan { blocksize: 32_768, ..Plan::new(little, &[700]) };
    list.add("ok-blocksize-32768", &plan.build(&[]));
    list.add("ok-tail-to-65536", &Plan::new(big, &[1]).build(&[]).padded(65_536, 0xff));
}

/// P12, and containers of plans of many kinds.
pub fn plans(list: &mut List, order: Order) {
    let plan = |sizes: &[u64]| Plan::new(order, sizes);
    list.add("p12", &plan(&[500, 600]).build(&visible(&[(1, 300), (1, 200), (1, 1)])));
    for n in [1, 2, 3, 17, 28, 29, 63, 64] {
        list.add(&format!("ok-tasks-{n}"), &plan(&vec![1; n]).build(&[]));
    }
    for n in [3, 17] {
        list.add(&format!("ok-written-{n}"), &all_written(order, n));
    }
    for chunks in [0, 1, 2] {
        list.add(&format!("ok-maxchunks-{chunks}"), &chunks_written(order, chunks));
    }
    for blocksize in [1024, 4096] {
        let plan = Plan { blocksize, ..plan(&[700]) };
        list.add(&format!("ok-blocksize-{blocksize}"), &plan.build(&[]));
        let written = plan.build(&visible(&[(1, 699), (1, blocksize as usize - 699)]));
        list.add(&format!("ok-blocksize-{blocksize}-written"), &written);
    }
    let uneven = visible(&[(2, 512), (1, 2), (3, 300), (2, 511), (3, 213), (2, 2)]);
    list.add("ok-uneven", &plan(&[9, 6, 4]).build(&uneven));
    let garbage = Plan { background: 0xee, ..plan(&[5, 600, 512]) };
    list.add("ok-garbage-in-unused-room", &garbage.build(&uneven));
    for (name, byte, length) in [("empty", 0, 0), ("full", 0xff, 1024)] {
        let plan = Plan { prefix: vec![byte; length], ..plan(&[1]) };
        list.add(&format!("ok-prefix-{name}"), &plan.build(&[]));
    }
}

/// Chunks filled up to their requested size and up to what they hold, and what was written when these were the same.
pub fn chunks(list: &mut List, order: Order) {
    for size in [1, 511, 512, 513, 600] {
        let plan = Plan::new(order, &[size as u64]);
        let holds = plan.capacity(0) as usize;
        list.add(&format!("ok-requested-{size}"), &plan.build(&visible(&[(1, size)])));
        let full = visible(&[(1, size / 2), (1, holds - size / 2)]);
        list.add(&format!("ok-full-{size}"), &plan.build(&full));
        let next = visible(&[(1, size), (1, holds - size + 1)]);
        list.add(&format!("ok-next-{size}"), &plan.build(&next));
    }
    let base_p12 = visible(&[(1, 500), (1, 1)]);
    list.add("ok-base-p12", &Plan::new(order, &[500, 600]).of_chunks(&base_p12));
    let base_uneven = visible(&[(2, 6), (1, 2), (3, 3), (2, 5), (3, 4), (2, 4)]);
    list.add("ok-base-uneven", &Plan::new(order, &[9, 6, 4]).of_chunks(&base_uneven));
}

/// Version 4, in which every task has a chunk in use, and the same bytes as a container of version 3.
pub fn idle(list: &mut List, order: Order) {
    let plan = |sizes: &[u64]| Plan { format: 4, ..Plan::new(order, sizes) };
    let p12 = plan(&[500, 600]).build(&visible(&[(1, 300), (1, 200), (1, 1)]));
    list.add("ok-idle-p12", &p12);
    list.add("ok-idle-as-3", &p12.with(Field::Format, 3));
    for n in [1, 2, 28, 29, 64] {
        list.add(&format!("ok-idle-tasks-{n}"), &plan(&vec![1; n]).build(&[]));
    }
    let uneven = visible(&[(2, 512), (1, 2), (2, 511)]);
    list.add("ok-idle-uneven", &plan(&[9, 6, 4]).build(&uneven));
    list.fields("ok-idle-value", &p12, Field::Cell(0, 1), &[1, 600, 1024]);
}

/// Values of META2 up to what the chunks hold, whatever the requested size.
pub fn values(list: &mut List, Bases { two, lone, full, .. }: &Bases) {
    list.add("ok-full-two", full);
    list.fields("ok-full-first", full, Field::Cell(0, 0), &[499, 500, 501, 511]);
    list.fields("ok-full-second", full, Field::Cell(0, 1), &[513, 599, 600, 601, 1023]);
    list.fields("ok-value-first", two, Field::Cell(0, 0), &[0, 4, 5, 6, 511]);
    list.fields("ok-value-second", two, Field::Cell(0, 1), &[0, 5, 6, 7, 512]);
    list.fields("ok-value-later", two, Field::Cell(1, 0), &[0, 5, 6, 512]);
    let hollow = lone.with(Field::Cell(0, 0), 0).with(Field::Cell(1, 0), 0);
    list.add("ok-all-used-chunks-empty", &hollow);
    list.add("ok-grouped-by-task-yet-sound", &two.grouped_by_task());
}

/// Changes that leave a sound container sound.
pub fn changes(list: &mut List, Bases { one, many, two, .. }: &Bases) {
    list.fields("ok-version", one, Field::Version, &[0, I32[0]]);
    list.fields("ok-patch", one, Field::Patch, &[-1, I32[1]]);
    list.fields("ok-flag1", one, Field::Flag1, &[-1, I64[0], I64[1]]);
    list.fields("ok-flag2", one, Field::Flag2, &[-1, I64[0], I64[1]]);
    list.fields("ok-prefix-start", one, Field::Prefix, &[-1]);
    list.fields("ok-rank", one, Field::Rank(0), &[2_147_483_647]);
    list.fields("ok-rank-last", many, Field::Rank(63), &[2_147_483_647]);
    list.fields("ok-size-idle", one, Field::Size(0), &[513, 1_073_741_824]);
    list.fields("ok-size-last", many, Field::Size(63), &[1_073_741_824]);
    list.fields("ok-size-same-step", two, Field::Size(0), &[1, 511, 512]);
    let ends = two.with(Field::Rank(0), 2_147_483_647).with(Field::Rank(1), 0);
    list.add("ok-ranks-at-both-ends", &ends);
    let down = |base: Container, task| base.with(Field::Rank(task), 63 - task as i64);
    list.add("ok-ranks-decreasing", &(0..64).fold(many.clone(), down));
    let places = [("data", 1536), ("data-past-size", 1541), ("unused-room", 2051)];
    for (name, at) in places.into_iter().chain([("unused-chunk", 3072), ("padding", 1120)]) {
        let mut changed = two.clone();
        changed.bytes[at] ^= 0x80;
        list.add(&format!("ok-one-byte-of-{name}"), &changed);
    }
    let mut padding = two.clone();
    padding.bytes[1120..1536].fill(0xee);
    list.add("ok-garbage-in-padding", &padding);
    for more in [1, 100] {
        list.add(&format!("ok-tail-{more}"), &one.padded(1544 + more, 0xff));
    }
}

/// Every task writes more than its requested size, the 64th all that its chunk holds.
fn all_written(order: Order, n: u64) -> Container {
    let sizes: Vec<u64> = (1..=n).map(|task| task * 7).collect();
    let requests: Vec<(u64, usize)> = (1..=n).map(|task| (task, task as usize * 8)).collect();
    Plan::new(order, &sizes).build(&visible(&requests))
}

/// One task, of size 3, fills so many chunks with the 512 bytes that each holds.
fn chunks_written(order: Order, chunks: usize) -> Container {
    Plan::new(order, &[3]).build(&visible(&vec![(1, 512); chunks]))
}
