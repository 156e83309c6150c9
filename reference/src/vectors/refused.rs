//! Holds the refused containers of the collection.

use super::{Bases, List, I32, I64};
use crate::forge::Plan;
use reference::{Container, Field, Order};

/// All that are made by damaging sound ones.
pub fn all(list: &mut List, bases: &Bases) {
    short(list, bases);
    scalars(list, bases);
    lists(list, bases);
    starts(list, bases);
    counts(list, bases);
    values(list, bases);
    idle(list, bases);
    over(list, bases.one.order);
    swapped(list, bases);
    pairs(list, bases);
}

/// Cut short of what a test needs.
fn short(list: &mut List, Bases { one, many, two, .. }: &Bases) {
    if one.order == Order::Little {
        list.cuts("r01-cut", one, &[0, 1, 2, 3]);
        list.cuts("r02-cut", one, &[4]);
    }
    list.cuts("r02-cut", one, &[5, 6, 7]);
    list.cuts("r03-cut", one, &[8, 12, 16, 20, 24, 28, 32, 36, 44, 52, 1075]);
    list.cuts("r03-cut", one, &[1076, 1084, 1092, 1096, 1103]);
    list.cuts("r03-cut-two", two, &[1119]);
    list.cuts("r03-cut-many", many, &[1075, 2111]);
    list.cuts("r12-cut", one, &[1104, 1536, 1543]);
    list.cuts("r12-cut-two", two, &[3584, 3592, 3600, 3608, 3631]);
    list.cuts("r12-cut-many", many, &[3071]);
}

/// One wrong field of META1 that is no list.
fn scalars(list: &mut List, Bases { one, .. }: &Bases) {
    for at in 0..4 {
        let mut wrong = one.clone();
        wrong.bytes[at] ^= 1;
        list.add(&format!("r01-mark-byte-{at}"), &wrong);
    }
    let mut upper = one.clone();
    upper.bytes[..1].make_ascii_uppercase();
    list.add("r01-mark-upper-first", &upper);
    upper.bytes[..4].make_ascii_uppercase();
    list.add("r01-mark-upper", &upper);
    list.add("r01-mark-reversed", &one.swapped(Field::Mark));
    list.fields("r02-order", one, Field::Order, &[0, 2, -1, 256, 16_777_217]);
    list.fields("r04-format", one, Field::Format, &[0, 2, 5, 259, -3, I32[0], I32[1]]);
    let wrong = [0, 1, 256, 511, 513, 768, 4_194_305, 6_291_456, 8_388_608, -1, -512, I32[0]];
    list.fields("r05-blocksize", one, Field::Blocksize, &wrong);
    list.fields("r06-ntasks", one, Field::Ntasks, &[0, 65, -1, 257, I32[0], I32[1]]);
    list.fields("r03-ntasks", one, Field::Ntasks, &[64]);
    list.fields("r07-nfiles", one, Field::Nfiles, &[0, 2, -1, I32[0], I32[1]]);
    list.fields("r07-filenumber", one, Field::Filenumber, &[1, -1, I32[0], I32[1]]);
    list.fields("r11-maxchunks", one, Field::Maxchunks, &[33, -1, I32[0], I32[1]]);
}

/// One wrong rank or size.
fn lists(list: &mut List, Bases { one, many, two, .. }: &Bases) {
    let wrong = [-1, 2_147_483_648, 4_294_967_296, I64[0], I64[1]];
    list.fields("r08-rank", one, Field::Rank(0), &wrong);
    list.fields("r08-rank-last", many, Field::Rank(63), &[-1, 0, 62]);
    list.fields("r08-rank-middle", many, Field::Rank(31), &[0, 32]);
    list.fields("r08-rank-of-two", two, Field::Rank(1), &[0]);
    let wrong = [0, -1, 1_073_741_825, 4_294_967_297, I64[0], I64[1]];
    list.fields("r09-size", one, Field::Size(0), &wrong);
    list.fields("r09-size-of-two", two, Field::Size(1), &[0]);
    list.fields("r09-size-last", many, Field::Size(63), &[1_073_741_825]);
}

/// META2 that is missing or elsewhere.
fn starts(list: &mut List, Bases { one, two, lone, .. }: &Bases) {
    let opened = two.with(Field::Maxchunks, 0).with(Field::Start, 0);
    list.add("r10-not-closed", &opened);
    list.add("r10-just-opened", &opened.cut(1536));
    list.add("r10-meta1-alone", &opened.cut(1120));
    list.fields("r10-start", one, Field::Start, &[0]);
    list.add("r10-start-0-short", &one.with(Field::Start, 0).cut(1104));

    let wrong = [1, -1536, 1535, 1537, 4_294_968_832, I64[0], I64[1]];
    list.fields("r12-start", one, Field::Start, &wrong);
    list.fields("r12-start-two", two, Field::Start, &[3583, 2560, 4608]);
    list.fields("r12-maxchunks", one, Field::Maxchunks, &[1]);
    list.fields("r12-maxchunks-two", two, Field::Maxchunks, &[1, 3]);
    list.fields("r12-size", two, Field::Size(0), &[513]);
    list.fields("r12-blocksize", one, Field::Blocksize, &[1024]);
    let far = |blocksize| one.with(Field::Blocksize, blocksize).with(Field::Start, blocksize);
    for blocksize in [65_536, 4_194_304] {
        list.add(&format!("r12-too-short-for-blocksize-{blocksize}"), &far(blocksize));
    }
    list.add("r12-moved-with-start", &two.moved(3592).with(Field::Start, 3592));
    list.add("r12-own-step", &lone.moved(2560).with(Field::Start, 2560));
    list.add("r13-moved-alone", &two.moved(3592));
    let fewer = two.with(Field::Maxchunks, 1).with(Field::Start, 2560);
    list.add("r13-one-block-fewer", &fewer);
    let more = two.padded(4672, 0).with(Field::Maxchunks, 3).with(Field::Start, 4608);
    list.add("r13-one-block-more", &more);
}

/// Wrong counts of META2.
fn counts(list: &mut List, Bases { one, many, two, lone, .. }: &Bases) {
    list.fields("r13-count", one, Field::Count(0), &[1, -1, I64[1]]);
    list.fields("r13-count-last", many, Field::Count(63), &[1]);
    list.fields("r13-count-two", two, Field::Count(0), &[1, 3, -1, 4_294_967_298]);
    list.fields("r13-count-second", two, Field::Count(1), &[0, 2]);
    list.fields("r13-count-idle", lone, Field::Count(1), &[-1, 1]);
    let below = two.with(Field::Count(0), 1).with(Field::Cell(1, 0), -1);
    list.add("r13-counts-below-maxchunks", &below);
    list.add("r13-counts-all-zero", &lone.with(Field::Count(0), 0));
}

/// Wrong values of META2.
fn values(list: &mut List, Bases { two, lone, full, .. }: &Bases) {
    let wrong = [-1, -2, 513, 1024, 4_294_967_301, 4_294_967_808, I64[1]];
    list.fields("r13-value", two, Field::Cell(0, 0), &wrong);
    list.fields("r13-value-second", two, Field::Cell(0, 1), &[513]);
    list.fields("r13-value-later", two, Field::Cell(1, 0), &[-1, 513]);
    list.fields("r13-full-first", full, Field::Cell(0, 0), &[513, 600, 1024, 1536]);
    list.fields("r13-full-second", full, Field::Cell(0, 1), &[1025, 1536]);
    let exchanged = full.with(Field::Size(0), 600).with(Field::Size(1), 500);
    list.add("r13-full-sizes-exchanged", &exchanged);
    list.fields("r13-value-unused", two, Field::Cell(1, 1), &[0, -2, 4_294_967_295]);
    list.fields("r13-value-idle", lone, Field::Cell(0, 1), &[0]);
    list.add("r13-grouped-by-task", &lone.grouped_by_task());
    let late = two.with(Field::Count(1), 1).with(Field::Cell(0, 1), -1).with(Field::Cell(1, 1), 3);
    list.add("r13-second-chunk-without-first", &late);
}

/// Version 4 with a count of 0, with maxchunks 0, and with the values of version 3.
fn idle(list: &mut List, Bases { one, many, two, lone, .. }: &Bases) {
    let idle = |base: &Container| base.with(Field::Format, 4);
    list.add("r13-idle-count-0", &idle(lone));
    list.add("r13-idle-maxchunks-0", &idle(one));
    list.add("r13-idle-maxchunks-0-many", &idle(many));
    list.fields("r13-idle-count-second", &idle(two), Field::Count(1), &[0, -1, 2, 3]);
    list.fields("r13-idle-value-second", &idle(two), Field::Cell(0, 1), &[-1, 513]);
}

/// A value one over what the chunk holds, for a size beside a multiple of the blocksize or on it.
fn over(list: &mut List, order: Order) {
    let sizes = [(512, 1), (512, 511), (512, 512), (512, 513), (1024, 700), (4096, 700)];
    for (blocksize, size) in sizes {
        let plan = Plan { blocksize, ..Plan::new(order, &[size]) };
        let value = plan.capacity(0) as i64 + 1;
        let over = plan.build(&[(1, vec![1])]).with(Field::Cell(0, 0), value);
        list.add(&format!("r13-over-{size}-of-{blocksize}"), &over);
    }
}

/// One field in the other byte order.
fn swapped(list: &mut List, Bases { one, two, .. }: &Bases) {
    list.add("r04-order-swapped", &one.swapped(Field::Order));
    list.add("r04-format-swapped", &one.swapped(Field::Format));
    list.add("r12-blocksize-swapped", &one.swapped(Field::Blocksize));
    list.add("r06-ntasks-swapped", &one.swapped(Field::Ntasks));
    list.add("r07-nfiles-swapped", &one.swapped(Field::Nfiles));
    list.add("r08-rank-swapped", &two.swapped(Field::Rank(1)));
    list.add("r09-size-swapped", &one.swapped(Field::Size(0)));
    list.add("r11-maxchunks-swapped", &two.swapped(Field::Maxchunks));
    list.add("r12-start-swapped", &one.swapped(Field::Start));
    list.add("r13-count-swapped", &two.swapped(Field::Count(0)));
    list.add("r13-value-swapped", &two.swapped(Field::Cell(0, 0)));
}

/// A name, the container to start from, the fields to set in it, and the length it is cut to.
type Case<'a> = (&'a str, &'a Container, &'a [(Field, i64)], usize);

/// Two rules broken at once: the earlier test answers.
fn pairs(list: &mut List, Bases { one, many, two, .. }: &Bases) {
    use Field::*;
    let cases: &[Case] = &[
        ("r01-and-02", one, &[(Mark, 0), (Order, 0)], 1544),
        ("r01-and-02-short", one, &[(Mark, 0)], 7),
        ("r01-and-04", one, &[(Mark, -1), (Format, 5)], 1544),
        ("r02-and-03", one, &[(Order, 2)], 1075),
        ("r02-and-04", one, &[(Order, 0), (Format, 0)], 1544),
        ("r03-and-04", one, &[(Format, 5)], 1075),
        ("r03-and-06", one, &[(Ntasks, 0)], 1075),
        ("r04-and-05", one, &[(Format, 2), (Blocksize, 0)], 1544),
        ("r04-and-06", one, &[(Format, 2), (Ntasks, 65)], 1544),
        ("r04-and-03", one, &[(Format, 2)], 1076),
        ("r05-and-06", one, &[(Blocksize, 513), (Ntasks, 0)], 1544),
        ("r05-and-07", one, &[(Blocksize, 513), (Nfiles, 2)], 1544),
        ("r05-and-03", one, &[(Blocksize, 256)], 1103),
        ("r06-and-07", one, &[(Ntasks, -1), (Filenumber, 1)], 1544),
        ("r06-and-03", one, &[(Ntasks, 65)], 1103),
        ("r07-and-03", one, &[(Nfiles, 0)], 1103),
        ("r07-and-03-many", many, &[(Filenumber, 1)], 2111),
        ("r07-and-08", one, &[(Nfiles, 2), (Rank(0), -1)], 1544),
        ("r07-both", one, &[(Nfiles, 0), (Filenumber, 1)], 1544),
        ("r03-and-08", one, &[(Rank(0), -1)], 1103),
        ("r03-and-09", one, &[(Size(0), 0)], 1103),
        ("r03-and-10", many, &[(Start, 0)], 2111),
        ("r08-and-09", two, &[(Size(0), 0), (Rank(1), -1)], 3632),
        ("r08-and-10", one, &[(Rank(0), -1), (Start, 0)], 1544),
        ("r08-and-13", one, &[(Rank(0), -1), (Count(0), -1)], 1544),
        ("r09-and-10", one, &[(Size(0), 0), (Start, 0)], 1544),
        ("r09-and-11", one, &[(Size(0), -1), (Maxchunks, 33)], 1544),
        ("r09-and-12", one, &[(Size(0), 1_073_741_825), (Start, 1537)], 1544),
        ("r10-and-11", one, &[(Start, 0), (Maxchunks, -1)], 1544),
        ("r10-and-12", one, &[(Start, 0)], 1543),
        ("r10-and-13", one, &[(Start, 0), (Count(0), -1)], 1544),
        ("r11-and-12", one, &[(Maxchunks, 33), (Start, 1537)], 1544),
        ("r11-and-12-short", one, &[(Maxchunks, -1)], 1543),
        ("r11-and-13", one, &[(Maxchunks, 33), (Count(0), 33)], 1544),
        ("r12-and-13", one, &[(Start, 1537), (Count(0), 1)], 1544),
        ("r12-and-13-short", two, &[(Cell(0, 0), 513)], 3631),
    ];
    for (name, base, changes, length) in cases {
        let mut both = (*base).clone();
        for &(field, value) in *changes {
            both.put(field, value);
        }
        list.add(name, &both.cut(*length));
    }
}
