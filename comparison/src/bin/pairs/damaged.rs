//! Holds the damage that is done to the two files of a closed pair.

use reference::{pair::Forged, Container, Field, Order, Rng};

/// A copy of the pair with some of its bytes changed, cut off or behind it.
pub fn damaged(pair: &Forged, rng: &mut Rng) -> Forged {
    let file = rng.below(2);
    match rng.below(12) {
        0 => pair.changed(file, |container| cut(container, rng)),
        1 => pair.changed(file, |container| longer(container, rng)),
        2 => pair.changed(file, |container| flipped(container, rng)),
        3 => Forged { files: [pair.files[1].clone(), pair.files[0].clone()] },
        4 => Forged { files: [pair.files[file].clone(), pair.files[file].clone()] },
        5..=7 => pair.changed(0, |container| mapping_set(pair, container, rng)),
        8 => pair.changed(file, |container| ranks_set(container, rng)),
        _ => pair.changed(file, |container| field_set(container, rng)),
    }
}

fn cut(container: &Container, rng: &mut Rng) -> Container {
    let mut copy = container.clone();
    let end = copy.bytes.len();
    let any = rng.below(end);
    copy.bytes.truncate(rng.pick(&[
        any,
        end - 1,
        end - 5,
        copy.meta2_end(),
        copy.meta2_end() + 3,
        1000,
    ]));
    copy
}

fn longer(container: &Container, rng: &mut Rng) -> Container {
    let mut copy = container.clone();
    let more = 1 + rng.below(100);
    copy.bytes.extend(rng.bytes(more));
    copy
}

fn flipped(container: &Container, rng: &mut Rng) -> Container {
    let mut copy = container.clone();
    let (meta1, end) = (1088 + 16 * copy.n, copy.bytes.len());
    let parts = [(0, 36), (1076, meta1), (copy.meta2, end), (copy.meta2_end().min(end - 1), end)];
    for _ in 0..1 + rng.below(3) {
        let (start, bound) = rng.pick(&parts);
        copy.bytes[start + rng.below(bound - start)] ^= 1 << rng.below(8);
    }
    copy
}

/// One or two numbers of the mapping set to others; two entries may be exchanged so.
fn mapping_set(pair: &Forged, container: &Container, rng: &mut Rng) -> Container {
    let mut copy = container.clone();
    let ranks = pair.files[0].n + pair.files[1].n;
    for _ in 0..1 + rng.below(2) {
        let rank = rng.below(ranks);
        let field = match rng.below(5) {
            0 => Field::MappingSize,
            1 | 2 => Field::EntryFile(rank),
            _ => Field::EntryTask(rank),
        };
        let near = copy.get(field) + rng.pick(&[-1, 1]);
        copy.put(
            field,
            rng.pick(&[near, near, 0, 1, 2, -1, ranks as i64, 64, i64::from(i32::MIN)]),
        );
    }
    copy
}

/// A rank exchanged with another of the file, or set to one that may be the other file's.
fn ranks_set(container: &Container, rng: &mut Rng) -> Container {
    let mut copy = container.clone();
    let (task, other) = (rng.below(copy.n), rng.below(copy.n));
    let (rank, others) = (copy.get(Field::Rank(task)), copy.get(Field::Rank(other)));
    if rng.one_in(2) {
        copy.put(Field::Rank(task), others);
        copy.put(Field::Rank(other), rank);
    } else {
        copy.put(Field::Rank(task), rng.below(8) as i64);
    }
    copy
}

fn field_set(container: &Container, rng: &mut Rng) -> Container {
    let mut copy = container.clone();
    let task = rng.below(copy.n);
    let fields = [
        Field::Mark,
        Field::Order,
        Field::Format,
        Field::Blocksize,
        Field::Ntasks,
        Field::Nfiles,
        Field::Filenumber,
        Field::Rank(task),
        Field::Size(task),
        Field::Maxchunks,
        Field::Start,
        Field::Count(task),
    ];
    let field = match copy.maxchunks {
        0 => rng.pick(&fields),
        chunks if rng.one_in(4) => Field::Cell(rng.below(chunks), task),
        _ => rng.pick(&fields),
    };
    let near = copy.get(field) + rng.pick(&[-1, 1]);
    copy.put(field, rng.pick(&[near, near, 0, 1, 2, 3, 5, 33, 65, -1, 768, 1 << 31]));
    copy
}

/// A closed pair as it was compared, with its fields by name.
pub fn forged(images: [Vec<u8>; 2], orders: [u32; 2], tasks: [usize; 2]) -> Forged {
    let [image, other] = images;
    let order =
        |file: usize| Order::from_number(orders[file]).expect("an accepted opening's order");
    Forged {
        files: [
            Container::new(image, order(0), tasks[0]),
            Container::new(other, order(1), tasks[1]),
        ],
    }
}
