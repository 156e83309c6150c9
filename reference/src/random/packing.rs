//! Holds the packing of random containers, compared with a session of one block that is given each task's stream as one request.

use super::sound;
use crate::forge::Plan;
use reference::{
    load, pack, pack_within, packed_length, read, total, Container, Field, Loaded, Rng,
};

/// The record of a sound container, and its streams, task by task.
fn streams(image: &[u8], table: &mut [i64]) -> (Loaded, Vec<Vec<u8>>) {
    let loaded = load(image, table).expect("a sound container");
    let stream = |task| {
        let length = total(&loaded, image, table, task).expect("a task");
        let mut bytes = vec![0; length as usize];
        assert_eq!(read(&loaded, image, table, task, 0, &mut bytes), Ok(length));
        bytes
    };
    let all = (1..=u64::from(loaded.head.n)).map(stream).collect();
    (loaded, all)
}

/// What a session makes of the streams, in chunks of just their sizes, with flags and prefix of the container.
fn wanted(container: &Container, loaded: &Loaded, streams: &[Vec<u8>]) -> Vec<u8> {
    let (head, n) = (&loaded.head, container.n);
    let sizes = streams.iter().map(|stream| stream.len().max(1) as u64).collect();
    let (version, patch, format, blocksize) =
        (head.version, head.patch, head.format, head.blocksize);
    let (order, ranks, prefix) = (container.order, head.ranks[..n].to_vec(), vec![]);
    let plan = Plan {
        order,
        version,
        patch,
        format,
        blocksize,
        ranks,
        sizes,
        prefix,
        k: 1,
        background: 0,
    };
    let requests: Vec<(u64, Vec<u8>)> = (1..).zip(streams.iter().cloned()).collect();
    let mut bytes = plan.build(&requests).bytes;
    bytes[36..1076].copy_from_slice(&container.bytes[36..1076]);
    bytes
}

/// What is found in a second image of nines after so many stores: 0, then all bytes from the second on, then the `s`.
fn found(packed: &[u8], length: usize, budget: usize) -> Vec<u8> {
    let mut second = vec![9; length];
    let later = packed.iter().copied().enumerate().skip(1);
    let stores = [(0, 0)].into_iter().chain(later).chain([(0, b's')]);
    stores.take(budget).for_each(|(at, byte)| second[at] = byte);
    second
}

/// Packs a container over nines, wholly and cut, and packs what it gives once more.
fn check(rng: &mut Rng, container: &Container) -> Loaded {
    let (image, mut table) = (&container.bytes, vec![0; 2048]);
    let (loaded, before) = streams(image, &mut table);
    let wanted = wanted(container, &loaded, &before);
    let (length, lent) = (wanted.len(), wanted.len() + rng.below(9));
    let mut second = vec![9; lent];
    assert_eq!(packed_length(&loaded, image, &table), Ok(length as u64));
    assert_eq!(pack(&loaded, image, &table, &mut second), Ok(length as u64));
    assert_eq!(second, found(&wanted, lent, length + 1));
    for budget in [0, length, rng.below(length)] {
        let mut cut = vec![9; lent];
        let answer = pack_within(&loaded, image, &table, &mut cut, budget as u64);
        assert_eq!((answer, cut), (Ok(length as u64), found(&wanted, lent, budget)));
    }

    let (packed, after) = streams(&second, &mut table);
    assert_eq!(after, before);
    let mut third = vec![0; length];
    assert_eq!(pack(&packed, &second, &table, &mut third), Ok(length as u64));
    assert_eq!(third, wanted);
    loaded
}

/// Both byte orders, both versions, several chunks, tasks with nothing written and containers of only such come up.
#[test]
fn streams_are_the_same_when_packed() {
    let (mut rng, mut seen) = (Rng::new(210), [0; 8]);
    for _ in 0..600 {
        let (one, two) = (rng.number() as i64, rng.number() as i64);
        let container = sound(&mut rng).with(Field::Flag1, one).with(Field::Flag2, two);
        let loaded = check(&mut rng, &container);
        seen[loaded.head.order as usize] += 1;
        seen[loaded.head.format as usize - 1] += 1;
        seen[4] += usize::from(loaded.maxchunks > 1);
        seen[5] += usize::from(loaded.maxchunks == 0);
        seen[6] += usize::from(loaded.head.counts[..container.n].contains(&0));
        seen[7] += usize::from(loaded.head.blocksize > 512);
    }
    assert!(seen.iter().all(|&times| times > 10), "{seen:?}");
}
