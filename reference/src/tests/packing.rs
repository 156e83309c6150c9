//! Holds packing worked through by hand: the papers' container, containers with no byte written, what the record and what the image give,
//! power cuts, and each refusal in its order.

use super::{base_p12, check_end, p12_requests, refusal, session_in, SIZES};
use crate::*;

/// What a packing is given but for the second image.
#[derive(Clone)]
struct Source {
    loaded: Loaded,
    image: Vec<u8>,
    table: Vec<i64>,
}

impl Source {
    /// A container with more cells than it needs.
    fn new(image: Vec<u8>) -> Source {
        let mut table = vec![5; 64];
        let loaded = load(&image, &mut table).expect("a sound container");
        Source { loaded, image, table }
    }

    /// P12's container of this version and byte order.
    fn p12(format: u32, order: u32) -> Source {
        let (mut session, mut image, mut table) = session_in(format, 512, order, &SIZES, 3);
        for bytes in p12_requests() {
            assert_eq!(write(&mut session, &mut image, &mut table, 1, &bytes), Ok(()));
        }
        assert_eq!(close(&mut session, &mut image, &table), Ok(3104));
        Source::new(image)
    }

    fn order(&self) -> Order {
        self.loaded.head.byte_order()
    }

    fn length(&self) -> Result<u64, u32> {
        packed_length(&self.loaded, &self.image, &self.table)
    }

    fn pack(&self, second: &mut [u8], budget: u64) -> Result<u64, u32> {
        pack_within(&self.loaded, &self.image, &self.table, second, budget)
    }

    /// The packed container, written over nines of which the last three stay.
    fn packed(&self) -> Vec<u8> {
        let length = self.length().expect("a sound source");
        let mut second = vec![9; length as usize + 3];
        assert_eq!(pack(&self.loaded, &self.image, &self.table, &mut second), Ok(length));
        assert_eq!(second.split_off(length as usize), [9; 3]);
        second
    }
}

/// Each version and byte order.
const KINDS: [(u32, u32); 4] = [(3, 0), (3, 1), (4, 0), (4, 1)];

/// Sizes are 501 and 1, D is 1536, G is 1024, and META2, at 2560, ends at 2592.
#[test]
fn p12_packed() {
    assert_eq!(Layout::new(512, &[501, 1]).g, 1024);
    for (format, order) in KINDS {
        let source = Source::p12(format, order);
        let (second, order) = (source.packed(), source.order());
        assert_eq!((source.length(), second.len()), (Ok(2592), 2592));

        assert_eq!(&second[..4], b"sion");
        let numbers: Vec<i32> = (4..36).step_by(4).map(|at| order.int(&second, at)).collect();
        assert_eq!(numbers, [1, 1, 7, format as i32, 512, 2, 1, 0]);
        assert_eq!(second[36..1076], source.image[36..1076]);
        assert_eq!(order.longs(&second[1076..1108]).collect::<Vec<i64>>(), [0, 1, 501, 1]);
        assert_eq!((order.int(&second, 1108), order.long(&second, 1112)), (1, 2560));
        assert_eq!(second[1120..1536], [0; 416]);
        assert_eq!(second[1536..2037], [vec![7; 300], vec![8; 200], vec![9; 1]].concat());
        assert_eq!(second[2037..2560], [0; 523]);
        let meta2: Vec<i64> = order.longs(&second[2560..]).collect();
        assert_eq!(meta2, [[1, 0, 501, -1], [1, 1, 501, 0]][format as usize - 3]);

        let packed = Source::new(second);
        let Source { loaded, image, table } = &packed;
        assert_eq!([1, 2].map(|task| total(loaded, image, table, task)), [Ok(501), Ok(0)]);
        check_end(loaded, image, table);
        assert_eq!(packed.packed(), packed.image);
    }
}

/// Bytes of two chunks stand in one: those of the container as it was written when a chunk held its requested size.
#[test]
fn two_chunks_become_one() {
    for order in [0, 1] {
        let source = Source::new(base_p12(order).0);
        let second = source.packed();
        assert_eq!(second[1536..2038], [vec![8; 500], vec![9, 0]].concat());
        let meta2: Vec<i64> = source.order().longs(&second[2560..]).collect();
        assert_eq!((source.loaded.maxchunks, meta2), (2, vec![1, 0, 501, -1]));
    }
}

/// In a chunk of its own each stream has a gap behind it, of which there is none where it ends with a block: totals 512, 0, 513.
#[test]
fn streams_that_end_with_a_block_or_not() {
    for (format, order) in KINDS {
        let (mut session, mut image, mut table) = session_in(format, 512, order, &[1, 700, 300], 3);
        for (task, length) in [(3, 300), (1, 500), (3, 213), (1, 12)] {
            let bytes = vec![task as u8; length];
            assert_eq!(write(&mut session, &mut image, &mut table, task, &bytes), Ok(()));
        }
        assert!(close(&mut session, &mut image, &table).is_ok());
        let source = Source::new(image);
        assert_eq!((source.loaded.maxchunks, source.length()), (2, Ok(3632)));
        let (second, order) = (source.packed(), source.order());
        let chunks = [vec![1; 512], vec![0; 512], vec![3; 513], vec![0; 511]].concat();
        assert_eq!(second[1536..3584], chunks);
        let numbers: Vec<i64> = order.longs(&second[1100..1124]).collect();
        let meta2: Vec<i64> = order.longs(&second[3584..]).collect();
        let wanted = [[1, 0, 1, 512, -1, 513], [1, 1, 1, 512, 0, 513]][format as usize - 3];
        assert_eq!((numbers, meta2), (vec![512, 1, 513], wanted.to_vec()));
    }
}

/// A container in which no byte is written, with so many chunks of each task in use.
fn empty(format: u32, order: u32, chunks: [usize; 2]) -> Source {
    let (mut session, mut image, mut table) = session_in(format, 512, order, &SIZES, 3);
    for (task, count) in chunks.into_iter().enumerate() {
        session.head.counts[task] = count as u64;
        (0..count).for_each(|chunk| table[2 * chunk + task] = 0);
    }
    assert!(close(&mut session, &mut image, &table).is_ok());
    Source::new(image)
}

/// In version 3 maxchunks is then 0 and META2 starts at D, however many empty chunks are in use; in version 4 each task has one.
#[test]
fn no_byte_written() {
    let chunks = [(3, [0, 0]), (3, [1, 0]), (3, [2, 3]), (4, [1, 1]), (4, [2, 1]), (4, [3, 3])];
    for (order, (format, chunks)) in [0, 1].into_iter().flat_map(|i| chunks.map(|c| (i, c))) {
        let source = empty(format, order, chunks);
        let (second, order) = (source.packed(), source.order());
        let (start, meta2) =
            if format == 3 { (1536, vec![0; 2]) } else { (2560, vec![1, 1, 0, 0]) };
        assert_eq!(order.longs(&second[start..]).collect::<Vec<i64>>(), meta2);
        assert_eq!(order.longs(&second[1092..1108]).collect::<Vec<i64>>(), [1, 1]);
        let fields = (order.int(&second, 1108) as u32, order.long(&second, 1112) as usize);
        assert_eq!(fields, (format - 3, start));
        assert!(second[1120..start].iter().all(|&byte| byte == 0));

        let packed = Source::new(second);
        assert_eq!(packed.loaded.maxchunks, format - 3);
        assert_eq!(packed.packed(), packed.image);
    }
}

/// Flags and prefix are the image's bytes, in whatever order its numbers are; all other fields are the record's, whatever the image says.
#[test]
fn what_the_record_and_what_the_image_gives() {
    let mut source = Source::p12(3, 0);
    let mut rng = Rng::new(210);
    source.image[..1120].copy_from_slice(&rng.bytes(1120));
    source.image[3072..].fill(6);
    let head = &mut source.loaded.head;
    (head.order, head.version, head.patch) = (1, -5, 77);
    (head.ranks[0], head.ranks[1]) = (2_147_483_647, 3);
    let second = source.packed();
    assert_eq!(second[36..1076], source.image[36..1076]);
    let numbers: Vec<i32> = (4..36).step_by(4).map(|at| Order::Big.int(&second, at)).collect();
    assert_eq!(numbers, [1, -5, 77, 3, 512, 2, 1, 0]);

    let packed = Source::new(second);
    let mut wanted = source.loaded.clone();
    (wanted.head.sizes[0], wanted.head.sizes[1]) = (501, 1);
    assert_eq!((&packed.loaded, packed.packed()), (&wanted, packed.image.clone()));
    check_end(&packed.loaded, &packed.image, &packed.table);
}

/// A packing of P12 makes 2,593 stores: before the first a load of the second image gives what it gave, then 1, and with the last it gives the
/// packed container. Answers do not depend on the budget.
#[test]
fn a_packing_is_1_from_its_first_store_to_its_last() {
    for (format, order) in KINDS {
        let (source, other) = (Source::p12(format, order), Source::p12(3, 1 - order));
        let befores = [(vec![0; 2600], 1), (vec![9; 2592], 1), (other.image, 0)];
        for (before, number) in befores {
            let mut whole = before.clone();
            assert_eq!(source.pack(&mut whole, u64::MAX), Ok(2592));
            assert_eq!(whole[2592..], before[2592..]);
            for budget in 0..=2594 {
                let mut second = before.clone();
                assert_eq!(source.pack(&mut second, budget), Ok(2592));
                let moment = usize::from(budget > 0) + usize::from(budget > 2592);
                let found = refusal(&second, &mut [0; 64]).unwrap_or(0);
                let wanted = ([number, 1, 0][moment], [before[0], 0, b's'][moment]);
                assert_eq!((found, second[0]), wanted, "{format}, {order}, {budget}");
                let stored = (budget as usize).clamp(1, 2592);
                assert_eq!(second[1..stored], whole[1..stored]);
                assert_eq!(second[stored..], before[stored..]);
            }
        }
    }
}

#[test]
fn a_second_image_too_short() {
    for (source, length) in [(Source::p12(3, 0), 2592), (empty(3, 1, [0, 0]), 1552)] {
        for (short, budget) in [0, 1, 1120, 1536, length - 1].map(|short| (short, short as u64)) {
            let mut second = vec![9; short];
            assert_eq!(source.pack(&mut second, u64::MAX), Err(18));
            assert_eq!(source.pack(&mut second, budget), Err(18));
            assert_eq!(second, vec![9; short]);
        }
        assert_eq!(source.pack(&mut vec![9; length], u64::MAX), Ok(length as u64));
    }
}

/// The number that a source gets, whatever the second image and the budget are; the second image stays.
fn refused(source: &Source, number: u32) {
    assert_eq!(source.length(), Err(number));
    for (length, budget) in [(0, u64::MAX), (2591, 0), (2592, 1), (9999, u64::MAX)] {
        let mut second = vec![9; length];
        assert_eq!(source.pack(&mut second, budget), Err(number));
        assert_eq!(second, vec![9; length]);
    }
}

/// The number that a change of a source gets, and how it is made.
type Change = (u32, fn(&mut Source));

#[test]
fn hostile_records() {
    let changes: [Change; 22] = [
        (17, |it| it.loaded.head.closed = 1),
        (17, |it| it.loaded.head.n = 0),
        (17, |it| it.loaded.head.n = u32::MAX),
        (17, |it| it.loaded.head.order = 2),
        (17, |it| it.loaded.head.format = 5),
        (17, |it| it.loaded.head.format = 4),
        (17, |it| it.loaded.head.blocksize = 768),
        (17, |it| it.loaded.head.files = 2),
        (17, |it| it.loaded.head.file = 1),
        (17, |it| it.loaded.head.ranks[1] = 0),
        (17, |it| it.loaded.head.sizes[1] = u64::MAX),
        (17, |it| it.loaded.head.counts[1] = u64::MAX),
        (17, |it| it.loaded.maxchunks = 2),
        (17, |it| it.loaded.maxchunks = u32::MAX),
        (18, |it| it.image.truncate(3103)),
        (18, |it| it.image.clear()),
        (18, |it| it.table.truncate(1)),
        (18, |it| it.loaded.head.sizes[0] = 1_073_741_824),
        (19, |it| it.table[0] = 513),
        (19, |it| it.table[0] = -1),
        (19, |it| it.table[1] = 0),
        (19, |it| it.loaded.head.counts[1] = 1),
    ];
    for (order, (number, change)) in [0, 1].into_iter().flat_map(|i| changes.map(|c| (i, c))) {
        let mut source = Source::p12(3, order);
        source.image.truncate(3104);
        change(&mut source);
        refused(&source, number);
        if number > 18 {
            source.image.truncate(3103);
            refused(&source, 18);
        }
        source.loaded.head.closed = 1;
        refused(&source, 17);
    }
    refused(&Source { loaded: Loaded::refused(), image: vec![], table: vec![] }, 17);
}

/// A record of two tasks of the size that half the greatest size needs and one byte more, with its values, over zeros.
fn large(maxchunks: u32, counts: [u64; 2], values: &[i64]) -> Source {
    let half = (1 << 29) + 1;
    let mut loaded = Source::p12(3, 0).loaded;
    loaded.maxchunks = maxchunks;
    let sizes = if maxchunks == 1 { [half, half] } else { [1, half] };
    loaded.head.sizes[..2].copy_from_slice(&sizes);
    loaded.head.counts[..2].copy_from_slice(&counts);
    let length = Layout::new(512, &sizes).end(u64::from(maxchunks));
    Source { loaded, image: vec![0; length as usize], table: values.to_vec() }
}

/// A total may be 1,073,741,824 and no more; the sum of all totals is not judged.
#[test]
fn a_total_over_the_greatest_size() {
    let half = 1 << 29;
    let most = large(2, [0, 2], &[-1, half + 1, -1, half - 1]);
    assert_eq!(most.length(), Ok(1536 + 512 + (1 << 30) + 32));
    assert_eq!(most.pack(&mut [9; 2592], u64::MAX), Err(18));
    let mut over = large(2, [1, 2], &[1, half + 1, -1, half]);
    refused(&over, 9);
    over.table[1] = half + 513;
    refused(&over, 19);
    let both = large(1, [1, 1], &[half + 1, half + 1]);
    assert_eq!(both.length(), Ok(1536 + 2 * (512 + (1 << 29)) + 32));
}
