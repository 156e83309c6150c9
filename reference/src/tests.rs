//! Holds the papers' numbers to check by, tests of hostile records, of power cuts, of where a load breaks off, of packing, and of pairs.

mod cuts;
mod faults;
mod packing;
mod pairs;

use crate::*;

const SIZES: [u64; 2] = [500, 600];

/// A session that has just been opened, with its image and its table.
type Opened = (Session, Vec<u8>, Vec<i64>);

fn session(order: u32, sizes: &[u64], k: u32) -> Opened {
    session_of(512, order, sizes, k)
}

fn session_of(blocksize: u32, order: u32, sizes: &[u64], k: u32) -> Opened {
    session_in(3, blocksize, order, sizes, k)
}

fn session_in(format: u32, blocksize: u32, order: u32, sizes: &[u64], k: u32) -> Opened {
    let ranks: Vec<u64> = (0..sizes.len() as u64).collect();
    let mut image = vec![0; Layout::new(blocksize, sizes).end(u64::from(k)) as usize];
    let mut table = vec![7; sizes.len() * k as usize];
    let session =
        open(order, 1, 7, format, blocksize, &ranks, sizes, b"p", k, &mut image, &mut table);
    (session.expect("a sound plan"), image, table)
}

/// Writes so many bytes, all of the value 1, to task 1.
fn write_ones((session, image, table): &mut Opened, length: u64) -> Result<(), u32> {
    write(session, image, table, 1, &vec![1; length as usize])
}

/// The number of a refused load.
fn refusal(image: &[u8], table: &mut [i64]) -> Option<u32> {
    load(image, table).err().map(|fault| fault.refusal)
}

/// P12's requests, all to task 1.
fn p12_requests() -> [Vec<u8>; 3] {
    [vec![7; 300], vec![8; 200], vec![9; 1]]
}

fn p12(order: u32) -> (Vec<u8>, u64) {
    let (mut session, mut image, mut table) = session(order, &SIZES, 3);
    for bytes in p12_requests() {
        assert_eq!(write(&mut session, &mut image, &mut table, 1, &bytes), Ok(()));
    }
    assert_eq!(image[2035..2038], [8, 9, 0]);
    let length = close(&mut session, &mut image, &table).expect("an open session");
    assert_eq!(close(&mut session, &mut image, &table), Err(17));
    (image, length)
}

/// What the same requests left when a chunk held its requested size.
fn base_p12(order: u32) -> (Vec<u8>, u64) {
    let (mut session, mut image, mut table) = session(order, &SIZES, 3);
    image[1536..2036].fill(8);
    image[3072] = 9;
    session.head.counts[0] = 2;
    table[..4].copy_from_slice(&[500, -1, 1, -1]);
    let length = close(&mut session, &mut image, &table).expect("an open session");
    (image, length)
}

#[test]
fn p1_to_p10_layout() {
    assert_eq!([2, 28, 29].map(meta1_end), [1120, 1536, 1552]);
    assert_eq!(Layout::new(512, &[1; 28]).d, 1536);
    assert_eq!(Layout::new(512, &[1; 29]).d, 2048);
    assert_eq!([512, 513].map(|size| Layout::new(512, &[size]).g), [512, 1024]);
    let layout = Layout::new(512, &SIZES);
    assert_eq!((layout.d, layout.g, layout.end(3)), (1536, 1536, 6208));
    assert_eq!([layout.chunk(0, 0), layout.chunk(1, 0)], [1536, 2048]);
    assert_eq!([layout.chunk(0, 2), layout.chunk(1, 2)], [4608, 5120]);
}

#[test]
fn p11_p12_container() {
    for order in [0, 1] {
        let (image, length) = p12(order);
        let bytes = Order::from_number(order).expect("an order");
        assert_eq!((length, bytes.int(&image, 1108), bytes.long(&image, 1112)), (3104, 1, 3072));
        let meta2: Vec<i64> = bytes.longs(&image[3072..3104]).collect();
        assert_eq!(meta2, [1, 0, 501, -1]);

        let mut table = [5; 3];
        let loaded = load(&image[..3104], &mut table).expect("a sound container");
        assert_eq!((loaded.maxchunks, table), (1, [501, -1, 5]));
        assert_eq!(total(&loaded, &image, &table, 1), Ok(501));
        assert_eq!(chunk(&loaded, &image, &table, 1, 1), Ok(&image[1536..2037]));
        assert_eq!(chunk(&loaded, &image, &table, 1, 2), Err(22));
        assert_eq!(chunk(&loaded, &image, &table, 2, 1), Err(22));
        check_end(&loaded, &image, &table);
        assert_eq!(refusal(&image[..3103], &mut table), Some(12));
        assert_eq!(refusal(&image, &mut table[..1]), Some(18));
    }
}

/// The stream of task 1 ends 8, 8, 8, 9 after 501 bytes.
fn check_end(loaded: &Loaded, image: &[u8], table: &[i64]) {
    let mut out = [0; 9];
    assert_eq!(read(loaded, image, table, 1, 497, &mut out), Ok(4));
    assert_eq!(out, [8, 8, 8, 9, 0, 0, 0, 0, 0]);
    assert_eq!(read(loaded, image, table, 1, 501, &mut out), Ok(0));
    assert_eq!(read(loaded, image, table, 1, 502, &mut out), Err(23));
}

#[test]
fn containers_already_written_stay_acceptable() {
    for order in [0, 1] {
        let (image, length) = base_p12(order);
        let bytes = Order::from_number(order).expect("an order");
        assert_eq!((length, bytes.int(&image, 1108), bytes.long(&image, 1112)), (4656, 2, 4608));
        let meta2: Vec<i64> = bytes.longs(&image[4608..4656]).collect();
        assert_eq!(meta2, [2, 0, 500, -1, 1, -1]);

        let mut table = [5; 5];
        let loaded = load(&image[..4656], &mut table).expect("a sound container");
        assert_eq!((loaded.maxchunks, table), (2, [500, -1, 1, -1, 5]));
        assert_eq!([1, 2].map(|task| total(&loaded, &image, &table, task)), [Ok(501), Ok(0)]);
        assert_eq!(chunk(&loaded, &image, &table, 1, 2), Ok(&[9u8][..]));
        check_end(&loaded, &image, &table);
    }
}

#[test]
fn p13_room() {
    let mut opened = session(0, &[500], 2);
    let requests = [(513, 15), (1, 0), (513, 15), (512, 0), (1, 16), (513, 15), (0, 0)];
    for (length, answer) in requests {
        assert_eq!(write_ones(&mut opened, length).err().unwrap_or(0), answer, "{length}");
    }
    let held: i64 = opened.2.iter().sum();
    assert_eq!((2 * (held + 1), 2 * capacity(512, 500)), (1028, 1024));
    assert_eq!((opened.0.head.counts[0], opened.2), (2, vec![1, 512]));
}

/// Blocksize, requested size and what a chunk then holds; for a multiple of the blocksize that is the size.
const CHUNKS: [(u32, u64, u64); 9] = [
    (512, 500, 512),
    (512, 511, 512),
    (512, 512, 512),
    (512, 513, 1024),
    (512, 1024, 1024),
    (512, 1_073_741_824, 1_073_741_824),
    (4_194_304, 1, 4_194_304),
    (4_194_304, 4_194_304, 4_194_304),
    (4_194_304, 1_073_741_823, 1_073_741_824),
];

#[test]
fn what_a_chunk_holds() {
    for (blocksize, size, holds) in CHUNKS {
        assert_eq!((capacity(blocksize, size), chunk_size(size, blocksize)), (holds, Ok(holds)));
        let mut tally = Tally::new(2, [(capacity(blocksize, size), vec![0, holds])]);
        let answers = [holds + 1, 1, holds, 1].map(|length| tally.feed(1, length).number);
        assert_eq!(answers, [15, 0, 0, 16], "{blocksize}, {size}");
    }
    for (blocksize, size, holds) in CHUNKS.into_iter().filter(|&(.., holds)| holds < 1 << 23) {
        let mut opened = session_of(blocksize, 1, &[size], 1);
        let lengths = [holds + 1, holds - 1, 2, 1, 1];
        let answers = lengths.map(|length| write_ones(&mut opened, length).err().unwrap_or(0));
        assert_eq!(answers, [15, 0, 16, 0, 16], "{blocksize}, {size}");
        check_values(opened, holds as i64);
    }
}

/// In a session, in its container and in the record of its load a value may be what a chunk holds, and no more.
fn check_values((mut session, mut image, mut table): Opened, holds: i64) {
    assert_eq!(table, [holds]);
    assert_eq!(close(&mut session.clone(), &mut image.clone(), &[holds + 1]), Err(19));
    let length = close(&mut session, &mut image, &table).expect("an open session") as usize;
    let loaded = load(&image[..length], &mut table).expect("a sound container");
    assert_eq!(total(&loaded, &image, &table, 1), Ok(holds as u64));
    assert_eq!(total(&loaded, &image, &[holds + 1], 1), Err(19));
    Order::Big.put_long(&mut image, length - 8, holds + 1);
    assert_eq!(refusal(&image[..length], &mut table), Some(13));
}

#[test]
fn chunk_sizes_refused() {
    for blocksize in [0, 256, 511, 513, 768, 8_388_608, u32::MAX] {
        for size in [0, 1, 1_073_741_824, 1_073_741_825, u64::MAX] {
            assert_eq!(chunk_size(size, blocksize), Err(5), "{blocksize}, {size}");
        }
    }
    for blocksize in [512, 1024, 4_194_304] {
        for size in [0, 1_073_741_825, u64::MAX] {
            assert_eq!(chunk_size(size, blocksize), Err(9), "{blocksize}, {size}");
        }
    }
}

#[test]
fn openings() {
    let attempt =
        |order, blocksize, ranks: &[u64], sizes: &[u64], prefix: usize, k, image: usize| {
            let (mut image, mut table) = (vec![0; image], vec![0; 64]);
            let prefix = vec![b'x'; prefix];
            open(order, 0, 0, 3, blocksize, ranks, sizes, &prefix, k, &mut image, &mut table).err()
        };
    let ranks: Vec<u64> = (0..65).collect();
    assert_eq!(attempt(2, 0, &[], &[], 0, 0, 0), Some(2));
    for blocksize in [0, 256, 768, 8_388_608, u32::MAX] {
        assert_eq!(attempt(0, blocksize, &[], &[], 0, 0, 0), Some(5));
    }
    assert_eq!(attempt(0, 4_194_304, &[], &[], 0, 0, 0), Some(6));
    assert_eq!(attempt(0, 512, &ranks, &[1; 65], 0, 0, 0), Some(6));
    assert_eq!(attempt(0, 512, &[0, 1], &[1], 0, 0, 0), Some(6));
    assert_eq!(attempt(0, 512, &[3, 3], &[0, 1], 1025, 0, 0), Some(21));
    assert_eq!(attempt(0, 512, &[3, 3], &[0, 1], 1024, 0, 0), Some(8));
    assert_eq!(attempt(0, 512, &[0], &[1_073_741_825], 0, 0, 0), Some(9));
    assert_eq!(attempt(0, 512, &[0], &[1], 0, 33, 0), Some(20));
    assert_eq!(attempt(0, 512, &[0, 1], &SIZES, 1024, 3, 6207), Some(18));
    assert_eq!(attempt(0, 512, &[0, 1], &SIZES, 1024, 3, 6208), None);
    assert_eq!(attempt(1, 512, &ranks[..64], &[1; 64], 0, 1, 40_000), None);
}

/// P12 in version 4: both tasks have chunk 1 in use before anything is written, and the second, which writes nothing, has it empty in the end.
#[test]
fn p12_in_version_4() {
    for order in [0, 1] {
        let (mut session, mut image, mut table) = session_in(4, 512, order, &SIZES, 3);
        assert_eq!(
            (&session.head.counts[..3], &table[..]),
            (&[1, 1, 0][..], &[0, 0, -1, -1, -1, -1][..])
        );
        for length in [300, 200, 1] {
            assert_eq!(write(&mut session, &mut image, &mut table, 1, &vec![7; length]), Ok(()));
        }
        assert_eq!(close(&mut session, &mut image, &table), Ok(3104));
        let bytes = Order::from_number(order).expect("an order");
        assert_eq!(
            (bytes.int(&image, 16), bytes.int(&image, 1108), bytes.long(&image, 1112)),
            (4, 1, 3072)
        );
        let meta2: Vec<i64> = bytes.longs(&image[3072..3104]).collect();
        assert_eq!(meta2, [1, 1, 501, 0]);
        let loaded = load(&image[..3104], &mut table).expect("a sound container");
        assert_eq!((loaded.head.format, loaded.maxchunks), (4, 1));
        assert_eq!([1, 2].map(|task| total(&loaded, &image, &table, task)), [Ok(501), Ok(0)]);
        assert_eq!(chunk(&loaded, &image, &table, 2, 1), Ok(&[][..]));
        bytes.put_long(&mut image, 3080, 0);
        bytes.put_long(&mut image, 3096, -1);
        assert_eq!(refusal(&image[..3104], &mut table), Some(13));
        bytes.put_int(&mut image, 16, 3);
        assert_eq!(load(&image[..3104], &mut table).map(|loaded| loaded.head.format), Ok(3));
    }
}

#[test]
fn formats() {
    let attempt = |order, format, blocksize| {
        let (mut image, mut table) = (vec![0; 2064], vec![9]);
        open(order, 1, 7, format, blocksize, &[0], &[1], b"", 1, &mut image, &mut table).err()
    };
    for format in [0, 2, 5, 259, u32::MAX] {
        assert_eq!((attempt(2, format, 768), attempt(0, format, 768)), (Some(2), Some(4)));
    }
    for format in [3, 4] {
        assert_eq!((attempt(0, format, 768), attempt(0, format, 512)), (Some(5), None));
    }
    for format in [3, 4] {
        let (mut session, mut image, mut table) = session_in(format, 512, 0, &[1], 1);
        let length = close(&mut session, &mut image, &table).expect("an open session") as usize;
        let maxchunks = u64::from(format - 3);
        assert_eq!(length, [1544, 2064][maxchunks as usize]);
        let loaded = load(&image[..length], &mut table).expect("a sound container");
        assert_eq!((loaded.head.format, loaded.maxchunks), (format, maxchunks as u32));
    }
}

/// One chunk of 512 bytes: what fits and what does not is the same in both versions.
#[test]
fn writes_do_not_depend_on_the_format() {
    for lengths in [[513, 512, 1, 0], [1, 511, 1, 512], [0, 1, 512, 511], [511, 2, 1, 1]] {
        let [three, four] = [3, 4].map(|format| {
            let mut opened = session_in(format, 512, 0, &[500], 1);
            let answers = lengths.map(|length| write_ones(&mut opened, length).err().unwrap_or(0));
            (answers, opened.1[1536..].to_vec(), opened.2)
        });
        assert_eq!(three, four);
    }
}

#[test]
fn hostile_records() {
    let (good, mut image, mut table) = session(0, &SIZES, 3);
    let mut answer = |change: fn(&mut Session), task| {
        let mut session = good.clone();
        change(&mut session);
        let before = session.clone();
        let answer = write(&mut session, &mut image, &mut table, task, b"x");
        assert_eq!(session, before);
        answer
    };
    assert_eq!(answer(|s| s.head.n = u32::MAX, 1), Err(17));
    assert_eq!(answer(|s| s.head.n = 0, 1), Err(17));
    assert_eq!(answer(|s| s.head.sizes[1] = u64::MAX, 1), Err(17));
    assert_eq!(answer(|s| s.head.ranks[1] = 0, 1), Err(17));
    assert_eq!(answer(|s| s.head.counts[1] = u64::MAX, 1), Err(17));
    assert_eq!(answer(|s| s.head.order = 2, 1), Err(17));
    assert_eq!(answer(|s| s.head.format = 0, 1), Err(17));
    assert_eq!(answer(|s| s.head.format = 5, 1), Err(17));
    assert_eq!(answer(|s| s.head.format = 4, 1), Err(17));
    assert_eq!(answer(|s| s.k = u32::MAX, 1), Err(17));
    assert_eq!(answer(|s| s.k = 4, 1), Err(18));
    assert_eq!(answer(|s| s.head.sizes[0] = 1_073_741_824, 1), Err(18));
    assert_eq!(answer(|s| s.head.counts[1] = 1, 1), Err(19));
    assert_eq!(answer(|s| s.head.counts[2] = 9, 0), Err(14));
    assert_eq!(answer(|_| (), u64::MAX), Err(14));
    let mut hollow = Loaded::refused();
    assert_eq!(total(&hollow, &[], &[], 1), Err(17));
    hollow.head.closed = 0;
    assert_eq!(total(&hollow, &[], &[], 1), Err(17));
}

#[test]
fn tally_agrees_with_writes() {
    let sizes = [5, 600, 1];
    let (mut session, mut image, mut table) = session(1, &sizes, 4);
    let layout = Layout::new(512, &sizes);
    let starts = |task| (0..4).map(|chunk| layout.chunk(task, chunk)).collect();
    let mut tally = Tally::new(4, (0..3).map(|task| (capacity(512, sizes[task]), starts(task))));
    let mut seen = [0; 17];
    for i in 0..400u64 {
        let (task, length) = (i * 7 % 11 % 5, i * i * 31 % 97 % 8 * (1 + i % 2 * 89));
        let answer = tally.feed(task, length);
        let bytes = vec![i as u8 | 1; length as usize];
        let written = write(&mut session, &mut image, &mut table, task, &bytes);
        assert_eq!(written.err().unwrap_or(0), answer.number);
        seen[answer.number as usize] += 1;
        if let Some(offset) = answer.offset {
            assert_eq!(image[offset as usize..][..bytes.len()], bytes);
        }
    }
    assert!([0, 14, 15, 16].iter().all(|&number| seen[number] > 0));
}
