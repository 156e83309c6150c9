//! Holds a small pair worked through by hand: what it needs, every byte that its calls store, what is read back, and the tally beside it.

mod calls;
mod cuts;
mod loads;

use crate::pair::{self, Forged, Needs, Part};
use crate::*;

/// The byte orders of file 0 and file 1.
const ORDERS: [[u32; 2]; 4] = [[0, 0], [0, 1], [1, 0], [1, 1]];

/// File 0 has ranks 2 and 0, sizes 500 and 600 and K = 3: D and G are 1536, and META2 of 3 blocks, at 6144, ends at 6208; 28 bytes of mapping
/// behind it make 6236. File 1 has rank 1, size 20 and K = 2: D is 1536, G is 512, and META2 of 2 blocks, at 2560, ends at 2584.
fn plans(orders: [u32; 2]) -> [Plan<'static>; 2] {
    let plan = |order, version, ranks, sizes, prefix, k| {
        let (patch, format, blocksize) = (7, 3, 512);
        Plan { order, version, patch, format, blocksize, ranks, sizes, prefix, k }
    };
    let first = plan(orders[0], 1, &[2, 0], &[500, 600], b"night.0", 3);
    [first, plan(orders[1], 2, &[1], &[20], b"night.1", 2)]
}

/// Rank and length of each request; rank 2 goes on in its second chunk, rank 0 fills its first, and rank 1 has no third.
const REQUESTS: [(u64, usize); 5] = [(2, 500), (1, 512), (0, 1024), (2, 13), (1, 1)];

/// The requests with their bytes: all of one are the same, 10 for the first, 11 for the second and so on.
fn requests() -> Vec<(u64, Vec<u8>)> {
    let bytes = |(i, (rank, length))| (rank, vec![10 + i as u8; length]);
    REQUESTS.into_iter().enumerate().map(bytes).collect()
}

/// A session of a pair with its memory.
#[derive(Clone, Debug, PartialEq)]
struct Pair {
    sessions: [Session; 2],
    images: [Vec<u8>; 2],
    tables: [Vec<i64>; 2],
}

impl Pair {
    /// Memory of so many bytes, all 9, and cells, all 5, with two records that nothing accepts.
    fn lent(bytes: [usize; 2], cells: [usize; 2]) -> Pair {
        let sessions = [Session::refused(), Session::refused()];
        let images = bytes.map(|length| vec![9; length]);
        Pair { sessions, images, tables: cells.map(|length| vec![5; length]) }
    }

    /// A session just opened, with one byte and one cell more than it needs in each file.
    fn opened(plans: &[Plan; 2]) -> Pair {
        let needs = pair::needs(plans).expect("sound plans");
        let bytes = needs.map(|needs| needs.image as usize + 1);
        let mut pair = Pair::lent(bytes, needs.map(|needs| needs.cells as usize + 1));
        assert_eq!(pair.open(plans, [u64::MAX; 2]), Ok(()));
        pair
    }

    /// The session of the small pair after all requests.
    fn filled(orders: [u32; 2]) -> Pair {
        let mut pair = Pair::opened(&plans(orders));
        for (rank, bytes) in requests() {
            assert_eq!(pair.write(rank, &bytes), Ok(()));
        }
        pair
    }

    fn open(&mut self, plans: &[Plan; 2], budgets: [u64; 2]) -> Result<(), u32> {
        let Pair { images: [image, other], tables: [table, cells], .. } = self;
        self.sessions = pair::open_within(plans, [image, other], [table, cells], budgets)?;
        Ok(())
    }

    fn write(&mut self, rank: u64, bytes: &[u8]) -> Result<(), u32> {
        let Pair { sessions, images: [image, other], tables: [table, cells] } = self;
        pair::write(sessions, [image, other], [table, cells], rank, bytes)
    }

    fn close(&mut self) -> Result<[u64; 2], u32> {
        let Pair { sessions, images: [image, other], tables: [table, cells] } = self;
        pair::close(sessions, [image, other], [table, cells])
    }
}

/// The small pair closed.
fn closed(orders: [u32; 2]) -> Forged {
    let forged = Forged::new(&plans(orders), 9, &requests());
    forged.expect("sound plans")
}

fn order_of(number: u32) -> Order {
    Order::from_number(number).expect("an order")
}

#[test]
fn needs_of_both_files() {
    let wanted = [Needs { image: 6236, cells: 6 }, Needs { image: 2584, cells: 2 }];
    assert_eq!(pair::needs(&plans([0, 1])), Ok(wanted));
    let one = |rank| Plan { ranks: rank, sizes: &[1], k: 1, ..plans([0, 0])[0] };
    let wanted = [Needs { image: 2084, cells: 1 }, Needs { image: 2064, cells: 1 }];
    assert_eq!(pair::needs(&[one(&[0]), one(&[1])]), Ok(wanted));
    assert_eq!(pair::needs(&[one(&[1]), one(&[0])]), Ok(wanted));
}

/// Each record says which file it is of, and so does its META1; behind D nothing has changed.
#[test]
fn an_opening() {
    for orders in ORDERS {
        let Pair { sessions, images, tables } = Pair::opened(&plans(orders));
        assert_eq!([tables[0] == [-1, -1, -1, -1, -1, -1, 5], tables[1] == [-1, -1, 5]], [true; 2]);
        for (file, (session, image)) in sessions.iter().zip(&images).enumerate() {
            let (head, order) = (&session.head, order_of(orders[file]));
            let n = 2 - file;
            assert_eq!((head.files, head.file, head.n), (2, file as u32, n as u32));
            assert_eq!((head.order, head.version, head.closed), (orders[file], 1 + file as i32, 0));
            assert_eq!((session.k, head.counts), (3 - file as u32, [0; MAX_TASKS]));
            let numbers: Vec<i32> = (4..36).step_by(4).map(|at| order.int(image, at)).collect();
            assert_eq!(numbers, [1, head.version, 7, 3, 512, n as i32, 2, file as i32]);
            assert_eq!((&image[..4], &image[52..59]), (&MARK[..], plans(orders)[file].prefix));
            let lists: Vec<i64> = order.longs(&image[1076..1076 + 16 * n]).collect();
            assert_eq!(lists, [&[2, 0, 500, 600][..], &[1, 20]][file]);
            assert!(image[1076 + 16 * n..1536].iter().all(|&byte| byte == 0));
            assert!(image[1536..].iter().all(|&byte| byte == 9));
        }
    }
}

/// Each request stands at its own offset of its own file, and nothing else behind D has changed.
#[test]
fn writes() {
    for orders in ORDERS {
        let mut pair = Pair::opened(&plans(orders));
        let places = [(0, 1536), (1, 1536), (0, 2048), (0, 3072), (1, 2048)];
        for ((rank, bytes), (file, place)) in requests().into_iter().zip(places) {
            let mut images = pair.images.clone();
            images[file][place..place + bytes.len()].copy_from_slice(&bytes);
            assert_eq!(pair.write(rank, &bytes), Ok(()));
            assert_eq!(pair.images, images);
        }
        assert_eq!(pair.tables[0], [500, 1024, 13, -1, -1, -1, 5]);
        assert_eq!(pair.tables[1], [512, 1, 5]);
        let counts = |file: usize| &pair.sessions[file].head.counts[..3];
        assert_eq!((counts(0), counts(1)), (&[2, 1, 0][..], &[2, 0, 0][..]));
        let answers = [(0, 1025), (1, 513), (1, 512), (3, 1), (3, 0), (1, 0)];
        let answers = answers.map(|(rank, length)| pair.write(rank, &vec![1; length]));
        let numbers = [Err(15), Err(15), Err(16), Err(14), Err(14), Ok(())];
        assert_eq!((answers, pair), (numbers, Pair::filled(orders)));
    }
}

/// maxchunks is 2 in both files: META2 of file 0, at 4608, ends at 4656, and the mapping at 4684; META2 of file 1, at 2560, ends at 2584.
#[test]
fn a_close() {
    let little = [3, 0, 0, 0, 0, 0, 0, 0, 1, 0, 0, 0, 1, 0, 0, 0, 0, 0, 0, 0];
    let big = [0, 0, 0, 3, 0, 0, 0, 0, 0, 0, 0, 1, 0, 0, 0, 1, 0, 0, 0, 0];
    for orders in ORDERS {
        let mut pair = Pair::filled(orders);
        let [mut image, mut other] = pair.images.clone();
        let [order, another] = orders.map(order_of);
        for (i, value) in [2, 1, 500, 1024, 13, -1].into_iter().enumerate() {
            order.put_long(&mut image, 4608 + 8 * i, value);
        }
        image[4656..4676].copy_from_slice(if order == Order::Little { &little } else { &big });
        image[4676..4684].fill(0);
        order.put_int(&mut image, 1108, 2);
        order.put_long(&mut image, 1112, 4608);
        for (i, value) in [2, 512, 1].into_iter().enumerate() {
            another.put_long(&mut other, 2560 + 8 * i, value);
        }
        another.put_int(&mut other, 1092, 2);
        another.put_long(&mut other, 1096, 2560);

        let before = pair.clone();
        assert_eq!(pair.close(), Ok([4684, 2584]));
        assert_eq!((&pair.images, &pair.tables), (&[image, other], &before.tables));
        let mut sessions = before.sessions;
        sessions.iter_mut().for_each(|session| session.head.closed = 1);
        assert_eq!(pair.sessions, sessions);
        assert_eq!(pair.close(), Err(17));
    }
}

/// The chunks of each rank: file, start, and bytes as value and length.
const CHUNKS: [(u64, u64, u32, u64, u8, usize); 5] = [
    (0, 1, 0, 2048, 12, 1024),
    (1, 1, 1, 1536, 11, 512),
    (1, 2, 1, 2048, 14, 1),
    (2, 1, 0, 1536, 10, 500),
    (2, 2, 0, 3072, 13, 13),
];

/// Read back, each rank has its bytes, over tables of just the cells that maxchunks needs and images that end as the files do.
#[test]
fn reads() {
    for orders in ORDERS {
        let forged = closed(orders);
        let (images, mut table, mut other) = (forged.images(), [5; 5], [5; 3]);
        let loaded = pair::load(images, [&mut table, &mut other]).expect("a sound pair");
        assert_eq!((table, other), ([500, 1024, 13, -1, 5], [512, 1, 5]));
        let numbers = |file: usize| (loaded[file].head.files, loaded[file].head.file);
        assert_eq!((numbers(0), numbers(1)), ((2, 0), (2, 1)));
        let tables = [&table[..], &other];
        for (rank, chunk, file, start, byte, length) in CHUNKS {
            let bytes = &vec![byte; length];
            let part = pair::chunk(&loaded, images, tables, rank, chunk);
            assert_eq!(part, Ok(Part { file, start, bytes }));
        }
        for (rank, chunk) in [(0, 0), (0, 2), (1, 3), (2, 0), (2, 3), (2, u64::MAX)] {
            assert_eq!(pair::chunk(&loaded, images, tables, rank, chunk), Err(22));
        }
        let totals = [0, 1, 2, 3, u64::MAX].map(|rank| pair::total(&loaded, images, tables, rank));
        assert_eq!(totals, [Ok(1024), Ok(513), Ok(513), Err(14), Err(14)]);

        let copied = |rank, p| {
            let mut out = [0; 6];
            (pair::read(&loaded, images, tables, rank, p, &mut out), out)
        };
        assert_eq!(copied(1, 509), (Ok(4), [11, 11, 11, 14, 0, 0]));
        assert_eq!(copied(2, 497), (Ok(6), [10, 10, 10, 13, 13, 13]));
        assert_eq!(copied(0, 1024), (Ok(0), [0; 6]));
        assert_eq!(copied(0, 1025), (Err(23), [0; 6]));
        assert_eq!(copied(3, 1025), (Err(14), [0; 6]));
    }
}

/// File 0 in version 4 with all its tasks idle, file 1 in version 3 with none written: maxchunks is 1 and 0.
#[test]
fn versions_differ() {
    for [format, other] in [[4, 3], [3, 4]] {
        let [first, second] = plans([1, 0]);
        let plans = [Plan { format, ..first }, Plan { format: other, ..second }];
        let forged = Forged::new(&plans, 0, &[]).expect("sound plans");
        let lengths = forged.images().map(<[u8]>::len);
        assert_eq!(lengths, if format == 4 { [3132, 1544] } else { [1580, 2064] });
        let (mut table, mut cells) = ([5; 2], [5; 1]);
        let loaded = pair::load(forged.images(), [&mut table, &mut cells]).expect("a sound pair");
        assert_eq!([loaded[0].head.format, loaded[1].head.format], [format, other]);
        assert_eq!([loaded[0].maxchunks, loaded[1].maxchunks], [format - 3, other - 3]);
        assert_eq!((table, cells), if format == 4 { ([0; 2], [5]) } else { ([5; 2], [0]) });
        let totals =
            [0, 1, 2].map(|rank| pair::total(&loaded, forged.images(), [&table, &cells], rank));
        assert_eq!(totals, [Ok(0); 3]);
    }
}

/// As many tasks in each file as one may have, ranks going down from the last task of file 1: rank r is the mapping's entry for it.
#[test]
fn the_most_tasks() {
    let ranks: Vec<u64> = (0..2 * MAX_TASKS as u64).rev().collect();
    let plan = |ranks, n| Plan { ranks, sizes: &[1; MAX_TASKS + 1][..n], k: 1, ..plans([1, 0])[0] };
    let full = [plan(&ranks[..MAX_TASKS], MAX_TASKS), plan(&ranks[MAX_TASKS..], MAX_TASKS)];
    let last = 2 * MAX_TASKS as u64 - 1;
    let forged = Forged::new(&full, 0, &[(last, vec![8; 3]), (last + 1, vec![1])]);
    let forged = forged.expect("sound plans");
    assert_eq!(forged.files[0].get(Field::MappingSize), last as i64 + 1);
    for rank in 0..=last as usize {
        let entry =
            [Field::EntryFile(rank), Field::EntryTask(rank)].map(|f| forged.files[0].get(f));
        let (file, task) = (rank < MAX_TASKS, MAX_TASKS - 1 - rank % MAX_TASKS);
        assert_eq!(entry, [i64::from(file), task as i64]);
    }
    let (mut table, mut cells) = ([0; MAX_TASKS], [0; 0]);
    let loaded = pair::load(forged.images(), [&mut table, &mut cells]).expect("a sound pair");
    assert_eq!(pair::total(&loaded, forged.images(), [&table, &cells], last), Ok(3));
    let over = [plan(&ranks[..MAX_TASKS - 1], MAX_TASKS - 1), plan(&ranks, MAX_TASKS + 1)];
    assert_eq!(pair::needs(&over), Err(6));
    let over = [over[0], plan(&ranks[MAX_TASKS - 1..], MAX_TASKS + 1)];
    assert_eq!(pair::needs(&over), Err(6));
}

/// A tally of the plans.
fn tally(plans: &[Plan; 2]) -> PairTally {
    let task = |file: usize, task: usize| {
        let Plan { blocksize, ranks, sizes, k, .. } = plans[file];
        let layout = Layout::new(blocksize, sizes);
        let starts = (0..u64::from(k)).map(|chunk| layout.chunk(task, chunk)).collect();
        let c = capacity(blocksize, sizes[task]);
        PairTask { rank: ranks[task], file: file as u32, k, c, starts }
    };
    let tasks = (0..2).flat_map(|file| (0..plans[file].sizes.len()).map(move |i| (file, i)));
    PairTally::new(tasks.map(|(file, i)| task(file, i)))
}

/// A task's K is its file's, and its bytes stand at offsets of its file.
#[test]
fn tally_agrees_with_writes() {
    let plans = plans([1, 0]);
    let (mut tally, mut pair) = (tally(&plans), Pair::opened(&plans));
    let mut seen = [0; 17];
    for i in 0..400u64 {
        let (rank, length) = (i * 7 % 11 % 4, i * i * 31 % 97 % 8 * (1 + i % 2 * 89));
        let answer = tally.feed(rank, length);
        let bytes = vec![i as u8 | 1; length as usize];
        assert_eq!(pair.write(rank, &bytes).err().unwrap_or(0), answer.number);
        seen[answer.number as usize] += 1;
        if let Some((file, offset)) = answer.place {
            assert_eq!(pair.images[file as usize][offset as usize..][..bytes.len()], bytes);
        }
    }
    assert!([0, 14, 15, 16].iter().all(|&number| seen[number] > 0));
    let mut tally = self::tally(&plans);
    let told = [(1, 512), (1, 512), (1, 1), (2, 512), (2, 512), (2, 512), (2, 1), (0, 0)];
    let told = told.map(|(rank, length)| tally.feed(rank, length));
    let places = [Some((1, 1536)), Some((1, 2048)), None, Some((0, 1536)), Some((0, 3072))];
    let places = places.into_iter().chain([Some((0, 4608)), None, None]);
    let numbers = [0, 0, 16, 0, 0, 0, 16, 0];
    let wanted: Vec<PairAnswer> = numbers
        .into_iter()
        .zip(places)
        .map(|(number, place)| PairAnswer { number, place })
        .collect();
    assert_eq!(told[..], wanted);
}
