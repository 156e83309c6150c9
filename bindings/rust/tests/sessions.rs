//! Holds sessions to the paper's numbers and to their refusals, and reads a night's session back.

mod common;

use common::*;
use lapurmihi::{ByteOrder, Container, Format, Needs, Plan, Refusal};

#[test]
fn the_papers_session() {
    let needs = paper().needs().unwrap();
    assert_eq!(needs, Needs { image: 6208, cells: 6 });
    assert_eq!(opening(&paper(), 6208, 6), Ok(()));
    assert_eq!(opening(&paper(), 6207, 6), Err(Refusal::TooShort));
    assert_eq!(opening(&paper(), 6208, 5), Err(Refusal::TooShort));
    for order in ORDERS {
        assert_eq!(paper_container(order).len(), 3104);
    }
}

#[test]
fn the_papers_container_is_the_independent_programs() {
    let (mut image, mut table) = (vec![0; 6208], vec![0; 6]);
    let mut session = paper().open(&mut image, &mut table).unwrap();
    let all = bytes(501);
    for part in [&all[..300], &all[300..500], &all[500..]] {
        session.write(1, part).unwrap();
    }
    assert_eq!(session.close().unwrap(), SAMPLE);
    assert_eq!(table, [501, -1, -1, -1, -1, -1]);
}

#[test]
fn requests_of_1_and_512_begin_two_chunks_of_512() {
    let plan = Plan::new(512).blocks(2).task(0, 500);
    let (mut image, mut table) = memory(&plan);
    let mut session = plan.open(&mut image, &mut table).unwrap();
    let too_long = Err(Refusal::TooLong);
    let room = [(513, too_long), (1, Ok(())), (513, too_long), (512, Ok(()))];
    let full = [(1, Err(Refusal::NoChunkLeft)), (513, too_long), (0, Ok(()))];
    for (length, answer) in room.into_iter().chain(full) {
        assert_eq!(session.write(1, &bytes(length)), answer, "{length} bytes");
    }
}

#[test]
fn a_request_has_at_most_what_a_chunk_holds() {
    for (requested, holds) in [(1, 512), (511, 512), (512, 512), (513, 1024), (1024, 1024)] {
        let plan = Plan::new(512).task(0, requested);
        let (mut image, mut table) = memory(&plan);
        let mut session = plan.open(&mut image, &mut table).unwrap();
        assert_eq!((session.requested_size(1), session.chunk_size(1)), (Ok(requested), Ok(holds)));
        assert_eq!(session.write(1, &bytes(holds as usize + 1)), Err(Refusal::TooLong));
        assert_eq!(session.write(1, &bytes(holds as usize)), Ok(()));
        assert_eq!(session.write(1, b"x"), Err(Refusal::NoChunkLeft));
    }
}

#[test]
fn openings_are_refused_by_the_plans_fault() {
    let plan = || Plan::new(512).task(0, 1);
    let many = |n| Plan::new(512).tasks((0..n).map(|rank| (rank, 1)));
    let cases = [
        (Plan::new(256).task(0, 1), Refusal::BadBlocksize),
        (Plan::new(768).task(0, 1), Refusal::BadBlocksize),
        (Plan::new(8_388_608).task(0, 1), Refusal::BadBlocksize),
        (many(0), Refusal::BadTasks),
        (many(65), Refusal::BadTasks),
        (plan().prefix([7; 1025]), Refusal::LongPrefix),
        (plan().task(2_147_483_648, 1), Refusal::BadRank),
        (plan().task(0, 1), Refusal::BadRank),
        (plan().task(1, 0), Refusal::BadSize),
        (plan().task(1, 1_073_741_825), Refusal::BadSize),
        (plan().blocks(0), Refusal::BadPlanned),
        (plan().blocks(33), Refusal::BadPlanned),
    ];
    for (plan, refusal) in cases {
        assert_eq!(plan.needs(), Err(refusal), "{plan:?}");
        assert_eq!(opening(&plan, 100_000, 3_000), Err(refusal), "{plan:?}");
    }
}

#[test]
fn openings_at_the_limits_need_just_what_they_say() {
    let cases = [
        Plan::new(4_194_304).task(0, 1),
        Plan::new(512).tasks((0..64).map(|rank| (rank, 1))).blocks(32),
        Plan::new(512).task(2_147_483_647, 1).task(0, 1).prefix([7; 1024]),
    ];
    for plan in cases {
        let Needs { image, cells } = plan.needs().unwrap();
        assert_eq!(opening(&plan, image, cells), Ok(()));
        assert_eq!(opening(&plan, image + 9, cells + 9), Ok(()));
        assert_eq!(opening(&plan, image - 1, cells), Err(Refusal::TooShort));
        assert_eq!(opening(&plan, image, cells - 1), Err(Refusal::TooShort));
    }
    let most = Plan::new(512).tasks((0..64).map(|rank| (rank, 1 << 30))).blocks(32);
    assert_eq!(most.needs().unwrap().cells, 2048);
    assert_eq!(opening(&most, 100_000, 2048), Err(Refusal::TooShort));
}

/// Writes to the paper's session, with refused and empty requests among them or not, and gives all memory after the close.
fn written(hostile: bool) -> (Vec<u8>, Vec<i64>) {
    let (mut image, mut table) = memory(&paper());
    let mut session = paper().open(&mut image, &mut table).unwrap();
    for task in [1, 2, 2, 1, 1] {
        session.write(task, &bytes(400)).unwrap();
        let begun = [session.chunks_begun(1), session.chunks_begun(2)];
        if hostile {
            for task in [0, 3, u64::MAX] {
                assert_eq!(session.write(task, b"x"), Err(Refusal::NoTask));
                assert_eq!(session.write(task, b""), Err(Refusal::NoTask));
            }
            assert_eq!(session.write(1, &bytes(513)), Err(Refusal::TooLong));
            assert_eq!(session.write(2, b""), Ok(()));
        }
        assert_eq!([session.chunks_begun(1), session.chunks_begun(2)], begun);
    }
    if hostile {
        assert_eq!(session.write(1, &bytes(113)), Err(Refusal::NoChunkLeft));
    }
    session.write(1, &bytes(112)).unwrap();
    session.close().unwrap();
    (image, table)
}

#[test]
fn refused_writes_change_nothing() {
    assert_eq!(written(true), written(false));
}

/// The paper's session in both formats: the same answers and the same bytes but for fileformat_version, and an idle task that has a chunk in one
/// of them.
#[test]
fn formats_differ_in_idle_tasks_alone() {
    let run = |format: Format| {
        let plan = paper().format(format);
        let (mut image, mut table) = memory(&plan);
        let mut session = plan.open(&mut image, &mut table).unwrap();
        let begun = [session.chunks_begun(1), session.chunks_begun(2)];
        let lengths = [513, 300, 212, 512, 1, 511, 513, 1];
        let answers = lengths.map(|length| session.write(1, &bytes(length)));
        let bytes = session.close().unwrap();
        let start = bytes[1536..3072 + 1536].to_vec();
        let container = Container::from_bytes(bytes.to_vec()).unwrap();
        assert_eq!(container.format(), format);
        let chunk = container.task(2).unwrap().chunk(1).map(<[u8]>::len);
        (answers, start, begun, chunk)
    };
    let (three, four) = (run(Format::V3), run(Format::V4));
    assert_eq!((&three.0, &three.1), (&four.0, &four.1));
    assert_eq!((three.2, four.2), ([Ok(0); 2], [Ok(1); 2]));
    assert_eq!((three.3, four.3), (Err(Refusal::NoChunk), Ok(0)));
}

#[test]
fn a_session_says_what_it_has() {
    let (mut image, mut table) = memory(&paper());
    let mut session = paper().open(&mut image, &mut table).unwrap();
    assert_eq!((session.tasks(), session.blocks()), (2, 3));
    assert_eq!((session.requested_size(1), session.requested_size(2)), (Ok(500), Ok(600)));
    assert_eq!((session.chunk_size(1), session.chunk_size(2)), (Ok(512), Ok(1024)));
    for task in [0, 3, u64::MAX] {
        assert_eq!(session.requested_size(task), Err(Refusal::NoTask));
        assert_eq!(session.chunk_size(task), Err(Refusal::NoTask));
    }
    session.write(2, b"x").unwrap();
    assert_eq!((session.chunks_begun(1), session.chunks_begun(2)), (Ok(0), Ok(1)));
    assert_eq!(
        (session.chunks_begun(0), session.chunks_begun(3)),
        [Err(Refusal::NoTask); 2].into()
    );
    let shown = format!("{session:?}");
    assert_eq!(shown, "Session { tasks: 2, blocks: 3, chunks_begun: [0, 1], .. }");
}

#[test]
fn a_chunk_size_goes_by_the_blocksize() {
    for (blocksize, requested, holds) in
        [(1024, 1025, 2048), (4096, 1500, 4096), (65_536, 1, 65_536)]
    {
        let plan = Plan::new(blocksize).task(0, requested);
        let (mut image, mut table) = memory(&plan);
        let mut session = plan.open(&mut image, &mut table).unwrap();
        assert_eq!(session.chunk_size(1), Ok(holds));
        assert_eq!(session.write(1, &bytes(holds as usize + 1)), Err(Refusal::TooLong));
        assert_eq!(session.write(1, &bytes(holds as usize)), Ok(()));
        let mut table = common::table();
        let container = Container::load(session.close().unwrap(), &mut table).unwrap();
        let task = container.task(1).unwrap();
        assert_eq!(
            (task.requested_size(), task.chunk_size(), task.total()),
            (requested, holds, holds)
        );
    }
}

#[test]
fn a_session_that_is_not_closed_leaves_no_container() {
    let (mut image, mut table) = memory(&paper());
    paper().open(&mut image, &mut table).unwrap().write(1, b"x").unwrap();
    assert_eq!(Container::load(&image, &mut table).unwrap_err().refusal, Refusal::NotClosed);
}

#[test]
fn an_empty_session_makes_an_empty_container() {
    let container = packed(&paper(), &[]);
    let mut table = [];
    let container = Container::load(&container, &mut table).unwrap();
    assert_eq!(container.maxchunks(), 0);
    assert!(container.tasks().all(|task| task.total() == 0 && task.chunks().len() == 0));
}

/// A night: six tasks in four blocks, requests of many lengths by turns, until each task was refused for room.
fn night(order: ByteOrder) -> (Vec<u8>, Vec<Vec<Vec<u8>>>) {
    let sizes = [1, 100, 511, 512, 513, 2000];
    let holds = [512, 512, 512, 512, 1024, 2048];
    let tasks = (0..).zip(sizes).map(|(task, size)| (9 - task, size));
    let plan = Plan::new(512).byte_order(order).version(-1, i32::MIN).blocks(4).tasks(tasks);
    let (mut image, mut table) = memory(&plan);
    let mut session = plan.open(&mut image, &mut table).unwrap();
    let (mut chunks, mut full) = (vec![Vec::<Vec<u8>>::new(); 6], [false; 6]);
    for turn in 0.. {
        let task = turn % 6;
        let request = bytes(1 + turn * 37 % holds[task]);
        match session.write(task as u64 + 1, &request) {
            Ok(()) => match chunks[task].last_mut() {
                Some(chunk) if chunk.len() + request.len() <= holds[task] => chunk.extend(request),
                _ => chunks[task].push(request),
            },
            Err(refusal) => {
                assert_eq!((refusal, chunks[task].len()), (Refusal::NoChunkLeft, 4));
                full[task] = true;
            }
        }
        if full == [true; 6] {
            break;
        }
    }
    (session.close().unwrap().to_vec(), chunks)
}

#[test]
fn a_night_is_read_back_in_both_byte_orders() {
    for order in ORDERS {
        let (container, chunks) = night(order);
        let mut table = table();
        let container = Container::load(&container, &mut table).unwrap();
        assert_eq!((container.byte_order(), container.blocksize()), (order, 512));
        assert_eq!((container.version(), container.patch()), (-1, i32::MIN));
        assert_eq!((container.tasks().len(), container.maxchunks()), (6, 4));
        for (task, chunks) in container.tasks().zip(&chunks) {
            assert_eq!(task.chunks().collect::<Vec<_>>(), *chunks);
            let mut stream = vec![0; task.total() as usize];
            assert_eq!(task.read_at(0, &mut stream), Ok(stream.len()));
            assert_eq!(stream, chunks.concat());
        }
    }
}
