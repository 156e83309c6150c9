//! Holds writers to storing every byte that they say, filling every chunk, and telling what they could not store.

mod common;

use common::*;
use lapurmihi::{Container, Plan, Refusal, Session};
use std::io::{self, BufWriter, Cursor, ErrorKind, Write};

/// Runs a session of the plan, and gives each task's chunks after its close.
fn night(plan: &Plan, writes: impl FnOnce(&mut Session)) -> Vec<Vec<Vec<u8>>> {
    let (mut image, mut cells) = memory(plan);
    let mut session = plan.open(&mut image, &mut cells).unwrap();
    writes(&mut session);
    let mut table = table();
    let container = Container::load(session.close().unwrap(), &mut table).unwrap();
    container.tasks().map(|task| task.chunks().map(<[u8]>::to_vec).collect()).collect()
}

/// The refusal in an error for want of room.
fn full(error: io::Error) -> Refusal {
    assert_eq!(error.kind(), ErrorKind::StorageFull);
    error.downcast().unwrap()
}

#[test]
fn every_chunk_is_filled_and_every_byte_past_them_is_told() {
    let lengths = [7, 100, 511, 512, 513, 1024, 3000];
    for (blocksize, requested, holds) in [
        (512, 1, 512),
        (512, 500, 512),
        (512, 512, 512),
        (512, 513, 1024),
        (4096, 1500, 4096),
        (4096, 4097, 8192),
    ] {
        for length in lengths {
            let all = bytes(holds * 4 + length);
            let chunks = night(&Plan::new(blocksize).blocks(4).task(0, requested), |session| {
                let mut writer = session.writer(1).unwrap();
                let refused = all.chunks(length).find_map(|part| writer.write_all(part).err());
                assert_eq!(refused.map(full), Some(Refusal::NoChunkLeft));
                assert_eq!(writer.stored(), holds as u64 * 4);
            });
            assert!(chunks[0].iter().eq(all.chunks(holds).take(4)), "{length} bytes at a time");
        }
    }
}

#[test]
fn a_write_says_what_it_stored() {
    night(&paper(), |session| {
        let mut writer = session.writer(2).unwrap();
        assert_eq!(writer.write(&bytes(250)).unwrap(), 250);
        assert_eq!(writer.write(&bytes(1000)).unwrap(), 774);
        assert_eq!(writer.write(&bytes(2000)).unwrap(), 1024);
        assert_eq!(writer.write(&bytes(2000)).unwrap(), 1024);
        assert_eq!(full(writer.write(&bytes(1)).unwrap_err()), Refusal::NoChunkLeft);
        assert_eq!(writer.write(b"").unwrap(), 0);
        writer.flush().unwrap();
        assert_eq!(writer.stored(), 3072);
    });
}

#[test]
fn requests_between_are_counted_and_refused_ones_are_not() {
    let plan = Plan::new(512).blocks(4).task(0, 10).task(1, 10);
    let chunks = night(&plan, |session| {
        session.write(1, &[b'a'; 509]).unwrap();
        session.writer(2).unwrap().write_all(b"xy").unwrap();
        assert_eq!(session.write(1, &[0; 513]), Err(Refusal::TooLong));
        session.write(1, b"").unwrap();
        session.writer(1).unwrap().write_all(b"1234").unwrap();
        session.write(1, &[b'w'; 512]).unwrap();
        session.write(2, &[b'b'; 510]).unwrap();
        session.writer(1).unwrap().write_all(b"end").unwrap();
        session.writer(2).unwrap().write_all(b"z").unwrap();
    });
    let (first, second) =
        ([&[b'a'; 509][..], b"123"].concat(), [&b"xy"[..], &[b'b'; 510]].concat());
    assert_eq!(chunks[0], [&first[..], b"4", &[b'w'; 512], b"end"]);
    assert_eq!(chunks[1], [&second[..], b"z"]);
}

#[test]
fn a_copy_that_fails_can_go_on_where_it_stopped() {
    let all = bytes(70_000);
    let plan = Plan::new(512).blocks(2).task(0, 20_000).task(1, 20_000);
    let chunks = night(&plan, |session| {
        let mut reader = Cursor::new(&all);
        let mut writer = session.writer(1).unwrap();
        assert_eq!(full(io::copy(&mut reader, &mut writer).unwrap_err()), Refusal::NoChunkLeft);
        assert_eq!(writer.stored(), 40_960);
        reader.set_position(writer.stored());
        assert_eq!(io::copy(&mut reader, &mut session.writer(2).unwrap()).unwrap(), 29_040);
    });
    assert_eq!(chunks.concat().concat(), all);
}

#[test]
fn formatted_text_and_buffers() {
    let chunks = night(&Plan::new(512).blocks(3).task(0, 7), |session| {
        let mut writer = session.writer(1).unwrap();
        write!(writer, "{:02}:{}{:>1525}", 5, 12, " to Lindau").unwrap();
        let mut buffer = BufWriter::new(&mut writer);
        buffer.write_all(b"05:40 to Ulm").unwrap();
        assert_eq!(full(buffer.into_inner().unwrap_err().into()), Refusal::NoChunkLeft);
        assert_eq!(writer.stored(), 1536);
    });
    assert_eq!(chunks[0].concat(), format!("05:12{:>1525}05:40 ", " to Lindau").as_bytes());
}

#[test]
fn there_is_no_writer_of_no_task() {
    night(&paper(), |session| {
        for task in [0, 3, u64::MAX] {
            assert_eq!(session.writer(task).map(drop).unwrap_err(), Refusal::NoTask);
        }
        let shown = format!("{:?}", session.writer(2).unwrap());
        assert!(shown.starts_with("Writer { session: Session {"), "{shown}");
    });
}
