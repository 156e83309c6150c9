//! Holds the streams of tasks to the bytes that were written.

mod common;

use common::*;
use lapurmihi::{Container, Plan, Refusal, Task};
use std::io::{BufRead, ErrorKind, Read, Seek, SeekFrom};

/// Where META2 of the container with two chunks says how many bytes the first of them has.
const FIRST: usize = 4624;

/// Runs a check of a task with chunks of 7, 512, 506, 512 and 512 bytes, given these bytes too.
fn on_task(check: impl Fn(Task, &[u8])) {
    let all = bytes(7 + 512 + 506 + 512 + 1 + 511);
    let (mut requests, mut rest) = (vec![], &all[..]);
    for length in [7, 512, 506, 512, 1, 511] {
        let (request, behind) = rest.split_at(length);
        requests.push((2, request));
        rest = behind;
    }
    let container = packed(&Plan::new(512).blocks(6).task(0, 5).task(1, 30), &requests);
    let mut table = table();
    let container = Container::load(&container, &mut table).unwrap();
    check(container.task(2).unwrap(), &all);
}

#[test]
fn buffers_of_every_small_length() {
    on_task(|task, all| {
        for length in 1..=all.len() + 1 {
            let (mut stream, mut read) = (task.stream(), vec![]);
            loop {
                let mut buffer = vec![0; length];
                let count = stream.read(&mut buffer).unwrap();
                assert_eq!(count, length.min(all.len() - read.len()), "reads fill their buffer");
                if count == 0 {
                    break;
                }
                read.extend_from_slice(&buffer[..count]);
            }
            assert_eq!(read, all, "buffers of {length} bytes");
        }
    });
}

/// All that a stream lends, part by part.
fn lent(task: Task) -> Vec<Vec<u8>> {
    let (mut stream, mut parts) = (task.stream(), vec![]);
    loop {
        let part = stream.fill_buf().unwrap().to_vec();
        if part.is_empty() {
            return parts;
        }
        stream.consume(part.len());
        parts.push(part);
    }
}

#[test]
fn each_chunk_is_lent() {
    on_task(|task, all| {
        assert_eq!(lent(task), task.chunks().collect::<Vec<_>>());
        assert_eq!(lent(task).concat(), all);
    });
}

#[test]
fn a_chunk_without_bytes_is_passed_over() {
    let (mut container, mut table) = (BEFORE.to_vec(), table());
    container[FIRST..FIRST + 8].fill(0);
    let container = Container::load(&container, &mut table).unwrap();
    let task = container.task(1).unwrap();
    assert_eq!(task.chunks().map(<[u8]>::len).collect::<Vec<_>>(), [0, 1]);
    assert_eq!(lent(task), [[250]]);
    assert_eq!(lent(container.task(2).unwrap()), Vec::<Vec<u8>>::new());
    assert_eq!(container.task(2).unwrap().stream().bytes().count(), 0);
}

#[test]
fn reads_loans_and_seeks_go_by_one_place() {
    on_task(|task, all| {
        let mut stream = task.stream();
        for turn in 0..2_000 {
            let place = turn * 53 % (all.len() + 1);
            assert_eq!(stream.seek(SeekFrom::Start(place as u64)).unwrap(), place as u64);
            let mut buffer = vec![0; turn % 9];
            let count = stream.read(&mut buffer).unwrap();
            assert_eq!(buffer[..count], all[place..place + count]);
            let part = stream.fill_buf().unwrap();
            assert!(all[place + count..].starts_with(part));
            assert_eq!(part.is_empty(), place + count == all.len());
            let step = part.len() / 2;
            stream.consume(step);
            assert_eq!(stream.stream_position().unwrap() as usize, place + count + step);
        }
    });
}

#[test]
fn seeks_stay_in_the_stream() {
    on_task(|task, all| {
        let (mut stream, total) = (task.stream(), all.len() as u64);
        assert_eq!(stream.seek(SeekFrom::End(0)).unwrap(), total);
        assert_eq!(stream.seek(SeekFrom::Current(-1)).unwrap(), total - 1);
        let past = stream.seek(SeekFrom::Current(2)).unwrap_err();
        assert_eq!(past.downcast::<Refusal>().unwrap(), Refusal::PastTotal);
        let before = stream.seek(SeekFrom::End(i64::MIN)).unwrap_err();
        assert_eq!(before.kind(), ErrorKind::InvalidInput);
        assert_eq!(stream.stream_position().unwrap(), total - 1, "a refused seek moves nothing");
    });
}

#[test]
fn no_more_is_consumed_than_was_lent() {
    on_task(|task, _| {
        let mut stream = task.stream();
        stream.consume(5);
        assert_eq!(stream.stream_position().unwrap(), 0);
        stream.fill_buf().unwrap();
        stream.consume(usize::MAX);
        assert_eq!(stream.stream_position().unwrap(), 7);
    });
}
