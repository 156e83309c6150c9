//! Holds containers of files, pipes and bytes of their own to what they have to say.

mod common;

use common::*;
use lapurmihi::{Container, LoadError, OpenError, Refusal};
use std::error::Error;
use std::fs::{self, File};
use std::io::{self, ErrorKind, Seek, SeekFrom, Write};
use std::os::fd::OwnedFd;
use std::path::PathBuf;
use std::thread;

/// A file that is removed in the end.
struct Scratch(PathBuf);

impl Scratch {
    fn new(name: &str, bytes: &[u8]) -> Scratch {
        let folder = PathBuf::from(env!("CARGO_TARGET_TMPDIR"));
        let path = folder.join(format!("{name}-{}", std::process::id()));
        fs::write(&path, bytes).unwrap();
        Scratch(path)
    }
}

impl Drop for Scratch {
    fn drop(&mut self) {
        let _ = fs::remove_file(&self.0);
    }
}

/// A container that its maker hands on.
struct Night {
    container: Container<'static>,
}

fn night(name: &str, bytes: &[u8]) -> Result<Night, OpenError> {
    // The file is removed before the container is read.
    Ok(Night { container: Container::open(&Scratch::new(name, bytes).0)? })
}

fn refusal(answer: Result<Night, OpenError>) -> Refusal {
    match answer.map(drop) {
        Err(OpenError::Refused(error)) => error.refusal,
        other => panic!("{other:?}"),
    }
}

#[test]
fn a_container_of_a_file_can_be_kept() {
    let night = night("kept", SAMPLE).unwrap();
    let task = night.container.task(1).unwrap();
    assert_eq!(task.chunks().collect::<Vec<_>>().concat(), bytes(501));
    assert_eq!(night.container.image(), SAMPLE);
    let moved = Box::new(night);
    assert_eq!(moved.container.task_by_rank(0).unwrap().total(), 501);
}

#[test]
fn threads_share_a_container() {
    fn shared<T: Send + Sync + 'static>(kept: T) -> T {
        kept
    }
    let night = shared(night("shared", SAMPLE).unwrap());
    thread::scope(|scope| {
        for _ in 0..4 {
            scope.spawn(|| {
                assert_eq!(night.container.task(1).unwrap().chunk(1), Ok(&bytes(501)[..]))
            });
        }
    });
    assert_eq!(thread::spawn(move || night.container.maxchunks()).join().unwrap(), 1);
}

#[test]
fn files_are_refused_like_any_bytes() {
    assert_eq!(refusal(night("empty", b"")), Refusal::NoMark);
    assert_eq!(refusal(night("text", b"no container")), Refusal::NoMark);
    assert_eq!(refusal(night("cut", &SAMPLE[..100])), Refusal::ShortMeta1);
    assert_eq!(refusal(night("end", &SAMPLE[..SAMPLE.len() - 1])), Refusal::BadMeta2Place);
}

#[test]
fn a_file_that_cannot_be_read_is_an_error_of_the_file() {
    let folder = env!("CARGO_MANIFEST_DIR");
    let absent = format!("{folder}/absent");
    for (path, kind) in [(&absent[..], ErrorKind::NotFound), (folder, ErrorKind::IsADirectory)] {
        match Container::open(path) {
            Err(OpenError::File(error)) => assert_eq!(error.kind(), kind),
            other => panic!("{path}: {other:?}"),
        }
    }
}

#[test]
fn a_long_file_is_mapped_and_not_read() {
    let scratch = Scratch::new("long", SAMPLE);
    let length = 1 << 36;
    File::options().write(true).open(&scratch.0).unwrap().set_len(length).unwrap();
    let container = Container::open(&scratch.0).unwrap();
    assert_eq!(container.image().len() as u64, length);
    assert_eq!(container.task(1).unwrap().total(), 501);
}

#[test]
fn a_file_is_mapped_from_its_start() {
    let scratch = Scratch::new("start", SAMPLE);
    let mut file = File::open(&scratch.0).unwrap();
    file.seek(SeekFrom::Start(100)).unwrap();
    let container = Container::map(&file).unwrap();
    assert_eq!(file.stream_position().unwrap(), 100);
    drop(file);
    assert_eq!(container.image(), SAMPLE);
}

#[test]
fn a_pipe_is_read() {
    let (reader, mut writer) = io::pipe().unwrap();
    let writing = thread::spawn(move || writer.write_all(SAMPLE));
    let container = Container::map(&File::from(OwnedFd::from(reader))).unwrap();
    writing.join().unwrap().unwrap();
    assert_eq!(container.task(1).unwrap().total(), 501);
}

#[test]
#[cfg(target_os = "linux")]
fn a_file_that_says_no_length_is_read() {
    // The name of the thread, which the system makes up as it is read: it begins with the mark, and no order number follows.
    let named = thread::Builder::new().name("sion, no order".to_string());
    let opened = named.spawn(|| Container::open("/proc/thread-self/comm").map(drop)).unwrap();
    let answer = opened.join().unwrap().unwrap_err().to_string();
    assert!(answer.contains(": 2 NO_ORDER at byte 4: "), "{answer}");
    let answer = Container::open("/dev/null").unwrap_err().to_string();
    assert!(answer.contains(": 1 NO_MARK at byte 0: "), "{answer}");
}

#[test]
fn bytes_are_kept() {
    let container = Container::from_bytes(SAMPLE.to_vec()).unwrap();
    assert_eq!(container.task(1).unwrap().chunk(1).unwrap(), bytes(501));
    assert_eq!(Container::from_bytes(vec![]).unwrap_err().refusal, Refusal::NoMark);
}

#[test]
fn an_open_error_is_an_error() {
    let refused = Container::from_bytes(SAMPLE[..100].to_vec()).unwrap_err();
    assert!(refused.source().unwrap().is::<Refusal>());
    assert_eq!(Refusal::from(refused), Refusal::ShortMeta1);
    assert_eq!(io::Error::from(refused).downcast::<LoadError>().unwrap(), refused);

    let error = OpenError::from(refused);
    assert_eq!(error.to_string(), format!("the container is refused: {refused}"));
    assert!(error.source().unwrap().is::<LoadError>());
    assert_eq!(io::Error::from(error).downcast::<LoadError>().unwrap(), refused);

    let error = OpenError::from(io::Error::from(ErrorKind::NotFound));
    assert_eq!(error.to_string(), "the file cannot be read: entity not found");
    assert!(error.source().unwrap().is::<io::Error>());
    assert_eq!(io::Error::from(error).kind(), ErrorKind::NotFound);
}
