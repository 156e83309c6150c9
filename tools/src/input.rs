//! Holds the reading of containers from files and from standard input.

use crate::failure::Failure;
use crate::files::Source;
use crate::progress::Progress;
use crate::system::standard_input;
use crate::text::shown;
use lapurmihi::{Container, Field, InFile, LoadError, OpenError, Pair, Refusal, Task, CELLS};
use std::ffi::{OsStr, OsString};
use std::fs::{self, File};
use std::io::{self, Read, Seek};

/// The most bytes that are read or written at once, so that progress can be told between.
pub const PIECE: usize = 1 << 20;

/// The word for standard input.
const STANDARD: &str = "-";

/// A container as a message names it.
pub fn name(word: &OsStr) -> String {
    if word == STANDARD {
        return "standard input".to_string();
    }
    shown(word)
}

/// A container, in one physical file or in two.
#[derive(Debug)]
pub enum Found {
    Single(Container<'static>),
    Pair(Pair<'static>),
}

impl Found {
    /// The tasks, of a single file in its order and of a pair by their ranks.
    pub fn tasks(&self) -> Vec<Task<'_>> {
        match self {
            Found::Single(container) => container.tasks().collect(),
            Found::Pair(pair) => pair.tasks().collect(),
        }
    }

    pub fn task_by_rank(&self, rank: u64) -> Result<Task<'_>, Refusal> {
        match self {
            Found::Single(container) => container.task_by_rank(rank),
            Found::Pair(pair) => pair.task(rank),
        }
    }

    /// The greatest number of chunks that a task used.
    pub fn maxchunks(&self) -> u64 {
        self.tasks().iter().map(Task::chunks_used).max().unwrap_or(0)
    }
}

/// Why a container cannot be opened, and the one of its files that is at fault, as a word of the command line names it.
#[derive(Debug)]
pub struct Unopened {
    pub word: OsString,
    pub error: OpenError,
}

/// Opens the container that a word of the command line names. What says that it is of two files is the first of a pair, whose second is beside it;
/// beside standard input and what is no regular file there is none.
pub fn open(word: &OsStr) -> Result<Found, Unopened> {
    let regular = || fs::metadata(word).is_ok_and(|about| about.is_file());
    match alone(word) {
        Err(OpenError::Refused(error)) if of_two(&error) && word != STANDARD && regular() => {
            Pair::open(word).map(Found::Pair).map_err(|InFile { file, error }| match file {
                0 => Unopened { word: word.to_os_string(), error },
                _ => Unopened { word: Pair::second_name(word).into(), error },
            })
        }
        Err(error) => Err(Unopened { word: word.to_os_string(), error }),
        Ok(container) => Ok(Found::Single(container)),
    }
}

/// Whether all before nfiles is right, and that says 2.
fn of_two(error: &LoadError) -> bool {
    error.fault.field() == Field::Files && error.fault.says() == 2
}

/// The container in one physical file.
fn alone(word: &OsStr) -> Result<Container<'static>, OpenError> {
    match word == STANDARD {
        true => mapped_or_read(&mut *standard_input()?),
        false => mapped_or_read(&mut File::open(word)?),
    }
}

/// What is no regular file, or not at its start, is read to its end. So is a file without a length: it may be one that the system makes up
/// as it is read.
fn mapped_or_read(file: &mut File) -> Result<Container<'static>, OpenError> {
    let about = file.metadata()?;
    if about.is_file() && about.len() > 0 && file.stream_position()? == 0 {
        return Container::map(file);
    }
    read(file)
}

/// The same, for a command that can do nothing without it.
pub fn opened(word: &OsStr) -> Result<Found, Failure> {
    open(word).map_err(|unopened| failure(&unopened))
}

/// The files of a container, which must not be replaced by what is made of it.
pub fn sources(word: &OsStr, found: &Found) -> Result<Vec<Source>, Failure> {
    let second = match found {
        Found::Single(_) => None,
        Found::Pair(_) => Some(Pair::second_name(word).into()),
    };
    std::iter::once(word.to_os_string()).chain(second).map(|word| source(&word)).collect()
}

fn source(word: &OsStr) -> Result<Source, Failure> {
    let about = match word == STANDARD {
        true => standard_input().and_then(|file| file.metadata()),
        false => fs::metadata(word),
    };
    let about = about.map_err(|error| Failure::system("read", &name(word), &error))?;
    Ok(Source::new(name(word), &about))
}

/// Why a container cannot be opened, as it is told.
pub fn failure(Unopened { word, error }: &Unopened) -> Failure {
    match error {
        OpenError::File(error) => Failure::system("read", &name(word), error),
        OpenError::Refused(error) => Failure::broken(&name(word), error),
    }
}

/// What is wrong with containers that name standard input twice: it can be read once.
pub fn named_twice(words: &[OsString]) -> Option<String> {
    let twice = words.iter().filter(|word| *word == STANDARD).count() > 1;
    twice.then(|| "standard input can be named once".to_string())
}

/// Reads a container to its end. What has no mark after a whole piece never has one, and may have no end either, like /dev/zero.
fn read(file: &mut impl Read) -> Result<Container<'static>, OpenError> {
    let mut progress = Progress::new("read", 0, 0);
    let mut bytes = vec![];
    loop {
        let more = piece(file, &mut bytes)?;
        if more < PIECE {
            return Ok(Container::from_bytes(bytes)?);
        }
        if bytes.len() == more {
            let marked = Container::load(&bytes, &mut [0; CELLS]).map(drop);
            marked.or_else(|error| match error.refusal {
                Refusal::NoMark => Err(error),
                _ => Ok(()),
            })?;
        }
        progress.bytes(more);
    }
}

/// Reads a piece behind the bytes, with memory that is there for it and a little more, as the end of a file is looked for.
fn piece(file: &mut impl Read, bytes: &mut Vec<u8>) -> io::Result<usize> {
    let room = PIECE + 64;
    bytes.try_reserve(room).or_else(|_| bytes.try_reserve_exact(room))?;
    file.by_ref().take(PIECE as u64).read_to_end(bytes)
}

#[cfg(test)]
mod tests {
    use super::*;

    const SAMPLE: &[u8] = include_bytes!("../../examples/two-tasks.sion");

    fn refusal(file: &mut impl Read) -> Option<Refusal> {
        match read(file) {
            Err(OpenError::Refused(error)) => Some(error.refusal),
            other => panic!("{other:?}"),
        }
    }

    #[test]
    fn what_has_no_end_is_refused_if_it_has_no_mark() {
        assert_eq!(refusal(&mut io::repeat(0)), Some(Refusal::NoMark));
        assert_eq!(refusal(&mut &b"sio"[..]), Some(Refusal::NoMark));
    }

    #[test]
    fn a_container_is_read_to_its_end() {
        let container = read(&mut SAMPLE.chain(io::repeat(7).take(3 * PIECE as u64))).unwrap();
        assert_eq!(container.image().len(), SAMPLE.len() + 3 * PIECE);
        let mut cut = SAMPLE[..100].chain(io::empty());
        assert_eq!(refusal(&mut cut), Some(Refusal::ShortMeta1));
    }

    #[test]
    fn standard_input_is_named_once() {
        let words = |line: &str| line.split(' ').map(OsString::from).collect::<Vec<_>>();
        assert_eq!(named_twice(&words("a - b")), None);
        assert!(named_twice(&words("- a -")).is_some());
        assert_eq!(name(OsStr::new("-")), "standard input");
    }
}
