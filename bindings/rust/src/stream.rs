//! Holds the bytes of a task as a stream for `std::io`.

use crate::Task;
use std::fmt;
use std::io::{self, BufRead, Read, Seek, SeekFrom};

/// A task's bytes as a stream. A refusal becomes an [`io::Error`] with the [`Refusal`](crate::Refusal) inside.
///
/// ```
/// use lapurmihi::{Container, Plan, CELLS};
/// use std::io::{BufRead, Read, Seek};
///
/// let plan = Plan::new(512).blocks(2).task(0, 512);
/// let (mut image, mut table) = (vec![0; plan.needs()?.image], [0; CELLS]);
/// let mut session = plan.open(&mut image, &mut table)?;
/// session.write(1, format!("{:512}", "one\ntwo\n").as_bytes())?;
/// session.write(1, b"three\nfour")?; // its first chunk has no room for this
/// let container = session.close()?;
///
/// let mut table = [0; CELLS];
/// let container = Container::load(container, &mut table)?;
/// let mut stream = container.task(1)?.stream();
/// let lines = stream.by_ref().lines().collect::<Result<Vec<_>, _>>()?;
/// assert_eq!(lines[..2], ["one", "two"]);
/// assert_eq!(lines[2].trim_start(), "three"); // across the two chunks
///
/// let mut text = String::new();
/// stream.rewind()?;
/// stream.read_to_string(&mut text)?;
/// assert!(text.starts_with("one\ntwo\n") && text.ends_with("three\nfour"));
/// # Ok::<(), std::io::Error>(())
/// ```
#[derive(Clone)]
pub struct Stream<'c> {
    task: Task<'c>,
    place: u64,
    /// The chunk that was lent out last, and the place of its first byte.
    chunk: &'c [u8],
    start: u64,
}

impl<'c> Stream<'c> {
    /// A task's bytes from the first on.
    pub(crate) fn new(task: Task<'c>) -> Stream<'c> {
        Stream { task, place: 0, chunk: &[], start: 0 }
    }

    /// What follows the place in the chunk that was lent out last.
    fn rest(&self) -> &'c [u8] {
        let into = self.place.checked_sub(self.start).and_then(|into| usize::try_from(into).ok());
        into.and_then(|into| self.chunk.get(into..)).unwrap_or(&[])
    }

    /// Goes to the chunk that holds the byte at the place; at the stream's end there is none.
    fn find(&mut self) {
        (self.start, self.chunk) = (0, &[]);
        for chunk in self.task.chunks() {
            self.start += self.chunk.len() as u64;
            self.chunk = chunk;
            if !self.rest().is_empty() {
                return;
            }
        }
    }
}

impl fmt::Debug for Stream<'_> {
    fn fmt(&self, f: &mut fmt::Formatter<'_>) -> fmt::Result {
        f.debug_struct("Stream")
            .field("task", &self.task)
            .field("place", &self.place)
            .finish_non_exhaustive()
    }
}

impl Read for Stream<'_> {
    fn read(&mut self, out: &mut [u8]) -> io::Result<usize> {
        let copied = self.task.read_at(self.place, out)?;
        self.place += copied as u64;
        Ok(copied)
    }
}

impl BufRead for Stream<'_> {
    /// Lends the rest of the chunk that holds the next byte: a part of the image, not a copy.
    fn fill_buf(&mut self) -> io::Result<&[u8]> {
        if self.rest().is_empty() {
            self.find();
        }
        Ok(self.rest())
    }

    fn consume(&mut self, amount: usize) {
        self.place += amount.min(self.rest().len()) as u64;
    }
}

impl Seek for Stream<'_> {
    /// Goes to a place up to the total; one past it is refused with 23.
    fn seek(&mut self, to: SeekFrom) -> io::Result<u64> {
        let place = match to {
            SeekFrom::Start(place) => Some(place),
            SeekFrom::End(by) => self.task.total().checked_add_signed(by),
            SeekFrom::Current(by) => self.place.checked_add_signed(by),
        };
        let place = place.ok_or(io::ErrorKind::InvalidInput)?;
        self.task.read_at(place, &mut [])?;
        self.place = place;
        Ok(place)
    }
}
