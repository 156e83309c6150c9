//! Holds a loaded container.

use crate::memory::{Image, Table};
use crate::refusal::accepted;
use crate::task::{Task, READABLE};
use crate::{raw, ByteOrder, Fault, Format, LoadError, OpenError, Refusal, CELLS};
use std::fmt;
use std::fs::File;
use std::path::Path;

/// A container whose structure was checked, over memory of its own or lent to it. That its bytes are the ones that were sent, no check can
/// say: the format has no checksum.
///
/// ```
/// use lapurmihi::{ByteOrder, Container};
///
/// let container = Container::open("../../examples/two-tasks.sion")?;
/// assert_eq!(container.byte_order(), ByteOrder::Little);
/// assert_eq!(container.blocksize(), 512);
/// assert_eq!(container.maxchunks(), 1);
/// assert_eq!((container.prefix(), container.length()), (&b"data/run.sion"[..], 3104));
/// let totals: Vec<u64> = container.tasks().map(|task| task.total()).collect();
/// assert_eq!(totals, [501, 0]);
/// # Ok::<(), lapurmihi::OpenError>(())
/// ```
pub struct Container<'a> {
    pub(crate) record: raw::Loaded,
    pub(crate) image: Image<'a>,
    pub(crate) table: Table<'a>,
}

impl Container<'static> {
    /// Opens and checks a container's file, whatever its length and its bytes are. The file is mapped: only what is looked at is read from
    /// the drive, and little memory is taken. The container can be returned, kept in a struct and shared between threads.
    ///
    /// As with every mapped file, who shortens the file while the container is there ends the process with the signal SIGBUS, and who
    /// writes to it changes the bytes that are read, which were checked before. A copy of one's own is safe, and so is a finished file that
    /// was renamed into its place and is only ever replaced in that way.
    ///
    /// ```
    /// use lapurmihi::{Container, OpenError};
    ///
    /// struct Night {
    ///     container: Container<'static>,
    /// }
    ///
    /// fn night(path: &str) -> Result<Night, OpenError> {
    ///     Ok(Night { container: Container::open(path)? })
    /// }
    ///
    /// let night = night("../../examples/two-tasks.sion")?;
    /// assert_eq!(night.container.task_by_rank(0)?.total(), 501);
    /// # Ok::<(), std::io::Error>(())
    /// ```
    pub fn open(path: impl AsRef<Path>) -> Result<Container<'static>, OpenError> {
        Container::map(&File::open(path)?)
    }

    /// Opens and checks the container in a file that is open for reading, such as standard input. It is mapped as by
    /// [`open`](Container::open), from its first byte on and whatever its position is, and may be closed then. What cannot be mapped, such
    /// as a pipe, is read from its position to its end into memory.
    pub fn map(file: &File) -> Result<Container<'static>, OpenError> {
        Ok(Container::owned(Image::of(file)?)?)
    }

    /// Checks a container in bytes that it keeps, such as those that came over a network.
    pub fn from_bytes(bytes: Vec<u8>) -> Result<Container<'static>, LoadError> {
        Container::owned(Image::Owned(bytes))
    }

    /// A container over an image of its own, with a table that is long enough for each.
    fn owned(image: Image<'static>) -> Result<Container<'static>, LoadError> {
        let mut table = vec![0; CELLS];
        let record = loaded(&image, &mut table)?;
        Ok(Container { record, image, table: Table::Owned(table) })
    }
}

/// The record of an accepted load, or where it broke off.
fn loaded(image: &[u8], table: &mut [i64]) -> Result<raw::Loaded, LoadError> {
    let answer = raw::load(image, table);
    match accepted(answer.refusal) {
        Ok(()) => Ok(answer.loaded),
        Err(refusal) => Err(LoadError { refusal, fault: Fault::new(answer.fault) }),
    }
}

impl<'a> Container<'a> {
    /// Checks a container over lent memory, whatever its bytes are; nothing is allocated. What follows it in the image is not looked at. A
    /// table of [`CELLS`](crate::CELLS) cells is long enough for each; what stands in it does not matter.
    pub fn load(image: &'a [u8], table: &'a mut [i64]) -> Result<Container<'a>, LoadError> {
        let record = loaded(image, table)?;
        Ok(Container { record, image: Image::Lent(image), table: Table::Lent(table) })
    }

    /// The bytes that it was loaded from, with what follows the container in them.
    pub fn image(&self) -> &[u8] {
        &self.image
    }

    /// The byte order of the container's numbers.
    pub fn byte_order(&self) -> ByteOrder {
        ByteOrder::of(&self.record)
    }

    /// The library version that the container names.
    pub fn version(&self) -> i32 {
        self.record.numbers.version
    }

    /// The patch level that the container names.
    pub fn patch(&self) -> i32 {
        self.record.numbers.patch
    }

    /// The container's fileformat_version.
    pub fn format(&self) -> Format {
        Format::of(&self.record)
    }

    /// The bytes of a file-system block.
    pub fn blocksize(&self) -> u32 {
        self.record.numbers.blocksize
    }

    /// The greatest number of chunks that a task used.
    pub fn maxchunks(&self) -> u32 {
        self.record.numbers.maxchunks
    }

    /// The bytes of the container, from the image's start. What follows in the image is trailing, and not looked at.
    pub fn length(&self) -> u64 {
        let counted = raw::length(&self.record, &self.image, &self.table);
        accepted(counted.refusal).expect(READABLE);
        counted.bytes
    }

    /// The filename prefix that the container names, without the zeros that fill it up: any bytes, at most 1024.
    pub fn prefix(&self) -> &[u8] {
        let part = raw::prefix(&self.record, &self.image, &self.table);
        accepted(part.refusal).expect(READABLE);
        &self.image[part.start as usize..][..part.length as usize]
    }

    /// The tasks, in the container's order.
    pub fn tasks(&self) -> impl ExactSizeIterator<Item = Task<'_>> + DoubleEndedIterator {
        (0..self.record.numbers.n as usize).map(|index| Task::of_container(self, index))
    }

    /// One task, counted from 1.
    pub fn task(&self, number: u64) -> Result<Task<'_>, Refusal> {
        accepted(raw::total(&self.record, &self.image, &self.table, number).refusal)?;
        Ok(Task::of_container(self, number as usize - 1))
    }

    /// The task with a rank, of which there is at most one. Where there is none, that is [`NoTask`](Refusal::NoTask).
    pub fn task_by_rank(&self, rank: u64) -> Result<Task<'_>, Refusal> {
        self.tasks().find(|task| task.rank() == rank).ok_or(Refusal::NoTask)
    }
}

impl fmt::Debug for Container<'_> {
    fn fmt(&self, f: &mut fmt::Formatter<'_>) -> fmt::Result {
        f.debug_struct("Container")
            .field("byte_order", &self.byte_order())
            .field("version", &self.version())
            .field("patch", &self.patch())
            .field("format", &self.format())
            .field("blocksize", &self.blocksize())
            .field("maxchunks", &self.maxchunks())
            .field("length", &self.length())
            .field("prefix", &String::from_utf8_lossy(self.prefix()))
            .field("tasks", &self.tasks().collect::<Vec<_>>())
            .finish()
    }
}
