//! Holds what a session is opened with, what it needs, and the session over the memory lent to it.

#[cfg(feature = "cuts")]
mod cuts;

use crate::refusal::accepted;
use crate::writer::Requests;
use crate::{raw, Refusal};
use std::fmt;

/// The byte order of a container's numbers, whatever that of the computer is.
#[derive(Clone, Copy, Debug, Default, PartialEq, Eq, Hash)]
#[repr(u32)]
pub enum ByteOrder {
    /// The least byte first.
    #[default]
    Little = 0,
    /// The greatest byte first.
    Big = 1,
}

impl ByteOrder {
    /// That of a loaded record.
    pub(crate) fn of(record: &raw::Loaded) -> ByteOrder {
        match record.numbers.order {
            0 => ByteOrder::Little,
            _ => ByteOrder::Big,
        }
    }
}

/// A container's fileformat_version, which says how a task that wrote nothing is stored. Whether a request is taken, and where its bytes go, does
/// not depend on it.
///
/// ```
/// use lapurmihi::{Container, Format, Plan, Refusal};
///
/// let plan = Plan::new(512).format(Format::V4).task(0, 500).task(1, 600);
/// let needs = plan.needs()?;
/// let (mut image, mut table) = (vec![0; needs.image], vec![0; needs.cells]);
/// let mut session = plan.open(&mut image, &mut table)?;
/// session.write(1, b"a")?;
/// let bytes = session.close()?.to_vec();
/// let container = Container::load(&bytes, &mut table)?;
/// assert_eq!(container.format(), Format::V4);
/// assert_eq!(container.task(2)?.chunk(1)?, b""); // in Format::V3 task 2 has no chunk
/// # Ok::<(), Refusal>(())
/// ```
#[derive(Clone, Copy, Debug, Default, PartialEq, Eq, Hash)]
#[repr(u32)]
pub enum Format {
    /// A session gives a task that wrote nothing no chunk; a loaded container may have that, or one chunk with no bytes in it.
    #[default]
    V3 = 3,
    /// A task that wrote nothing has one chunk, with no bytes in it.
    V4 = 4,
}

impl Format {
    /// That of a loaded record.
    pub(crate) fn of(record: &raw::Loaded) -> Format {
        match record.numbers.format {
            3 => Format::V3,
            _ => Format::V4,
        }
    }
}

/// What a session is opened with. Nothing is judged before [`needs`](Plan::needs) or [`open`](Plan::open) asks the library.
///
/// ```
/// use lapurmihi::{Needs, Plan, Refusal};
///
/// let plan = Plan::new(512).blocks(3).task(0, 500).task(1, 600);
/// assert_eq!(plan.needs(), Ok(Needs { image: 6208, cells: 6 }));
/// assert_eq!(plan.task(1, 600).needs(), Err(Refusal::BadRank));
/// ```
#[derive(Clone, Debug, PartialEq, Eq)]
pub struct Plan {
    order: ByteOrder,
    version: i32,
    patch: i32,
    format: Format,
    blocksize: u32,
    planned: u32,
    pub(crate) prefix: Vec<u8>,
    pub(crate) ranks: Vec<u64>,
    pub(crate) sizes: Vec<u64>,
}

/// What an opening has to be lent.
#[derive(Clone, Copy, Debug, PartialEq, Eq)]
pub struct Needs {
    /// The bytes of the image.
    pub image: usize,
    /// The cells of the table.
    pub cells: usize,
}

impl Plan {
    /// A plan without tasks: little byte order, version 0 and patch level 0, [`Format::V3`], no prefix, one planned block.
    pub fn new(blocksize: u32) -> Plan {
        Plan {
            order: ByteOrder::Little,
            version: 0,
            patch: 0,
            format: Format::V3,
            blocksize,
            planned: 1,
            prefix: vec![],
            ranks: vec![],
            sizes: vec![],
        }
    }

    /// Adds a task: its global rank, and the bytes that it requests for each of its chunks. A chunk holds this requested size rounded up to a
    /// multiple of the blocksize, as [`Plan::chunk_size`] says.
    pub fn task(mut self, rank: u64, requested_size: u64) -> Plan {
        self.ranks.push(rank);
        self.sizes.push(requested_size);
        self
    }

    /// Adds tasks by their ranks and requested sizes.
    pub fn tasks(self, tasks: impl IntoIterator<Item = (u64, u64)>) -> Plan {
        tasks.into_iter().fold(self, |plan, (rank, requested_size)| plan.task(rank, requested_size))
    }

    /// Plans so many blocks: the chunks that each task has room for.
    pub fn blocks(self, planned: u32) -> Plan {
        Plan { planned, ..self }
    }

    /// Chooses the byte order of the container's numbers.
    pub fn byte_order(self, order: ByteOrder) -> Plan {
        Plan { order, ..self }
    }

    /// Gives the library version and the patch level that the container names.
    pub fn version(self, version: i32, patch: i32) -> Plan {
        Plan { version, patch, ..self }
    }

    /// Chooses the container's fileformat_version.
    pub fn format(self, format: Format) -> Plan {
        Plan { format, ..self }
    }

    /// Gives the filename prefix that the container names.
    pub fn prefix(self, prefix: impl Into<Vec<u8>>) -> Plan {
        Plan { prefix: prefix.into(), ..self }
    }

    /// The most bytes that each chunk of a task, counted from 1, will hold: its requested size, rounded up to a multiple of the blocksize.
    ///
    /// ```
    /// use lapurmihi::{Plan, Refusal};
    ///
    /// let plan = Plan::new(4096).task(0, 4000).task(1, 0);
    /// assert_eq!(plan.chunk_size(1), Ok(4096));
    /// assert_eq!(plan.chunk_size(2), Err(Refusal::BadSize));
    /// assert_eq!(plan.chunk_size(3), Err(Refusal::NoTask));
    /// ```
    pub fn chunk_size(&self, task: u64) -> Result<u64, Refusal> {
        let index = usize::try_from(task).ok().and_then(|task| task.checked_sub(1));
        let size = index.and_then(|index| self.sizes.get(index)).ok_or(Refusal::NoTask)?;
        held(*size, self.blocksize)
    }

    /// The image and the table that [`open`](Plan::open) has to be lent.
    pub fn needs(&self) -> Result<Needs, Refusal> {
        let needed = raw::needs(self.numbers(), &self.ranks, &self.sizes, &self.prefix);
        accepted(needed.refusal)?;
        Ok(Needs { image: length(needed.image), cells: length(needed.cells) })
    }

    /// Opens a session over an image and a table, which may be longer than needed. What stands in the table does not matter. What stands in
    /// the image stays where nothing is written, such as in the unused room of a chunk, and becomes part of the container: lend one that is
    /// cleared.
    pub fn open<'a>(
        &self,
        image: &'a mut [u8],
        table: &'a mut [i64],
    ) -> Result<Session<'a>, Refusal> {
        let Plan { ranks, sizes, prefix, .. } = self;
        let opened = raw::open(self.numbers(), ranks, sizes, prefix, image, table);
        Session::over(opened, image, table)
    }

    /// What of it is neither a list nor the prefix.
    pub(crate) fn numbers(&self) -> raw::Plan {
        let Plan { order, version, patch, format, blocksize, planned, .. } = *self;
        let (order, format) = (order as u32, format as u32);
        raw::Plan { order, version, patch, format, blocksize, planned }
    }
}

/// An open session over lent memory. Dropped without a [`close`](Session::close), it leaves no container in the image.
///
/// ```
/// use lapurmihi::{Plan, Refusal};
///
/// let plan = Plan::new(512).blocks(2).task(0, 500);
/// let needs = plan.needs()?;
/// let (mut image, mut table) = (vec![0; needs.image], vec![0; needs.cells]);
/// let mut session = plan.open(&mut image, &mut table)?;
/// assert_eq!((session.requested_size(1), session.chunk_size(1)), (Ok(500), Ok(512)));
/// session.write(1, b"a")?;
/// session.write(1, &[7; 512])?; // a request is never split: this one begins the second chunk
/// assert_eq!(session.write(1, b"b"), Err(Refusal::NoChunkLeft));
/// assert_eq!(session.write(1, &[7; 513]), Err(Refusal::TooLong));
/// assert_eq!(session.write(2, b"b"), Err(Refusal::NoTask));
/// let container: &[u8] = session.close()?;
/// assert!(container.starts_with(b"sion"));
/// # Ok::<(), Refusal>(())
/// ```
pub struct Session<'a> {
    record: raw::Session,
    image: &'a mut [u8],
    table: &'a mut [i64],
    filled: Filled,
}

/// The bytes in each task's chunk in use.
pub(crate) struct Filled([u64; raw::TASKS]);

impl Default for Filled {
    fn default() -> Filled {
        Filled([0; raw::TASKS])
    }
}

impl Filled {
    /// Counts the bytes of an accepted write, which may have begun a chunk.
    pub(crate) fn add(&mut self, index: usize, begun: bool, bytes: usize) {
        if begun {
            self.0[index] = 0;
        }
        self.0[index] += bytes as u64;
    }

    /// The bytes in a task's chunk in use; without one, 0.
    pub(crate) fn of(&self, index: usize) -> u64 {
        self.0[index]
    }
}

impl<'a> Session<'a> {
    /// The session of an accepted opening.
    fn over(
        opened: raw::Opened,
        image: &'a mut [u8],
        table: &'a mut [i64],
    ) -> Result<Session<'a>, Refusal> {
        accepted(opened.refusal)?;
        Ok(Session { record: opened.session, image, table, filled: Filled::default() })
    }

    /// Writes bytes to a task, counted from 1: behind its last ones if they fit in its chunk in use, else to its next chunk.
    pub fn write(&mut self, task: u64, bytes: &[u8]) -> Result<(), Refusal> {
        let before = self.chunks_begun(task);
        let refusal = raw::write(&mut self.record, self.image, self.table, task, bytes);
        self.noted(refusal, task, bytes, before)
    }

    /// Counts the bytes of an accepted write to a task that had begun so many chunks before it.
    fn noted(
        &mut self,
        refusal: u32,
        task: u64,
        bytes: &[u8],
        before: Result<u64, Refusal>,
    ) -> Result<(), Refusal> {
        accepted(refusal)?;
        let index = self.index(task)?;
        let begun = self.chunks_begun(task) != before;
        self.filled.add(index, begun, bytes.len());
        Ok(())
    }

    /// Closes the session, and hands back the container: the image as far as the container reaches.
    pub fn close(self) -> Result<&'a [u8], Refusal> {
        let Session { mut record, image, table, .. } = self;
        let closed = raw::close(&mut record, image, table);
        accepted(closed.refusal)?;
        Ok(&image[..closed.length as usize])
    }

    /// The number of tasks.
    pub fn tasks(&self) -> usize {
        self.record.numbers.n as usize
    }

    /// The planned blocks: the chunks that each task has room for.
    pub fn blocks(&self) -> u32 {
        self.record.numbers.planned
    }

    /// The most bytes that each chunk of a task, counted from 1, holds, and so the most that a request may have: its requested size, rounded
    /// up to a multiple of the blocksize.
    pub fn chunk_size(&self, task: u64) -> Result<u64, Refusal> {
        held(self.requested_size(task)?, self.record.numbers.blocksize)
    }

    /// The bytes that the plan requested for each chunk of a task, counted from 1.
    pub fn requested_size(&self, task: u64) -> Result<u64, Refusal> {
        Ok(self.record.sizes[self.index(task)?])
    }

    /// The chunks that a task, counted from 1, has begun; in [`Format::V4`] at least 1, before anything is written too.
    pub fn chunks_begun(&self, task: u64) -> Result<u64, Refusal> {
        Ok(self.record.counts[self.index(task)?])
    }

    /// The index of a task, counted from 1, in the lists.
    fn index(&self, task: u64) -> Result<usize, Refusal> {
        let there = (1..=self.tasks() as u64).contains(&task);
        there.then(|| task as usize - 1).ok_or(Refusal::NoTask)
    }
}

impl fmt::Debug for Session<'_> {
    fn fmt(&self, f: &mut fmt::Formatter<'_>) -> fmt::Result {
        let begun = &self.record.counts[..self.tasks()];
        f.debug_struct("Session")
            .field("tasks", &self.tasks())
            .field("blocks", &self.blocks())
            .field("chunks_begun", &begun)
            .finish_non_exhaustive()
    }
}

impl Requests for Session<'_> {
    fn request(&mut self, task: u64, bytes: &[u8]) -> Result<(), Refusal> {
        self.write(task, bytes)
    }

    fn holds(&self, task: u64) -> Result<u64, Refusal> {
        self.chunk_size(task)
    }

    fn filled(&self, task: u64) -> Result<u64, Refusal> {
        Ok(self.filled.of(self.index(task)?))
    }
}

/// A need as a length. No slice is as long as usize::MAX: where usize is too narrow for the need, every opening is refused with 18.
pub(crate) fn length(need: u64) -> usize {
    usize::try_from(need).unwrap_or(usize::MAX)
}

/// What a chunk of a task with this requested size holds.
pub(crate) fn held(requested_size: u64, blocksize: u32) -> Result<u64, Refusal> {
    let counted = raw::chunk_size(requested_size, blocksize);
    accepted(counted.refusal)?;
    Ok(counted.bytes)
}
