//! Holds a task of a loaded container, in one physical file or of a pair.

use crate::refusal::accepted;
use crate::{raw, Container, Pair, Refusal, Stream};
use std::fmt;
use std::ops::Range;

/// Why a call on a loaded container may be taken for accepted: it is proved that an accepted load can be read, and that what its chunks
/// hold is answered.
pub(crate) const READABLE: &str = "an accepted load is readable";

/// Where a task lies: in a container, or in file 0 or 1 of a pair.
#[derive(Clone, Copy)]
enum Of<'c> {
    Container(&'c Container<'c>),
    Pair(&'c Pair<'c>, usize),
}

/// A task of a loaded container, or of a pair.
///
/// ```
/// use lapurmihi::{Container, Refusal};
///
/// let container = Container::open("../../examples/two-tasks.sion")?;
/// let task = container.task(1)?;
/// assert_eq!((task.requested_size(), task.chunk_size()), (500, 512));
/// let lengths: Vec<usize> = task.chunks().map(<[u8]>::len).collect();
/// assert_eq!(lengths, [501]);
/// assert_eq!(task.chunk(2), Err(Refusal::NoChunk));
///
/// let mut end = [0; 4];
/// assert_eq!(task.read_at(499, &mut end)?, 2); // up to the total
/// assert_eq!(task.read_at(502, &mut end), Err(Refusal::PastTotal));
/// # Ok::<(), std::io::Error>(())
/// ```
#[derive(Clone, Copy)]
pub struct Task<'c> {
    of: Of<'c>,
    index: usize,
}

impl<'c> Task<'c> {
    pub(crate) fn of_container(container: &'c Container<'c>, index: usize) -> Task<'c> {
        Task { of: Of::Container(container), index }
    }

    pub(crate) fn of_pair(pair: &'c Pair<'c>, file: usize, index: usize) -> Task<'c> {
        Task { of: Of::Pair(pair, file), index }
    }

    /// The record of its physical file.
    fn record(&self) -> &'c raw::Loaded {
        match self.of {
            Of::Container(container) => &container.record,
            Of::Pair(pair, file) => &pair.records[file],
        }
    }

    /// The bytes of its physical file.
    fn image(&self) -> &'c [u8] {
        match self.of {
            Of::Container(container) => &container.image,
            Of::Pair(pair, file) => &pair.images[file],
        }
    }

    /// The physical file that it lies in, counted from 0: of a pair 0 or 1.
    pub fn file(&self) -> usize {
        match self.of {
            Of::Container(_) => 0,
            Of::Pair(_, file) => file,
        }
    }

    /// The task's number in its physical file, counted from 1.
    pub fn number(&self) -> u64 {
        self.index as u64 + 1
    }

    /// Its global rank.
    pub fn rank(&self) -> u64 {
        self.record().ranks[self.index]
    }

    /// The most bytes that each of its chunks holds: its requested size, rounded up to a multiple of the blocksize.
    pub fn chunk_size(&self) -> u64 {
        let holds = raw::chunk_size(self.requested_size(), self.record().numbers.blocksize);
        accepted(holds.refusal).expect(READABLE);
        holds.bytes
    }

    /// The bytes that were requested for each of its chunks when the container was planned.
    pub fn requested_size(&self) -> u64 {
        self.record().sizes[self.index]
    }

    /// The chunks that it used.
    pub fn chunks_used(&self) -> u64 {
        self.record().counts[self.index]
    }

    /// The bytes of its whole stream.
    pub fn total(&self) -> u64 {
        let counted = match self.of {
            Of::Container(Container { record, image, table }) => {
                raw::total(record, image, table, self.number())
            }
            Of::Pair(pair, _) => {
                raw::pair::total(pair.records(), pair.images(), pair.tables(), self.rank())
            }
        };
        accepted(counted.refusal).expect(READABLE);
        counted.bytes
    }

    /// Where the bytes written to a chunk, counted from 1, lie in the image, and so in its physical file.
    pub fn chunk_place(&self, chunk: u64) -> Result<Range<usize>, Refusal> {
        let (refusal, start, length) = match self.of {
            Of::Container(Container { record, image, table }) => {
                let part = raw::chunk(record, image, table, self.number(), chunk);
                (part.refusal, part.start, part.length)
            }
            Of::Pair(pair, _) => {
                let (records, images, tables) = (pair.records(), pair.images(), pair.tables());
                let part = raw::pair::chunk(records, images, tables, self.rank(), chunk);
                (part.refusal, part.start, part.length)
            }
        };
        accepted(refusal)?;
        Ok(start as usize..(start + length) as usize)
    }

    /// The bytes written to a chunk, counted from 1: a part of the image, not a copy.
    pub fn chunk(&self, chunk: u64) -> Result<&'c [u8], Refusal> {
        let place = self.chunk_place(chunk)?;
        Ok(&self.image()[place])
    }

    /// The bytes written to each chunk that it used, in order.
    pub fn chunks(&self) -> impl ExactSizeIterator<Item = &'c [u8]> + DoubleEndedIterator + 'c {
        let task = *self;
        (0..self.chunks_used() as usize)
            .map(move |index| task.chunk(index as u64 + 1).expect(READABLE))
    }

    /// Copies its stream from a place on into `out`, as far as both reach, and counts the bytes copied. The rest of `out` stays.
    pub fn read_at(&self, place: u64, out: &mut [u8]) -> Result<usize, Refusal> {
        let counted = match self.of {
            Of::Container(Container { record, image, table }) => {
                raw::read(record, image, table, self.number(), place, out)
            }
            Of::Pair(pair, _) => {
                let (records, images, tables) = (pair.records(), pair.images(), pair.tables());
                raw::pair::read(records, images, tables, self.rank(), place, out)
            }
        };
        accepted(counted.refusal)?;
        Ok(counted.bytes as usize)
    }

    /// Its bytes from the first on, for `std::io`.
    pub fn stream(&self) -> Stream<'c> {
        Stream::new(*self)
    }
}

impl fmt::Debug for Task<'_> {
    fn fmt(&self, f: &mut fmt::Formatter<'_>) -> fmt::Result {
        let mut told = f.debug_struct("Task");
        if let Of::Pair(_, file) = self.of {
            told.field("file", &file);
        }
        told.field("number", &self.number())
            .field("rank", &self.rank())
            .field("requested_size", &self.requested_size())
            .field("chunk_size", &self.chunk_size())
            .field("chunks_used", &self.chunks_used())
            .field("total", &self.total())
            .finish()
    }
}
