//! Holds the library's records as C lays them out, the functions that it exports, and each of these as a safe function over slices.
//!
//! Every function takes any values at all: the library tests what it is given, and answers with a refusal number or with 0. Tasks and
//! chunks are counted from 1. The types of the crate's root are the pleasant way to the same functions.

#[cfg(feature = "cuts")]
mod cuts;
pub mod pair;

#[cfg(feature = "cuts")]
pub use cuts::{
    close_within, open_within, pair_close_within, pair_open_within, pair_write_within, write_within,
};

use std::ptr;

/// The most tasks of a container, and the entries that a record has for them.
pub const TASKS: usize = 64;
/// The most planned blocks, and so the most chunks of a task.
pub const BLOCKS: usize = 32;
/// The cells of a table that is long enough for every container.
pub const CELLS: usize = TASKS * BLOCKS;
/// The entries of a record's three lists.
const LISTS: usize = 3 * TASKS;

/// The numbers of a session's record.
#[repr(C)]
#[derive(Clone, Copy, Debug, PartialEq, Eq)]
pub struct SessionNumbers {
    /// 0 little, 1 big.
    pub order: u32,
    /// The library version, any number.
    pub version: i32,
    /// The patch level, any number.
    pub patch: i32,
    /// fileformat_version, 3 or 4.
    pub format: u32,
    /// The bytes of a file-system block.
    pub blocksize: u32,
    /// The number of tasks.
    pub n: u32,
    /// nfiles, the physical files of the container: 1, and of a pair 2.
    pub files: u32,
    /// filenumber, which of them it is, counted from 0.
    pub file: u32,
    /// The planned blocks.
    pub planned: u32,
    /// 0 as long as the session is open.
    pub closed: u32,
}

/// The record of a session: its numbers and three lists, whose entries past `n` are 0.
#[repr(C)]
#[derive(Clone, Copy, Debug, PartialEq, Eq)]
pub struct Session {
    /// All that is no list.
    pub numbers: SessionNumbers,
    /// The global rank of each task.
    pub ranks: [u64; TASKS],
    /// The requested size of each task; [`chunk_size`] says what a chunk of it holds.
    pub sizes: [u64; TASKS],
    /// The chunks that each task has begun; in format 4 at least 1.
    pub counts: [u64; TASKS],
}

/// The numbers of a loaded container's record.
#[repr(C)]
#[derive(Clone, Copy, Debug, PartialEq, Eq)]
pub struct LoadedNumbers {
    /// 0 little, 1 big.
    pub order: u32,
    /// The library version, any number.
    pub version: i32,
    /// The patch level, any number.
    pub patch: i32,
    /// fileformat_version, 3 or 4.
    pub format: u32,
    /// The bytes of a file-system block.
    pub blocksize: u32,
    /// The number of tasks.
    pub n: u32,
    /// nfiles, the physical files of the container: 1, and of a pair 2.
    pub files: u32,
    /// filenumber, which of them it is, counted from 0.
    pub file: u32,
    /// The greatest number of chunks that a task used.
    pub maxchunks: u32,
    /// 0 in an accepted load.
    pub closed: u32,
}

/// The record of a loaded container: its numbers and three lists, whose entries past `n` are 0.
#[repr(C)]
#[derive(Clone, Copy, Debug, PartialEq, Eq)]
pub struct Loaded {
    /// All that is no list.
    pub numbers: LoadedNumbers,
    /// The global rank of each task.
    pub ranks: [u64; TASKS],
    /// The requested size of each task; [`chunk_size`] says what a chunk of it holds.
    pub sizes: [u64; TASKS],
    /// The chunks that each task used; in format 4 at least 1.
    pub counts: [u64; TASKS],
}

/// What a session is opened with, beside the ranks, the sizes and the filename prefix.
#[repr(C)]
#[derive(Clone, Copy, Debug, PartialEq, Eq)]
pub struct Plan {
    /// 0 little, 1 big.
    pub order: u32,
    /// The library version, any number.
    pub version: i32,
    /// The patch level, any number.
    pub patch: i32,
    /// fileformat_version, 3 or 4.
    pub format: u32,
    /// The bytes of a file-system block.
    pub blocksize: u32,
    /// The planned blocks.
    pub planned: u32,
}

/// What an opening needs.
#[repr(C)]
#[derive(Clone, Copy, Debug, PartialEq, Eq)]
pub struct Needed {
    /// The refusal number or 0.
    pub refusal: u32,
    /// The bytes of the image.
    pub image: u64,
    /// The cells of the table.
    pub cells: u64,
}

/// What opening answers.
#[repr(C)]
#[derive(Clone, Copy, Debug, PartialEq, Eq)]
pub struct Opened {
    /// The record of the session.
    pub session: Session,
    /// The refusal number or 0.
    pub refusal: u32,
}

/// What closing answers.
#[repr(C)]
#[derive(Clone, Copy, Debug, PartialEq, Eq)]
pub struct Closed {
    /// The refusal number or 0.
    pub refusal: u32,
    /// The container's bytes, from the image's start.
    pub length: u64,
}

/// What the library answers to a close, of which [`close`] puts the numbers into the record.
#[repr(C)]
struct ClosedLent {
    refusal: u32,
    numbers: SessionNumbers,
    length: u64,
}

impl ClosedLent {
    /// The answer without the numbers, which the record gets.
    fn noted_in(self, session: &mut Session) -> Closed {
        session.numbers = self.numbers;
        Closed { refusal: self.refusal, length: self.length }
    }
}

/// Where a refused load broke off: the first offending field. All of it is 0 where the load was accepted.
#[repr(C)]
#[derive(Clone, Copy, Debug, Default, PartialEq, Eq)]
pub struct Fault {
    /// Where in the image it stands.
    pub place: u64,
    /// The number that stands there.
    pub says: i64,
    /// The least that it may be.
    pub least: i64,
    /// The most that it may be.
    pub most: i64,
    /// Which field it is: a number of [`Field`](crate::Field).
    pub field: u32,
    /// Of which task, counted from 1; 0 where it is of none.
    pub task: u32,
    /// Of which chunk, counted from 1; 0 where it is of none.
    pub chunk: u32,
}

/// What loading answers.
#[repr(C)]
#[derive(Clone, Copy, Debug, PartialEq, Eq)]
pub struct LoadAnswer {
    /// The record of the load.
    pub loaded: Loaded,
    /// The refusal number or 0.
    pub refusal: u32,
    /// Where it broke off.
    pub fault: Fault,
}

/// Where the written bytes of a chunk, or the filename prefix, lie in the image.
#[repr(C)]
#[derive(Clone, Copy, Debug, PartialEq, Eq)]
pub struct Part {
    /// The refusal number or 0.
    pub refusal: u32,
    /// The offset of the first byte.
    pub start: u64,
    /// How many they are.
    pub length: u64,
}

/// A number of bytes: what a chunk holds, a task's total, what a read copied, or a container's length.
#[repr(C)]
#[derive(Clone, Copy, Debug, PartialEq, Eq)]
pub struct ByteCount {
    /// The refusal number or 0.
    pub refusal: u32,
    /// The number of bytes.
    pub bytes: u64,
}

// A function whose name ends in `_lent` takes a record in two parts: its numbers, and its lists as one array.
#[link(name = "lapurmihi", kind = "static")]
extern "C" {
    fn lapur_version() -> u32;

    fn lapur_chunk_size(size: u64, blocksize: u32) -> ByteCount;

    fn lapur_needs(
        plan: Plan,
        ranks: *const u64,
        ranks_len: usize,
        sizes: *const u64,
        sizes_len: usize,
        prefix: *const u8,
        prefix_len: usize,
    ) -> Needed;

    fn lapur_open(
        plan: Plan,
        ranks: *const u64,
        ranks_len: usize,
        sizes: *const u64,
        sizes_len: usize,
        prefix: *const u8,
        prefix_len: usize,
        image: *mut u8,
        image_len: usize,
        table: *mut i64,
        table_len: usize,
    ) -> Opened;

    fn lapur_write_lent(
        numbers: SessionNumbers,
        lists: *mut [u64; LISTS],
        image: *mut u8,
        image_len: usize,
        table: *mut i64,
        table_len: usize,
        task: u64,
        bytes: *const u8,
        bytes_len: usize,
    ) -> u32;

    fn lapur_close_lent(
        numbers: SessionNumbers,
        lists: *const [u64; LISTS],
        image: *mut u8,
        image_len: usize,
        table: *const i64,
        table_len: usize,
    ) -> ClosedLent;

    fn lapur_load(
        image: *const u8,
        image_len: usize,
        table: *mut i64,
        table_len: usize,
    ) -> LoadAnswer;

    fn lapur_chunk_lent(
        numbers: LoadedNumbers,
        lists: *const [u64; LISTS],
        image: *const u8,
        image_len: usize,
        table: *const i64,
        table_len: usize,
        task: u64,
        chunk: u64,
    ) -> Part;

    fn lapur_total_lent(
        numbers: LoadedNumbers,
        lists: *const [u64; LISTS],
        image: *const u8,
        image_len: usize,
        table: *const i64,
        table_len: usize,
        task: u64,
    ) -> ByteCount;

    fn lapur_read_lent(
        numbers: LoadedNumbers,
        lists: *const [u64; LISTS],
        image: *const u8,
        image_len: usize,
        table: *const i64,
        table_len: usize,
        task: u64,
        place: u64,
        out: *mut u8,
        out_len: usize,
    ) -> ByteCount;

    fn lapur_length_lent(
        numbers: LoadedNumbers,
        lists: *const [u64; LISTS],
        image: *const u8,
        image_len: usize,
        table: *const i64,
        table_len: usize,
    ) -> ByteCount;

    fn lapur_prefix_lent(
        numbers: LoadedNumbers,
        lists: *const [u64; LISTS],
        image: *const u8,
        image_len: usize,
        table: *const i64,
        table_len: usize,
    ) -> Part;
}

impl Session {
    /// The three lists, which stand one behind the other, as one array.
    fn lists(&mut self) -> *mut [u64; LISTS] {
        let record: *mut Session = self;
        // Made from the whole record, the pointer is good for all three lists.
        unsafe { ptr::addr_of_mut!((*record).ranks) }.cast()
    }
}

impl Loaded {
    /// The three lists, which stand one behind the other, as one array.
    fn lists(&self) -> *const [u64; LISTS] {
        let record: *const Loaded = self;
        // Made from the whole record, the pointer is good for all three lists.
        unsafe { ptr::addr_of!((*record).ranks) }.cast()
    }
}

// Each call below is sound for all arguments: a slice's pointer and length are good for as long as the call lasts, and so is the pointer to
// a record's lists; two of them overlap only where both are shared, every record is plain numbers, and the library keeps no pointer.

/// The library's version: 10,000 times its first number, 100 times its second, and its third.
#[inline]
pub fn version() -> u32 {
    unsafe { lapur_version() }
}

/// The chunk size, which is what a chunk holds, from the task's requested size and the blocksize: its tests are 5 and 9.
#[inline]
pub fn chunk_size(size: u64, blocksize: u32) -> ByteCount {
    unsafe { lapur_chunk_size(size, blocksize) }
}

/// What an opening with this plan needs: its tests but for the lengths of image and table, 2, 4, 5, 6, 21, 8, 9 and 20.
#[inline]
pub fn needs(plan: Plan, ranks: &[u64], sizes: &[u64], prefix: &[u8]) -> Needed {
    let (ranks_len, sizes_len, prefix_len) = (ranks.len(), sizes.len(), prefix.len());
    let (ranks, sizes, prefix) = (ranks.as_ptr(), sizes.as_ptr(), prefix.as_ptr());
    unsafe { lapur_needs(plan, ranks, ranks_len, sizes, sizes_len, prefix, prefix_len) }
}

/// Opens a session: writes META1 to the image and marks the cells of the table unused.
#[inline]
pub fn open(
    plan: Plan,
    ranks: &[u64],
    sizes: &[u64],
    prefix: &[u8],
    image: &mut [u8],
    table: &mut [i64],
) -> Opened {
    unsafe {
        lapur_open(
            plan,
            ranks.as_ptr(),
            ranks.len(),
            sizes.as_ptr(),
            sizes.len(),
            prefix.as_ptr(),
            prefix.len(),
            image.as_mut_ptr(),
            image.len(),
            table.as_mut_ptr(),
            table.len(),
        )
    }
}

/// Writes bytes to a task's chunk in use, or to its next one, and gives the refusal number or 0. A refused write leaves the record as it
/// was; an accepted one changes the task's count alone.
#[inline]
pub fn write(
    session: &mut Session,
    image: &mut [u8],
    table: &mut [i64],
    task: u64,
    bytes: &[u8],
) -> u32 {
    unsafe {
        lapur_write_lent(
            session.numbers,
            session.lists(),
            image.as_mut_ptr(),
            image.len(),
            table.as_mut_ptr(),
            table.len(),
            task,
            bytes.as_ptr(),
            bytes.len(),
        )
    }
}

/// Closes a session: writes META2 and the fields that say where it is, and marks the record closed. A refused close leaves the record as
/// it was.
#[inline]
pub fn close(session: &mut Session, image: &mut [u8], table: &[i64]) -> Closed {
    let answer = unsafe {
        lapur_close_lent(
            session.numbers,
            session.lists(),
            image.as_mut_ptr(),
            image.len(),
            table.as_ptr(),
            table.len(),
        )
    };
    answer.noted_in(session)
}

/// Checks a container, and puts its bytes written to each chunk into the table; refused, says where it broke off.
#[inline]
pub fn load(image: &[u8], table: &mut [i64]) -> LoadAnswer {
    unsafe { lapur_load(image.as_ptr(), image.len(), table.as_mut_ptr(), table.len()) }
}

/// Where the written bytes of a chunk lie in the image; refused, the empty part at 0.
#[inline]
pub fn chunk(loaded: &Loaded, image: &[u8], table: &[i64], task: u64, chunk: u64) -> Part {
    unsafe {
        lapur_chunk_lent(
            loaded.numbers,
            loaded.lists(),
            image.as_ptr(),
            image.len(),
            table.as_ptr(),
            table.len(),
            task,
            chunk,
        )
    }
}

/// The bytes of a task's whole stream.
#[inline]
pub fn total(loaded: &Loaded, image: &[u8], table: &[i64], task: u64) -> ByteCount {
    unsafe {
        lapur_total_lent(
            loaded.numbers,
            loaded.lists(),
            image.as_ptr(),
            image.len(),
            table.as_ptr(),
            table.len(),
            task,
        )
    }
}

/// Copies a task's stream from a place on into `out`, as far as both reach, and counts the bytes copied.
#[inline]
pub fn read(
    loaded: &Loaded,
    image: &[u8],
    table: &[i64],
    task: u64,
    place: u64,
    out: &mut [u8],
) -> ByteCount {
    unsafe {
        lapur_read_lent(
            loaded.numbers,
            loaded.lists(),
            image.as_ptr(),
            image.len(),
            table.as_ptr(),
            table.len(),
            task,
            place,
            out.as_mut_ptr(),
            out.len(),
        )
    }
}

/// The bytes of the container, without what follows it in the image.
#[inline]
pub fn length(loaded: &Loaded, image: &[u8], table: &[i64]) -> ByteCount {
    let (image, image_len) = (image.as_ptr(), image.len());
    let (numbers, lists) = (loaded.numbers, loaded.lists());
    unsafe { lapur_length_lent(numbers, lists, image, image_len, table.as_ptr(), table.len()) }
}

/// Where the filename prefix lies in the image; refused, the empty part at 0.
#[inline]
pub fn prefix(loaded: &Loaded, image: &[u8], table: &[i64]) -> Part {
    let (image, image_len) = (image.as_ptr(), image.len());
    let (numbers, lists) = (loaded.numbers, loaded.lists());
    unsafe { lapur_prefix_lent(numbers, lists, image, image_len, table.as_ptr(), table.len()) }
}
