//! Holds the library's functions for a pair of physical files, with their records as C lays them out, and each of these as a safe function. What comes
//! twice is an array of two: the first is file 0's, the second file 1's.

use super::{ByteCount, Fault, Loaded, LoadedNumbers, Plan, Session, SessionNumbers, LISTS};

/// What an opening of a pair needs.
#[repr(C)]
#[derive(Clone, Copy, Debug, PartialEq, Eq)]
pub struct PairNeeded {
    /// The refusal number or 0.
    pub refusal: u32,
    /// The bytes of file 0's image, with the mapping's.
    pub image0: u64,
    /// The cells of file 0's table.
    pub cells0: u64,
    /// The bytes of file 1's image.
    pub image1: u64,
    /// The cells of file 1's table.
    pub cells1: u64,
}

/// What opening a pair answers.
#[repr(C)]
#[derive(Clone, Copy, Debug, PartialEq, Eq)]
pub struct PairOpened {
    /// The record of file 0's session.
    pub session0: Session,
    /// The record of file 1's session.
    pub session1: Session,
    /// The refusal number or 0.
    pub refusal: u32,
}

/// What closing a pair answers.
#[repr(C)]
#[derive(Clone, Copy, Debug, PartialEq, Eq)]
pub struct PairClosed {
    /// The refusal number or 0.
    pub refusal: u32,
    /// The bytes of file 0, up to the mapping's end.
    pub length0: u64,
    /// The bytes of file 1.
    pub length1: u64,
}

/// What the library answers to a close, of which [`close`] puts the numbers into the records.
#[repr(C)]
pub(super) struct PairClosedLent {
    refusal: u32,
    numbers0: SessionNumbers,
    numbers1: SessionNumbers,
    length0: u64,
    length1: u64,
}

impl PairClosedLent {
    /// The answer without the numbers, which the records get.
    pub(super) fn noted_in(self, sessions: [&mut Session; 2]) -> PairClosed {
        let [session0, session1] = sessions;
        session0.numbers = self.numbers0;
        session1.numbers = self.numbers1;
        PairClosed { refusal: self.refusal, length0: self.length0, length1: self.length1 }
    }
}

/// What loading a pair answers.
#[repr(C)]
#[derive(Clone, Copy, Debug, PartialEq, Eq)]
pub struct PairLoaded {
    /// The record of file 0's load.
    pub loaded0: Loaded,
    /// The record of file 1's load.
    pub loaded1: Loaded,
    /// The refusal number or 0.
    pub refusal: u32,
    /// In which of the two it broke off.
    pub file: u32,
    /// Where it broke off there.
    pub fault: Fault,
}

/// Where the written bytes of a chunk lie, in which of the two images.
#[repr(C)]
#[derive(Clone, Copy, Debug, PartialEq, Eq)]
pub struct PairPart {
    /// The refusal number or 0.
    pub refusal: u32,
    /// 0 or 1.
    pub file: u32,
    /// The offset of the first byte in that image.
    pub start: u64,
    /// How many they are.
    pub length: u64,
}

extern "C" {
    fn lapur_pair_needs(
        plan0: Plan,
        ranks0: *const u64,
        ranks0_len: usize,
        sizes0: *const u64,
        sizes0_len: usize,
        prefix0: *const u8,
        prefix0_len: usize,
        plan1: Plan,
        ranks1: *const u64,
        ranks1_len: usize,
        sizes1: *const u64,
        sizes1_len: usize,
        prefix1: *const u8,
        prefix1_len: usize,
    ) -> PairNeeded;

    fn lapur_pair_open(
        plan0: Plan,
        ranks0: *const u64,
        ranks0_len: usize,
        sizes0: *const u64,
        sizes0_len: usize,
        prefix0: *const u8,
        prefix0_len: usize,
        image0: *mut u8,
        image0_len: usize,
        table0: *mut i64,
        table0_len: usize,
        plan1: Plan,
        ranks1: *const u64,
        ranks1_len: usize,
        sizes1: *const u64,
        sizes1_len: usize,
        prefix1: *const u8,
        prefix1_len: usize,
        image1: *mut u8,
        image1_len: usize,
        table1: *mut i64,
        table1_len: usize,
    ) -> PairOpened;

    fn lapur_pair_write_lent(
        numbers0: SessionNumbers,
        lists0: *mut [u64; LISTS],
        image0: *mut u8,
        image0_len: usize,
        table0: *mut i64,
        table0_len: usize,
        numbers1: SessionNumbers,
        lists1: *mut [u64; LISTS],
        image1: *mut u8,
        image1_len: usize,
        table1: *mut i64,
        table1_len: usize,
        rank: u64,
        bytes: *const u8,
        bytes_len: usize,
    ) -> u32;

    fn lapur_pair_close_lent(
        numbers0: SessionNumbers,
        lists0: *const [u64; LISTS],
        image0: *mut u8,
        image0_len: usize,
        table0: *const i64,
        table0_len: usize,
        numbers1: SessionNumbers,
        lists1: *const [u64; LISTS],
        image1: *mut u8,
        image1_len: usize,
        table1: *const i64,
        table1_len: usize,
    ) -> PairClosedLent;

    fn lapur_pair_load(
        image0: *const u8,
        image0_len: usize,
        table0: *mut i64,
        table0_len: usize,
        image1: *const u8,
        image1_len: usize,
        table1: *mut i64,
        table1_len: usize,
    ) -> PairLoaded;

    fn lapur_pair_chunk_lent(
        numbers0: LoadedNumbers,
        lists0: *const [u64; LISTS],
        image0: *const u8,
        image0_len: usize,
        table0: *const i64,
        table0_len: usize,
        numbers1: LoadedNumbers,
        lists1: *const [u64; LISTS],
        image1: *const u8,
        image1_len: usize,
        table1: *const i64,
        table1_len: usize,
        rank: u64,
        chunk: u64,
    ) -> PairPart;

    fn lapur_pair_total_lent(
        numbers0: LoadedNumbers,
        lists0: *const [u64; LISTS],
        image0: *const u8,
        image0_len: usize,
        table0: *const i64,
        table0_len: usize,
        numbers1: LoadedNumbers,
        lists1: *const [u64; LISTS],
        image1: *const u8,
        image1_len: usize,
        table1: *const i64,
        table1_len: usize,
        rank: u64,
    ) -> ByteCount;

    fn lapur_pair_read_lent(
        numbers0: LoadedNumbers,
        lists0: *const [u64; LISTS],
        image0: *const u8,
        image0_len: usize,
        table0: *const i64,
        table0_len: usize,
        numbers1: LoadedNumbers,
        lists1: *const [u64; LISTS],
        image1: *const u8,
        image1_len: usize,
        table1: *const i64,
        table1_len: usize,
        rank: u64,
        place: u64,
        out: *mut u8,
        out_len: usize,
    ) -> ByteCount;
}

// Each call below is sound for all arguments, for the reasons that those of a single file are: also of two arguments that are each other's file none
// overlap unless both are shared.

/// What an opening with these two plans needs: each file's tests but for the lengths, then 8 where the ranks of both are not 0, 1 and so on.
#[inline]
pub fn needs(
    plans: [Plan; 2],
    ranks: [&[u64]; 2],
    sizes: [&[u64]; 2],
    prefixes: [&[u8]; 2],
) -> PairNeeded {
    let ([plan0, plan1], [ranks0, ranks1]) = (plans, ranks);
    let ([sizes0, sizes1], [prefix0, prefix1]) = (sizes, prefixes);
    unsafe {
        lapur_pair_needs(
            plan0,
            ranks0.as_ptr(),
            ranks0.len(),
            sizes0.as_ptr(),
            sizes0.len(),
            prefix0.as_ptr(),
            prefix0.len(),
            plan1,
            ranks1.as_ptr(),
            ranks1.len(),
            sizes1.as_ptr(),
            sizes1.len(),
            prefix1.as_ptr(),
            prefix1.len(),
        )
    }
}

/// Opens both sessions: writes META1 to both images and marks the cells of both tables unused.
#[inline]
pub fn open(
    plans: [Plan; 2],
    ranks: [&[u64]; 2],
    sizes: [&[u64]; 2],
    prefixes: [&[u8]; 2],
    images: [&mut [u8]; 2],
    tables: [&mut [i64]; 2],
) -> PairOpened {
    let ([plan0, plan1], [ranks0, ranks1]) = (plans, ranks);
    let ([sizes0, sizes1], [prefix0, prefix1]) = (sizes, prefixes);
    let ([image0, image1], [table0, table1]) = (images, tables);
    unsafe {
        lapur_pair_open(
            plan0,
            ranks0.as_ptr(),
            ranks0.len(),
            sizes0.as_ptr(),
            sizes0.len(),
            prefix0.as_ptr(),
            prefix0.len(),
            image0.as_mut_ptr(),
            image0.len(),
            table0.as_mut_ptr(),
            table0.len(),
            plan1,
            ranks1.as_ptr(),
            ranks1.len(),
            sizes1.as_ptr(),
            sizes1.len(),
            prefix1.as_ptr(),
            prefix1.len(),
            image1.as_mut_ptr(),
            image1.len(),
            table1.as_mut_ptr(),
            table1.len(),
        )
    }
}

/// Writes bytes to the task that carries a rank, and gives the refusal number or 0. A refused write leaves both records as they were.
#[inline]
pub fn write(
    sessions: [&mut Session; 2],
    images: [&mut [u8]; 2],
    tables: [&mut [i64]; 2],
    rank: u64,
    bytes: &[u8],
) -> u32 {
    let ([session0, session1], [image0, image1], [table0, table1]) = (sessions, images, tables);
    unsafe {
        lapur_pair_write_lent(
            session0.numbers,
            session0.lists(),
            image0.as_mut_ptr(),
            image0.len(),
            table0.as_mut_ptr(),
            table0.len(),
            session1.numbers,
            session1.lists(),
            image1.as_mut_ptr(),
            image1.len(),
            table1.as_mut_ptr(),
            table1.len(),
            rank,
            bytes.as_ptr(),
            bytes.len(),
        )
    }
}

/// Closes both sessions: writes META2 and the mapping of file 0, then META2 of file 1, and marks both records closed.
#[inline]
pub fn close(
    sessions: [&mut Session; 2],
    images: [&mut [u8]; 2],
    tables: [&[i64]; 2],
) -> PairClosed {
    let ([session0, session1], [image0, image1], [table0, table1]) = (sessions, images, tables);
    let answer = unsafe {
        lapur_pair_close_lent(
            session0.numbers,
            session0.lists(),
            image0.as_mut_ptr(),
            image0.len(),
            table0.as_ptr(),
            table0.len(),
            session1.numbers,
            session1.lists(),
            image1.as_mut_ptr(),
            image1.len(),
            table1.as_ptr(),
            table1.len(),
        )
    };
    answer.noted_in([session0, session1])
}

/// Checks both files of a pair and fills both tables.
#[inline]
pub fn load(images: [&[u8]; 2], tables: [&mut [i64]; 2]) -> PairLoaded {
    let ([image0, image1], [table0, table1]) = (images, tables);
    unsafe {
        lapur_pair_load(
            image0.as_ptr(),
            image0.len(),
            table0.as_mut_ptr(),
            table0.len(),
            image1.as_ptr(),
            image1.len(),
            table1.as_mut_ptr(),
            table1.len(),
        )
    }
}

/// Where, and in which of the two images, the written bytes of a chunk of a rank's task lie.
#[inline]
pub fn chunk(
    loaded: [&Loaded; 2],
    images: [&[u8]; 2],
    tables: [&[i64]; 2],
    rank: u64,
    chunk: u64,
) -> PairPart {
    let ([loaded0, loaded1], [image0, image1], [table0, table1]) = (loaded, images, tables);
    unsafe {
        lapur_pair_chunk_lent(
            loaded0.numbers,
            loaded0.lists(),
            image0.as_ptr(),
            image0.len(),
            table0.as_ptr(),
            table0.len(),
            loaded1.numbers,
            loaded1.lists(),
            image1.as_ptr(),
            image1.len(),
            table1.as_ptr(),
            table1.len(),
            rank,
            chunk,
        )
    }
}

/// The bytes of a rank's task, in all its chunks.
#[inline]
pub fn total(
    loaded: [&Loaded; 2],
    images: [&[u8]; 2],
    tables: [&[i64]; 2],
    rank: u64,
) -> ByteCount {
    let ([loaded0, loaded1], [image0, image1], [table0, table1]) = (loaded, images, tables);
    unsafe {
        lapur_pair_total_lent(
            loaded0.numbers,
            loaded0.lists(),
            image0.as_ptr(),
            image0.len(),
            table0.as_ptr(),
            table0.len(),
            loaded1.numbers,
            loaded1.lists(),
            image1.as_ptr(),
            image1.len(),
            table1.as_ptr(),
            table1.len(),
            rank,
        )
    }
}

/// Copies bytes of a rank's task from a place in its whole stream.
#[inline]
pub fn read(
    loaded: [&Loaded; 2],
    images: [&[u8]; 2],
    tables: [&[i64]; 2],
    rank: u64,
    place: u64,
    out: &mut [u8],
) -> ByteCount {
    let ([loaded0, loaded1], [image0, image1], [table0, table1]) = (loaded, images, tables);
    unsafe {
        lapur_pair_read_lent(
            loaded0.numbers,
            loaded0.lists(),
            image0.as_ptr(),
            image0.len(),
            table0.as_ptr(),
            table0.len(),
            loaded1.numbers,
            loaded1.lists(),
            image1.as_ptr(),
            image1.len(),
            table1.as_ptr(),
            table1.len(),
            rank,
            place,
            out.as_mut_ptr(),
            out.len(),
        )
    }
}
