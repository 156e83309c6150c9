//! Holds the functions of the second library, which store within a budget of byte stores, and each of these as a safe function over slices: they
//! stand behind the feature `cuts`.

use super::pair::{PairClosed, PairClosedLent, PairOpened};
use super::{Closed, ClosedLent, Opened, Plan, Session, SessionNumbers, LISTS};

#[link(name = "lapurmihi_cuts", kind = "static")]
extern "C" {
    fn lapur_open_within(
        plan: Plan,
        ranks: *const u64,
        ranks_len: usize,
        sizes: *const u64,
        sizes_len: usize,
        prefix: *const u8,
        prefix_len: usize,
        image: *mut u8,
        image_len: usize,
        table: *mut i64,
        table_len: usize,
        budget: u64,
    ) -> Opened;

    fn lapur_write_within_lent(
        numbers: SessionNumbers,
        lists: *mut [u64; LISTS],
        image: *mut u8,
        image_len: usize,
        table: *mut i64,
        table_len: usize,
        task: u64,
        bytes: *const u8,
        bytes_len: usize,
        budget: u64,
    ) -> u32;

    fn lapur_close_within_lent(
        numbers: SessionNumbers,
        lists: *const [u64; LISTS],
        image: *mut u8,
        image_len: usize,
        table: *const i64,
        table_len: usize,
        budget: u64,
    ) -> ClosedLent;

    fn lapur_pair_open_within(
        plan0: Plan,
        ranks0: *const u64,
        ranks0_len: usize,
        sizes0: *const u64,
        sizes0_len: usize,
        prefix0: *const u8,
        prefix0_len: usize,
        image0: *mut u8,
        image0_len: usize,
        table0: *mut i64,
        table0_len: usize,
        plan1: Plan,
        ranks1: *const u64,
        ranks1_len: usize,
        sizes1: *const u64,
        sizes1_len: usize,
        prefix1: *const u8,
        prefix1_len: usize,
        image1: *mut u8,
        image1_len: usize,
        table1: *mut i64,
        table1_len: usize,
        budget0: u64,
        budget1: u64,
    ) -> PairOpened;

    fn lapur_pair_write_within_lent(
        numbers0: SessionNumbers,
        lists0: *mut [u64; LISTS],
        image0: *mut u8,
        image0_len: usize,
        table0: *mut i64,
        table0_len: usize,
        numbers1: SessionNumbers,
        lists1: *mut [u64; LISTS],
        image1: *mut u8,
        image1_len: usize,
        table1: *mut i64,
        table1_len: usize,
        rank: u64,
        bytes: *const u8,
        bytes_len: usize,
        budget0: u64,
        budget1: u64,
    ) -> u32;

    fn lapur_pair_close_within_lent(
        numbers0: SessionNumbers,
        lists0: *const [u64; LISTS],
        image0: *mut u8,
        image0_len: usize,
        table0: *const i64,
        table0_len: usize,
        numbers1: SessionNumbers,
        lists1: *const [u64; LISTS],
        image1: *mut u8,
        image1_len: usize,
        table1: *const i64,
        table1_len: usize,
        budget0: u64,
        budget1: u64,
    ) -> PairClosedLent;
}

// Each call below is sound for all arguments, for the reasons that those of the first library are.

/// Opens a session as [`open`](super::open) does, of whose byte stores just the first `budget` reach the image: what a power cut then leaves. For tests of
/// programs: answer, record and table are those of the whole call.
#[inline]
pub fn open_within(
    plan: Plan,
    ranks: &[u64],
    sizes: &[u64],
    prefix: &[u8],
    image: &mut [u8],
    table: &mut [i64],
    budget: u64,
) -> Opened {
    unsafe {
        lapur_open_within(
            plan,
            ranks.as_ptr(),
            ranks.len(),
            sizes.as_ptr(),
            sizes.len(),
            prefix.as_ptr(),
            prefix.len(),
            image.as_mut_ptr(),
            image.len(),
            table.as_mut_ptr(),
            table.len(),
            budget,
        )
    }
}

/// Writes bytes to a task as [`write`](super::write()) does, of which just the first `budget` reach the image: what a power cut then leaves. For tests of
/// programs: answer, record and table are those of the whole call.
#[inline]
pub fn write_within(
    session: &mut Session,
    image: &mut [u8],
    table: &mut [i64],
    task: u64,
    bytes: &[u8],
    budget: u64,
) -> u32 {
    unsafe {
        lapur_write_within_lent(
            session.numbers,
            session.lists(),
            image.as_mut_ptr(),
            image.len(),
            table.as_mut_ptr(),
            table.len(),
            task,
            bytes.as_ptr(),
            bytes.len(),
            budget,
        )
    }
}

/// Closes a session as [`close`](super::close) does, of whose byte stores just the first `budget` reach the image: what a power cut then leaves. For tests
/// of programs: the answer and the record, marked closed, are those of the whole call.
#[inline]
pub fn close_within(session: &mut Session, image: &mut [u8], table: &[i64], budget: u64) -> Closed {
    let answer = unsafe {
        lapur_close_within_lent(
            session.numbers,
            session.lists(),
            image.as_mut_ptr(),
            image.len(),
            table.as_ptr(),
            table.len(),
            budget,
        )
    };
    answer.noted_in(session)
}

/// Opens a pair as [`pair::open`](super::pair::open) does, of whose byte stores just the first `budgets` reach each image. For tests of programs: answer,
/// records and tables are those of the whole call.
#[inline]
pub fn pair_open_within(
    plans: [Plan; 2],
    ranks: [&[u64]; 2],
    sizes: [&[u64]; 2],
    prefixes: [&[u8]; 2],
    images: [&mut [u8]; 2],
    tables: [&mut [i64]; 2],
    budgets: [u64; 2],
) -> PairOpened {
    let ([plan0, plan1], [ranks0, ranks1]) = (plans, ranks);
    let ([sizes0, sizes1], [prefix0, prefix1]) = (sizes, prefixes);
    let ([image0, image1], [table0, table1], [budget0, budget1]) = (images, tables, budgets);
    unsafe {
        lapur_pair_open_within(
            plan0,
            ranks0.as_ptr(),
            ranks0.len(),
            sizes0.as_ptr(),
            sizes0.len(),
            prefix0.as_ptr(),
            prefix0.len(),
            image0.as_mut_ptr(),
            image0.len(),
            table0.as_mut_ptr(),
            table0.len(),
            plan1,
            ranks1.as_ptr(),
            ranks1.len(),
            sizes1.as_ptr(),
            sizes1.len(),
            prefix1.as_ptr(),
            prefix1.len(),
            image1.as_mut_ptr(),
            image1.len(),
            table1.as_mut_ptr(),
            table1.len(),
            budget0,
            budget1,
        )
    }
}

/// Writes bytes to a rank's task as [`pair::write`](super::pair::write()) does, of which just as many as its file's budget reach the image.
#[inline]
pub fn pair_write_within(
    sessions: [&mut Session; 2],
    images: [&mut [u8]; 2],
    tables: [&mut [i64]; 2],
    rank: u64,
    bytes: &[u8],
    budgets: [u64; 2],
) -> u32 {
    let ([session0, session1], [image0, image1], [table0, table1]) = (sessions, images, tables);
    let [budget0, budget1] = budgets;
    unsafe {
        lapur_pair_write_within_lent(
            session0.numbers,
            session0.lists(),
            image0.as_mut_ptr(),
            image0.len(),
            table0.as_mut_ptr(),
            table0.len(),
            session1.numbers,
            session1.lists(),
            image1.as_mut_ptr(),
            image1.len(),
            table1.as_mut_ptr(),
            table1.len(),
            rank,
            bytes.as_ptr(),
            bytes.len(),
            budget0,
            budget1,
        )
    }
}

/// Closes a pair as [`pair::close`](super::pair::close) does, of whose byte stores just the first `budgets` reach each image.
#[inline]
pub fn pair_close_within(
    sessions: [&mut Session; 2],
    images: [&mut [u8]; 2],
    tables: [&[i64]; 2],
    budgets: [u64; 2],
) -> PairClosed {
    let ([session0, session1], [image0, image1], [table0, table1]) = (sessions, images, tables);
    let [budget0, budget1] = budgets;
    let answer = unsafe {
        lapur_pair_close_within_lent(
            session0.numbers,
            session0.lists(),
            image0.as_mut_ptr(),
            image0.len(),
            table0.as_ptr(),
            table0.len(),
            session1.numbers,
            session1.lists(),
            image1.as_mut_ptr(),
            image1.len(),
            table1.as_ptr(),
            table1.len(),
            budget0,
            budget1,
        )
    };
    answer.noted_in([session0, session1])
}
