//! Holds the numbers that bound the work, the rules built on them, what a chunk holds, and where chunks and META2 lie.

use crate::demand;
use std::ops::RangeInclusive;

/// The four bytes every container starts with.
pub const MARK: [u8; 4] = *b"sion";
/// The fileformat_version in which a task that wrote nothing has chunk 1 in use all the same.
pub const IDLE_FORMAT: u32 = 4;
/// The most tasks of one file.
pub const MAX_TASKS: usize = 64;

pub(crate) const MAX_CHUNKS: u32 = 32;
pub(crate) const MAX_PREFIX: usize = 1024;
pub(crate) const MAX_RANK: u64 = 2_147_483_647;
pub(crate) const MAX_SIZE: u64 = 1_073_741_824;
/// Every fileformat_version.
pub(crate) const FORMATS: RangeInclusive<i64> = 3..=IDLE_FORMAT as i64;

/// Where flag1 starts; flag2 and the prefix stand behind it, up to the ranks.
pub(crate) const FLAGS_AT: usize = 36;
/// Where the global ranks start, and the bytes that tests 4 to 7 need.
pub(crate) const RANKS_AT: usize = 1076;

/// Where the requested sizes start.
pub(crate) fn sizes_at(n: usize) -> usize {
    RANKS_AT + 8 * n
}

/// Where maxchunks stands.
pub(crate) fn maxchunks_at(n: usize) -> usize {
    RANKS_AT + 16 * n
}

/// Where start_of_varheader stands.
pub(crate) fn start_at(n: usize) -> usize {
    maxchunks_at(n) + 4
}

/// Where META1 ends: 1088 + 16n.
pub fn meta1_end(n: u64) -> u64 {
    n.saturating_mul(16).saturating_add(1088)
}

pub(crate) fn format_ok(format: u32) -> bool {
    FORMATS.contains(&i64::from(format))
}

pub(crate) fn blocksize_ok(blocksize: u32) -> bool {
    blocksize.is_power_of_two() && (512..=4_194_304).contains(&blocksize)
}

pub(crate) fn ranks_ok(ranks: &[u64]) -> bool {
    bad_rank(ranks).is_none()
}

/// The index of the first rank that is out of range or comes before it already.
pub(crate) fn bad_rank(ranks: &[u64]) -> Option<usize> {
    (0..ranks.len()).find(|&i| ranks[i] > MAX_RANK || ranks[..i].contains(&ranks[i]))
}

pub(crate) fn sizes_ok(sizes: &[u64]) -> bool {
    bad_size(sizes).is_none()
}

/// The index of the first size that is out of range.
pub(crate) fn bad_size(sizes: &[u64]) -> Option<usize> {
    sizes.iter().position(|size| !(1..=MAX_SIZE).contains(size))
}

/// What a chunk holds: its extended size, which is the requested size rounded up to a multiple of blocksize.
pub fn capacity(blocksize: u32, size: u64) -> u64 {
    round_up(size, blocksize)
}

/// What a chunk holds, by a requested size and a blocksize of any value; tests in the order of an opening, 5, 9.
pub fn chunk_size(size: u64, blocksize: u32) -> Result<u64, u32> {
    demand(blocksize_ok(blocksize), 5)?;
    demand(sizes_ok(&[size]), 9)?;
    Ok(capacity(blocksize, size))
}

/// The places that follow from blocksize and requested sizes; numbers beyond the rules saturate.
#[derive(Clone, Copy, Debug)]
pub struct Layout<'a> {
    blocksize: u32,
    sizes: &'a [u64],
    /// D, where the first chunk of the first task starts.
    pub d: u64,
    /// G, the step from a chunk to the next one of the same task.
    pub g: u64,
}

impl<'a> Layout<'a> {
    pub fn new(blocksize: u32, sizes: &'a [u64]) -> Layout<'a> {
        let d = round_up(meta1_end(sizes.len() as u64), blocksize);
        let g = extended(blocksize, sizes);
        Layout { blocksize, sizes, d, g }
    }

    /// Where a chunk starts, task and chunk counted from 0.
    pub fn chunk(&self, task: usize, chunk: u64) -> u64 {
        let before = extended(self.blocksize, self.sizes.get(..task).unwrap_or(self.sizes));
        self.meta2(chunk).saturating_add(before)
    }

    /// Where META2 starts behind so many blocks: D + blocks times G.
    pub fn meta2(&self, blocks: u64) -> u64 {
        self.d.saturating_add(blocks.saturating_mul(self.g))
    }

    /// Where META2 ends behind so many blocks.
    pub fn end(&self, blocks: u64) -> u64 {
        let row = 8 * self.sizes.len() as u64;
        self.meta2(blocks).saturating_add(blocks.saturating_add(1).saturating_mul(row))
    }
}

/// The sum of the extended sizes.
fn extended(blocksize: u32, sizes: &[u64]) -> u64 {
    let add = |sum: u64, &size: &u64| sum.saturating_add(round_up(size, blocksize));
    sizes.iter().fold(0, add)
}

/// The least multiple of blocksize, a power of two, that is at least `number`.
fn round_up(number: u64, blocksize: u32) -> u64 {
    let mask = u64::from(blocksize).wrapping_sub(1);
    number.saturating_add(mask) & !mask
}
