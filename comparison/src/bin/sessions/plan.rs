//! Holds what an opening is given, and the paper's formulas for where its chunks lie, what they hold and what it needs.

use crate::call::{Answer, Call};
use crate::memory::Memory;
use reference::Rng;
use std::fmt::{Debug, Formatter, Result as Written};

/// What an opening is given, with the lengths of the image and the table that are lent.
#[derive(Clone)]
pub struct Plan {
    pub order: u32,
    pub version: i32,
    pub patch: i32,
    pub format: u32,
    pub blocksize: u32,
    pub ranks: Vec<u64>,
    pub sizes: Vec<u64>,
    pub prefix: Vec<u8>,
    pub k: u32,
    pub bytes: usize,
    pub cells: usize,
}

impl Plan {
    /// A plan in version 3 with ranks from 0 on that lends just what is needed.
    pub fn new(order: u32, blocksize: u32, sizes: &[u64], k: u32) -> Plan {
        let ranks = (0..sizes.len() as u64).collect();
        let (sizes, prefix) = (sizes.to_vec(), b"run".to_vec());
        let (version, patch, format) = (1, 7, 3);
        let (bytes, cells) = (0, 0);
        let plan = Plan {
            order,
            version,
            patch,
            format,
            blocksize,
            ranks,
            sizes,
            prefix,
            k,
            bytes,
            cells,
        };
        Plan { bytes: plan.needed_bytes(), cells: plan.needed_cells(), ..plan }
    }

    /// Asks what the opening needs and opens a session over random bytes and cells, on both sides; gives the answer and what is left.
    pub fn open(&self, rng: &mut Rng) -> Result<(Answer, Memory), String> {
        let mut memory = Memory::random(self.bytes, self.cells, rng);
        memory.call(&Call::Needs(self.clone()))?;
        let answer = memory.call(&Call::Open(self.clone()))?;
        Ok((answer, memory))
    }

    /// The image needed: D + K·G + 8n(1+K).
    pub fn needed_bytes(&self) -> usize {
        self.end(u64::from(self.k)) as usize
    }

    /// The cells needed: n times K.
    pub fn needed_cells(&self) -> usize {
        self.sizes.len() * self.k as usize
    }

    /// Where META2 ends behind so many blocks.
    pub fn end(&self, blocks: u64) -> u64 {
        let n = self.sizes.len() as u64;
        self.d() + blocks * self.extended(&self.sizes) + 8 * n * (1 + blocks)
    }

    /// Where the K chunks of a task start, the task counted from 0.
    pub fn starts(&self, task: usize) -> Vec<u64> {
        let first = self.d() + self.extended(&self.sizes[..task]);
        (0..u64::from(self.k)).map(|block| first + block * self.extended(&self.sizes)).collect()
    }

    /// What a chunk of a task holds, which is its extended size, the task counted from 0.
    pub fn holds(&self, task: usize) -> u64 {
        self.extended(&self.sizes[task..=task])
    }

    /// The least multiple of blocksize that is at least 1088+16n.
    fn d(&self) -> u64 {
        self.multiple(1088 + 16 * self.sizes.len() as u64)
    }

    /// The sum of the extended sizes of some tasks; of all tasks it is G.
    fn extended(&self, sizes: &[u64]) -> u64 {
        sizes.iter().map(|&size| self.multiple(size)).sum()
    }

    /// The least multiple of blocksize that is at least the number.
    fn multiple(&self, number: u64) -> u64 {
        let blocksize = u64::from(self.blocksize);
        number.div_ceil(blocksize) * blocksize
    }
}

/// Names all but the bytes of the prefix, which only count.
impl Debug for Plan {
    fn fmt(&self, text: &mut Formatter) -> Written {
        let Plan { order, version, patch, format, blocksize, ranks, sizes, prefix, k, .. } = self;
        write!(text, "order {order}, version {version}, patch level {patch}, format {format}, ")?;
        write!(text, "blocksize {blocksize}, ranks {ranks:?}, sizes {sizes:?}, ")?;
        write!(text, "prefix of {} bytes, K {k}", prefix.len())
    }
}
