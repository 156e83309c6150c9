//! Holds a plan, which is what an opening is given for one file beside the memory lent to it, and the tests of it.

use crate::demand;
use crate::layout::{blocksize_ok, format_ok, ranks_ok, sizes_ok};
use crate::layout::{MAX_CHUNKS, MAX_PREFIX, MAX_TASKS};
use crate::record::Member;
use crate::{Head, Order, Session};

/// All that an opening is given for one file but for image and table.
#[derive(Clone, Copy, Debug, PartialEq, Eq)]
pub struct Plan<'a> {
    /// 0 little, 1 big.
    pub order: u32,
    pub version: i32,
    pub patch: i32,
    pub format: u32,
    pub blocksize: u32,
    pub ranks: &'a [u64],
    pub sizes: &'a [u64],
    pub prefix: &'a [u8],
    pub k: u32,
}

impl Plan<'_> {
    /// The record of a session just opened for this file of so many; tests in the order 2, 4, 5, 6, 21, 8, 9, 20.
    pub(crate) fn session(&self, Member { files, file }: Member) -> Result<Session, u32> {
        self.judge()?;
        let &Plan { order, version, patch, format, blocksize, ranks, sizes, k, .. } = self;
        let n = sizes.len();
        let numbers =
            Head { order, version, patch, format, blocksize, files, file, ..Head::refused() };
        let mut head = Head { n: n as u32, closed: 0, ..numbers };
        head.ranks[..n].copy_from_slice(ranks);
        head.sizes[..n].copy_from_slice(sizes);
        let fresh = head.least_count();
        head.counts[..n].fill(fresh);
        Ok(Session { head, k })
    }

    fn judge(&self) -> Result<(), u32> {
        let n = self.sizes.len();
        demand(Order::from_number(self.order).is_some(), 2)?;
        demand(format_ok(self.format), 4)?;
        demand(blocksize_ok(self.blocksize), 5)?;
        demand(self.ranks.len() == n && (1..=MAX_TASKS).contains(&n), 6)?;
        demand(self.prefix.len() <= MAX_PREFIX, 21)?;
        demand(ranks_ok(self.ranks), 8)?;
        demand(sizes_ok(self.sizes), 9)?;
        demand((1..=MAX_CHUNKS).contains(&self.k), 20)
    }
}
