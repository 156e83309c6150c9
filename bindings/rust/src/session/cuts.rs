//! Holds the calls that leave in an image what a power cut leaves, for a program's own tests: they stand behind the feature `cuts`.

use super::{Plan, Session};
use crate::refusal::accepted;
use crate::{raw, Refusal};

impl Plan {
    /// Opens a session as [`open`](Plan::open) does, but leaves in the image what a power cut after `budget` byte stores would leave: it serves
    /// a program's own tests. The answer is that of the whole opening, and so are the session and the table; only the image lacks the
    /// stores after the first `budget`.
    ///
    /// An opening stores 0 into the image's first byte, then the rest up to the first chunk byte by byte, and the `s` of the mark last: one
    /// store more than there are bytes before the first chunk, here 1,536.
    ///
    /// ```
    /// use lapurmihi::{Container, Plan, Refusal, CELLS};
    ///
    /// let plan = Plan::new(512).blocks(3).task(0, 500).task(1, 600);
    /// let needs = plan.needs()?;
    /// for budget in 0..=1538 {
    ///     let (mut image, mut table) = (vec![0; needs.image], vec![0; needs.cells]);
    ///     plan.open_within(&mut image, &mut table, budget)?;
    ///     let found = Container::load(&image, &mut [0; CELLS]).unwrap_err().refusal;
    ///     assert_eq!(found, if budget < 1537 { Refusal::NoMark } else { Refusal::NotClosed });
    /// }
    /// # Ok::<(), Refusal>(())
    /// ```
    pub fn open_within<'a>(
        &self,
        image: &'a mut [u8],
        table: &'a mut [i64],
        budget: u64,
    ) -> Result<Session<'a>, Refusal> {
        let Plan { ranks, sizes, prefix, .. } = self;
        let opened = raw::open_within(self.numbers(), ranks, sizes, prefix, image, table, budget);
        Session::over(opened, image, table)
    }
}

impl Session<'_> {
    /// Writes bytes to a task as [`write`](Session::write) does, but leaves in the image what a power cut after `budget` byte stores would
    /// leave, just the first `budget` of the bytes: it serves a program's own tests. The answer is that of the whole write, and the session
    /// counts all of the bytes as written.
    ///
    /// ```
    /// use lapurmihi::{Container, Plan, Refusal, CELLS};
    ///
    /// let plan = Plan::new(512).task(0, 500);
    /// let needs = plan.needs()?;
    /// let (mut image, mut table) = (vec![0; needs.image], vec![0; needs.cells]);
    /// plan.open(&mut image, &mut table)?.write_within(1, b"Lindau 05:12", 6)?;
    /// assert_eq!(image[1536..1548], *b"Lindau\0\0\0\0\0\0");
    /// let found = Container::load(&image, &mut [0; CELLS]).unwrap_err();
    /// assert_eq!(found.refusal, Refusal::NotClosed); // as with any other budget
    /// # Ok::<(), Refusal>(())
    /// ```
    pub fn write_within(&mut self, task: u64, bytes: &[u8], budget: u64) -> Result<(), Refusal> {
        let before = self.chunks_begun(task);
        let Session { record, image, table, .. } = self;
        let refusal = raw::write_within(record, image, table, task, bytes, budget);
        self.noted(refusal, task, bytes, before)
    }

    /// Closes the session as [`close`](Session::close) does, but leaves in the image what a power cut after `budget` byte stores would leave:
    /// it serves a program's own tests. The answer is that of the whole close: what is handed back is the image as far as the container
    /// reaches, as it is found.
    ///
    /// The session stays open, so that a test can close it again over what is found, which gives the whole container. What was stored stays
    /// too: over one image, try budgets from the smallest to the greatest. A close stores META2, then the 4 bytes of maxchunks, then the
    /// 8 bytes of start_of_varheader, here 16, 4 and 8.
    ///
    /// ```
    /// use lapurmihi::{Container, Plan, Refusal, CELLS};
    ///
    /// let plan = Plan::new(512).task(0, 500);
    /// let needs = plan.needs()?;
    /// let (mut image, mut table) = (vec![0; needs.image], vec![0; needs.cells]);
    /// let mut session = plan.open(&mut image, &mut table)?;
    /// session.write(1, b"Lindau 05:12")?;
    /// for budget in 0..=29 {
    ///     match Container::load(session.close_within(budget)?, &mut [0; CELLS]) {
    ///         Ok(container) => assert_eq!(container.task(1)?.chunk(1)?, b"Lindau 05:12"),
    ///         Err(error) if error.refusal == Refusal::NotClosed => {}
    ///         Err(error) => assert_eq!(error.refusal, Refusal::BadMeta2Place),
    ///     }
    /// }
    /// assert_eq!(session.close()?.len(), 2064);
    /// # Ok::<(), Refusal>(())
    /// ```
    pub fn close_within(&mut self, budget: u64) -> Result<&[u8], Refusal> {
        let mut record = self.record;
        let closed = raw::close_within(&mut record, self.image, self.table, budget);
        accepted(closed.refusal)?;
        Ok(&self.image[..closed.length as usize])
    }
}
