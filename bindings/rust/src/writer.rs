//! Holds a task of a session, or of a pair's sessions, as something to write to for `std::io`.

use crate::{Refusal, Session};
use std::fmt;
use std::io::{self, ErrorKind, Write};

/// What takes requests for tasks, each by a number: a session by its task's, a pair's sessions by its rank.
pub(crate) trait Requests: fmt::Debug {
    /// Stores bytes, whole or not at all.
    fn request(&mut self, task: u64, bytes: &[u8]) -> Result<(), Refusal>;

    /// The most bytes that a chunk of the task holds.
    fn holds(&self, task: u64) -> Result<u64, Refusal>;

    /// The bytes in its chunk in use; without one, 0.
    fn filled(&self, task: u64) -> Result<u64, Refusal>;
}

/// A task of an open session to write a stream to, with `write!`, [`io::copy`] and all else that takes a [`Write`].
///
/// A request to the library is never split; a stream has no requests, so the writer cuts what it is given where a chunk ends, and fills each
/// chunk to its end. A task takes its chunk size times the planned blocks in this way, to the last byte. What has to be stored whole or not
/// at all, such as a line that is read chunk by chunk, goes to [`Session::write`]; both may be used by turns.
///
/// No byte is lost without a word: nothing is held back, so [`flush`](Write::flush) has nothing to do, and [`stored`](Writer::stored) says
/// how many bytes of all that was given are in the container, also after a `write_all`, `write!` or `io::copy` that failed midway. Three things
/// follow for who goes on after a failure:
///
/// - the bytes before `stored` stay in the container, and cannot be taken back;
/// - `io::copy` has taken more from its reader than was stored: what is missing begins as many bytes as were stored behind the reader's
///   first place;
/// - a [`BufWriter`](io::BufWriter) holds bytes back, and drops its last error: end with its `into_inner`.
///
/// Where the task has no chunk left, the error is of the kind [`StorageFull`](ErrorKind::StorageFull), with the
/// [`Refusal`](crate::Refusal) inside.
///
/// ```
/// use lapurmihi::{Container, Plan, Refusal, CELLS};
/// use std::io::{ErrorKind, Write};
///
/// let plan = Plan::new(512).blocks(2).task(0, 500); // two chunks, which hold 512 bytes each
/// let needs = plan.needs()?;
/// let (mut image, mut table) = (vec![0; needs.image], vec![0; needs.cells]);
/// let mut session = plan.open(&mut image, &mut table)?;
///
/// let mut writer = session.writer(1)?;
/// write!(writer, "{:1000}", "to Lindau:")?; // 1000 bytes, 512 of them in the first chunk
/// let error = writer.write_all(b"05:12, 05:40, 06:12, 06:40").unwrap_err();
/// assert_eq!(error.kind(), ErrorKind::StorageFull);
/// assert_eq!(error.downcast::<Refusal>()?, Refusal::NoChunkLeft);
/// assert_eq!(writer.stored(), 1024); // 24 bytes of the second text
///
/// let mut table = [0; CELLS];
/// let container = Container::load(session.close()?, &mut table)?;
/// let text = std::io::read_to_string(container.task(1)?.stream())?;
/// assert!(text.ends_with("05:12, 05:40, 06:12, 06:"));
/// # Ok::<(), Box<dyn std::error::Error>>(())
/// ```
#[derive(Debug)]
pub struct Writer<'s, 'a> {
    session: &'s mut (dyn Requests + 'a),
    task: u64,
    stored: u64,
}

impl<'a> Session<'a> {
    /// A task, counted from 1, to write a stream to.
    pub fn writer(&mut self, task: u64) -> Result<Writer<'_, 'a>, Refusal> {
        Writer::over(self, task)
    }
}

impl<'s, 'a> Writer<'s, 'a> {
    /// A writer to a task that is there.
    pub(crate) fn over(
        session: &'s mut (dyn Requests + 'a),
        task: u64,
    ) -> Result<Writer<'s, 'a>, Refusal> {
        session.holds(task)?;
        Ok(Writer { session, task, stored: 0 })
    }

    /// The bytes that this writer has stored.
    pub fn stored(&self) -> u64 {
        self.stored
    }

    /// The most bytes that go into one chunk now: the rest of the one in use or, where that is full, the next one.
    fn room(&self) -> Result<u64, Refusal> {
        let size = self.session.holds(self.task)?;
        let rest = size - self.session.filled(self.task)?;
        Ok(if rest > 0 { rest } else { size })
    }
}

impl Write for Writer<'_, '_> {
    /// Stores as many of the bytes as the chunk in use or the next one has room for, and says how many.
    fn write(&mut self, bytes: &[u8]) -> io::Result<usize> {
        let room = usize::try_from(self.room()?).unwrap_or(usize::MAX);
        let bytes = &bytes[..room.min(bytes.len())];
        self.session.request(self.task, bytes).map_err(|refusal| match refusal {
            Refusal::NoChunkLeft => io::Error::new(ErrorKind::StorageFull, refusal),
            _ => refusal.into(),
        })?;
        self.stored += bytes.len() as u64;
        Ok(bytes.len())
    }

    fn flush(&mut self) -> io::Result<()> {
        Ok(())
    }
}
