//! Holds why a pair was refused or could not be opened, and in which of its two files.

use crate::{LoadError, OpenError, Refusal};
use std::{error, fmt, io};

/// An error of one of a pair's two physical files.
///
/// ```
/// use lapurmihi::{Pair, Refusal};
///
/// let single = std::fs::read("../../examples/two-tasks.sion")?;
/// let error = Pair::from_bytes([single.clone(), single]).unwrap_err();
/// assert_eq!((error.file, error.error.refusal), (0, Refusal::BadFiles));
/// let line = "file 0: 7 BAD_FILES at byte 28: nfiles says 1, and 2 is asked for";
/// assert_eq!(error.to_string(), line);
/// # Ok::<(), std::io::Error>(())
/// ```
#[derive(Clone, Copy, Debug, PartialEq, Eq)]
pub struct InFile<E> {
    /// Which one, 0 or 1.
    pub file: usize,
    /// What is wrong with it.
    pub error: E,
}

impl<E: fmt::Display> fmt::Display for InFile<E> {
    fn fmt(&self, f: &mut fmt::Formatter<'_>) -> fmt::Result {
        write!(f, "file {}: {}", self.file, self.error)
    }
}

impl<E: error::Error + 'static> error::Error for InFile<E> {
    fn source(&self) -> Option<&(dyn error::Error + 'static)> {
        Some(&self.error)
    }
}

impl From<InFile<LoadError>> for InFile<OpenError> {
    fn from(error: InFile<LoadError>) -> InFile<OpenError> {
        InFile { file: error.file, error: error.error.into() }
    }
}

impl From<InFile<LoadError>> for Refusal {
    /// The refusal alone, for who asks nothing of the file and the place.
    fn from(error: InFile<LoadError>) -> Refusal {
        error.error.refusal
    }
}

impl From<InFile<LoadError>> for io::Error {
    /// An error of kind `Other` with this one inside.
    fn from(error: InFile<LoadError>) -> io::Error {
        io::Error::other(error)
    }
}

impl From<InFile<OpenError>> for io::Error {
    /// An error of the kind that the file's own error has, with this one inside.
    fn from(error: InFile<OpenError>) -> io::Error {
        let kind = match &error.error {
            OpenError::File(error) => error.kind(),
            OpenError::Refused(_) => io::ErrorKind::Other,
        };
        io::Error::new(kind, error)
    }
}
