//! Holds why a load was refused, and where.

use crate::{Fault, Refusal};
use std::{error, fmt, io};

/// Why a container was refused: the first test that failed, and where in the image. The place is the number that `xxd -s` takes.
///
/// ```
/// use lapurmihi::{Container, Refusal};
///
/// let bytes = std::fs::read("../../examples/two-tasks.sion")?;
/// let error = Container::from_bytes(bytes[..1050].to_vec()).unwrap_err();
/// assert_eq!((error.refusal, error.fault.place()), (Refusal::ShortMeta1, 1050));
/// let line = "3 SHORT_META1 at byte 1050: the image ends here, and 1076 bytes are needed";
/// assert_eq!(error.to_string(), line);
/// # Ok::<(), std::io::Error>(())
/// ```
#[derive(Clone, Copy, Debug, PartialEq, Eq)]
#[non_exhaustive]
pub struct LoadError {
    /// The first test that failed.
    pub refusal: Refusal,
    /// The first offending field.
    pub fault: Fault,
}

impl fmt::Display for LoadError {
    fn fmt(&self, f: &mut fmt::Formatter<'_>) -> fmt::Result {
        let LoadError { refusal, fault } = self;
        let (number, name, place) = (refusal.number(), refusal.name(), fault.place());
        write!(f, "{number} {name} at byte {place}: {fault}")
    }
}

impl error::Error for LoadError {
    fn source(&self) -> Option<&(dyn error::Error + 'static)> {
        Some(&self.refusal)
    }
}

impl From<LoadError> for Refusal {
    /// The refusal alone, for who asks nothing of the place.
    fn from(error: LoadError) -> Refusal {
        error.refusal
    }
}

impl From<LoadError> for io::Error {
    /// An error of kind `Other` with this one inside.
    fn from(error: LoadError) -> io::Error {
        io::Error::other(error)
    }
}
