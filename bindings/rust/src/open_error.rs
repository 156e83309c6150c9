//! Holds why a container's file could not be opened.

use crate::LoadError;
use std::{error, fmt, io};

/// Why a container's file could not be opened: the file could not be read, or what it holds was refused. This, a [`LoadError`] and a
/// [`Refusal`](crate::Refusal) all become an [`io::Error`] by `?`.
///
/// ```
/// use lapurmihi::{Container, OpenError, Refusal};
///
/// match Container::open("Cargo.toml") {
///     Err(OpenError::Refused(error)) => assert_eq!(error.refusal, Refusal::NoMark),
///     Err(OpenError::File(error)) => panic!("the file cannot be read: {error}"),
///     Ok(container) => println!("{} tasks", container.tasks().len()),
/// }
/// ```
#[derive(Debug)]
pub enum OpenError {
    /// The file could not be read.
    File(io::Error),
    /// Its bytes were refused, with a number and a place.
    Refused(LoadError),
}

impl fmt::Display for OpenError {
    fn fmt(&self, f: &mut fmt::Formatter<'_>) -> fmt::Result {
        match self {
            OpenError::File(error) => write!(f, "the file cannot be read: {error}"),
            OpenError::Refused(error) => write!(f, "the container is refused: {error}"),
        }
    }
}

impl error::Error for OpenError {
    fn source(&self) -> Option<&(dyn error::Error + 'static)> {
        match self {
            OpenError::File(error) => Some(error),
            OpenError::Refused(error) => Some(error),
        }
    }
}

impl From<io::Error> for OpenError {
    fn from(error: io::Error) -> OpenError {
        OpenError::File(error)
    }
}

impl From<LoadError> for OpenError {
    fn from(error: LoadError) -> OpenError {
        OpenError::Refused(error)
    }
}

impl From<OpenError> for io::Error {
    /// The file's error itself, or one of kind `Other` with the [`LoadError`] inside.
    fn from(error: OpenError) -> io::Error {
        match error {
            OpenError::File(error) => error,
            OpenError::Refused(error) => error.into(),
        }
    }
}
