//! Holds why the program stops, as it says it and with its exit status.

use crate::page;
use crate::signals::SHORTENED;
use crate::text::{reason, shown};
use lapurmihi::{LoadError, Refusal};
use std::fmt::Display;
use std::io;
use std::path::Path;

/// The exit statuses but for 0.
pub const REFUSED: u8 = 1;
pub const USAGE: u8 = 2;
pub const SYSTEM: u8 = 3;

const EFAULT: i32 = 14;

#[derive(Debug, PartialEq)]
pub enum Failure {
    /// Nothing was asked for; the usage.
    NoCommand(&'static str),
    /// The command line is wrong: the command as it is called, and what is wrong.
    Usage(&'static str, String),
    /// The library refuses a container, or what was asked for.
    Refused(String),
    /// A file or the system fails.
    System(String),
    /// Of several files some failed, and all was told; the status.
    Told(u8),
}

impl Failure {
    /// A container for which the library refuses a call.
    pub fn refused(container: &str, refusal: Refusal) -> Failure {
        let (number, name, sentence) = (refusal.number(), refusal.name(), refusal.sentence());
        Failure::advised(container, format!("{number} {name}, {sentence}"), refusal)
    }

    /// A container that the library refuses to load, and where it is broken.
    pub fn broken(container: &str, error: &LoadError) -> Failure {
        Failure::advised(container, error.to_string(), error.refusal)
    }

    /// Why a container is refused, and what to do.
    fn advised(container: &str, why: String, refusal: Refusal) -> Failure {
        let advice = page::advice(refusal).map(|advice| format!("\n{advice}"));
        Failure::Refused(format!("{container} is refused: {why}{}", advice.unwrap_or_default()))
    }

    /// A file with which something cannot be done.
    pub fn file(what: &str, path: &Path, why: impl Display) -> Failure {
        Failure::System(format!("cannot {what} {}: {why}", shown(path)))
    }

    /// An error of the system with a file or a stream, by its name. The system answers with EFAULT where it finds the end of a mapped file
    /// gone, of which it was to write.
    pub fn system(what: &str, name: &str, error: &io::Error) -> Failure {
        if error.raw_os_error() == Some(EFAULT) {
            return Failure::System(SHORTENED.to_string());
        }
        Failure::System(format!("cannot {what} {name}: {}", reason(error)))
    }

    /// The same failure, with more to tell in a line of its own.
    pub fn and(self, line: String) -> Failure {
        match self {
            Failure::Refused(text) => Failure::Refused(format!("{text}\n{line}")),
            Failure::System(text) => Failure::System(format!("{text}\n{line}")),
            other => other,
        }
    }

    /// What is told on standard error.
    pub fn text(&self) -> String {
        match self {
            Failure::NoCommand(usage) => usage.to_string(),
            Failure::Usage(called, what) => {
                format!("sion: {what}\nsion: '{called} --help' says how it is called\n")
            }
            Failure::Refused(text) | Failure::System(text) => {
                text.lines().map(|line| format!("sion: {line}\n")).collect()
            }
            Failure::Told(_) => String::new(),
        }
    }

    pub fn status(&self) -> u8 {
        match self {
            Failure::Refused(_) => REFUSED,
            Failure::NoCommand(_) | Failure::Usage(..) => USAGE,
            Failure::System(_) => SYSTEM,
            Failure::Told(status) => *status,
        }
    }
}

/// Names the file in an error of the system.
pub trait Named<T> {
    fn named(self, what: &str, path: &Path) -> Result<T, Failure>;
}

impl<T> Named<T> for io::Result<T> {
    fn named(self, what: &str, path: &Path) -> Result<T, Failure> {
        self.map_err(|error| Failure::system(what, &shown(path), &error))
    }
}
