//! Holds how far long work is, told on standard error where that is a terminal.

use std::io::{stderr, IsTerminal, Write};
use std::time::{Duration, Instant};

/// The least time between two lines, and before the first: short work tells nothing.
const PAUSE: Duration = Duration::from_millis(200);

/// Files and bytes done, of so many. A number that is not known beforehand is 0.
pub struct Progress {
    done: &'static str,
    files: (usize, usize),
    bytes: (u64, u64),
    terminal: bool,
    last: Instant,
    told: bool,
}

impl Progress {
    /// Work that is not begun, with the word for what is done.
    pub fn new(done: &'static str, files: usize, bytes: u64) -> Progress {
        let dumb = std::env::var_os("TERM").is_some_and(|term| term == "dumb");
        let (terminal, last) = (stderr().is_terminal() && !dumb, Instant::now());
        Progress { done, files: (0, files), bytes: (0, bytes), terminal, last, told: false }
    }

    /// The same work, told only where what it prints does not go to the terminal too.
    pub fn beside_output(self) -> Progress {
        Progress { terminal: self.terminal && !std::io::stdout().is_terminal(), ..self }
    }

    pub fn bytes(&mut self, more: usize) {
        self.bytes.0 += more as u64;
        self.tell();
    }

    pub fn file(&mut self) {
        self.files.0 += 1;
        self.tell();
    }

    fn tell(&mut self) {
        if self.terminal && self.last.elapsed() >= PAUSE {
            (self.last, self.told) = (Instant::now(), true);
            rewrite(&self.line());
        }
    }

    fn line(&self) -> String {
        let counts = [
            (self.files.0 as u64, self.files.1 as u64, "files"),
            (self.bytes.0, self.bytes.1, "bytes"),
        ];
        let counts = counts.into_iter().filter(|&(done, all, _)| (done, all) != (0, 0));
        let counts = counts.map(|(done, all, what)| match all {
            0 => format!("{done} {what}"),
            _ => format!("{done} of {all} {what}"),
        });
        format!("{} {}", self.done, counts.collect::<Vec<_>>().join(", "))
    }

    /// Takes the line away, so that something else can be told.
    pub fn clear(&mut self) {
        if std::mem::take(&mut self.told) {
            rewrite("");
        }
    }
}

impl Drop for Progress {
    fn drop(&mut self) {
        self.clear();
    }
}

/// Puts a text in place of the terminal's line. Work goes on where that fails.
fn rewrite(text: &str) {
    let _ = write!(stderr(), "\r{text}\x1b[K");
}

#[cfg(test)]
mod tests {
    use super::*;

    #[test]
    fn the_line_counts_files_and_bytes() {
        let mut progress = Progress::new("stored", 3, 1000);
        progress.bytes(400);
        progress.bytes(100);
        progress.file();
        assert_eq!(progress.line(), "stored 1 of 3 files, 500 of 1000 bytes");
    }

    #[test]
    fn what_is_not_known_is_not_told() {
        let mut progress = Progress::new("read", 0, 0);
        progress.bytes(7);
        assert_eq!(progress.line(), "read 7 bytes");
        let mut progress = Progress::new("checked", 9, 0);
        progress.file();
        assert_eq!(progress.line(), "checked 1 of 9 files");
    }
}
