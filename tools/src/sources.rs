//! Holds the files that are put into a container: their ranks, and the reading of them.

use crate::args::digits;
use crate::failure::{Failure, Named};
use crate::files::Source;
use crate::input::PIECE;
use crate::progress::Progress;
use crate::text::shown;
use std::ffi::{OsStr, OsString};
use std::fs::{self, File, Metadata};
use std::io::{ErrorKind, Read};
use std::os::unix::ffi::OsStrExt;
use std::os::unix::fs::MetadataExt;
use std::path::{Path, PathBuf};

const CHANGED: &str = "it changed while it was stored";

/// A file that is to be stored, with the bytes that it had when the container was planned.
pub struct Input {
    /// The file, under the word of the command line for it.
    pub source: Source,
    pub rank: u64,
    pub length: u64,
    path: PathBuf,
    changed: [i64; 4],
}

/// When a file was changed last, its bytes and what the system keeps of it.
fn changed(about: &Metadata) -> [i64; 4] {
    [about.mtime(), about.mtime_nsec(), about.ctime(), about.ctime_nsec()]
}

/// The files that words of the command line name, each with its rank: all of them say it, or none does.
pub fn inputs(
    words: &[OsString],
    wrong: impl Fn(String) -> Failure,
) -> Result<Vec<Input>, Failure> {
    let files: Vec<(Option<u64>, &Path)> = words.iter().map(|word| ranked(word)).collect();
    let of = |known| words.iter().zip(&files).find(|(_, (rank, _))| rank.is_some() == known);
    if let (Some((plain, _)), Some((known, _))) = (of(false), of(true)) {
        let (plain, known) = (shown(plain), shown(known));
        let what =
            format!("{known} says its rank and {plain} does not; give it one by RANK={plain}");
        return Err(wrong(what));
    }
    if words.iter().any(|word| word == "-") {
        return Err(wrong("files are stored by their names, not from standard input".to_string()));
    }
    let ranked = (0..).zip(words).zip(files);
    ranked.map(|((at, word), (rank, path))| Input::new(word, rank.unwrap_or(at), path)).collect()
}

/// The rank that a word gives its file, if it does, and the file: RANK=FILE, or a name that `extract` makes.
fn ranked(word: &OsStr) -> (Option<u64>, &Path) {
    let bytes = word.as_bytes();
    let mut parts = bytes.splitn(2, |&byte| byte == b'=');
    if let (Some(rank), Some(file)) = (parts.next().and_then(digits), parts.next()) {
        return (Some(rank), Path::new(OsStr::from_bytes(file)));
    }
    let path = Path::new(word);
    let name = path.file_name().map_or(&b""[..], OsStr::as_bytes);
    (name.strip_prefix(b"rank-").and_then(digits), path)
}

impl Input {
    fn new(word: &OsStr, rank: u64, path: &Path) -> Result<Input, Failure> {
        let about = fs::metadata(path).named("read", path)?;
        if !about.is_file() {
            return Err(Failure::file("store", path, "it is no regular file"));
        }
        let (source, length) = (Source::new(shown(word), &about), about.len());
        Ok(Input { source, rank, length, path: path.to_path_buf(), changed: changed(&about) })
    }

    /// Hands the file on in requests that end where a chunk does.
    pub fn read(
        &self,
        chunk_size: u64,
        progress: &mut Progress,
        mut write: impl FnMut(&[u8]) -> Result<(), Failure>,
    ) -> Result<(), Failure> {
        let mut file = File::open(&self.path).named("read", &self.path)?;
        let mut buffer = vec![0; self.length.min(chunk_size).min(PIECE as u64) as usize];
        let mut done = 0;
        while done < self.length {
            let left = (chunk_size - done % chunk_size).min(self.length - done);
            let request = &mut buffer[..left.min(PIECE as u64) as usize];
            file.read_exact(request).map_err(|error| self.unread(error))?;
            write(request)?;
            progress.bytes(request.len());
            done += request.len() as u64;
        }
        let more = file.read(&mut [0]).named("read", &self.path)?;
        let about = file.metadata().named("read", &self.path)?;
        if more > 0 || !self.source.is(&about) || changed(&about) != self.changed {
            return Err(Failure::file("store", &self.path, CHANGED));
        }
        Ok(())
    }

    fn unread(&self, error: std::io::Error) -> Failure {
        match error.kind() {
            ErrorKind::UnexpectedEof => Failure::file("store", &self.path, CHANGED),
            _ => Failure::system("read", &shown(&self.path), &error),
        }
    }

    /// A file that is not there, for tests of what is planned.
    #[cfg(test)]
    pub fn of(name: &str, rank: u64, length: u64) -> Input {
        let source = Source { name: name.to_string(), identity: (0, 0) };
        Input { source, rank, length, path: PathBuf::new(), changed: [0; 4] }
    }
}

#[cfg(test)]
mod tests {
    use super::*;

    #[test]
    fn words_say_ranks() {
        for (word, rank, file) in [
            ("5=x", Some(5), "x"),
            ("007=a=b", Some(7), "a=b"),
            ("5=rank-9", Some(5), "rank-9"),
            ("99999999999999999999=x", Some(u64::MAX), "x"),
            ("rank-0000000010", Some(10), "rank-0000000010"),
            ("out/rank-3", Some(3), "out/rank-3"),
            ("./5=x", None, "./5=x"),
            ("=x", None, "=x"),
            ("5", None, "5"),
            ("a5=x", None, "a5=x"),
            ("-5=x", None, "-5=x"),
            ("rank-", None, "rank-"),
            ("rank-3.txt", None, "rank-3.txt"),
            ("my-rank-3", None, "my-rank-3"),
            ("rank-3/x", None, "rank-3/x"),
        ] {
            assert_eq!(ranked(OsStr::new(word)), (rank, Path::new(file)), "{word}");
        }
    }

    #[test]
    fn some_with_and_some_without_a_rank_are_wrong() {
        let words = ["a", "7=b", "rank-3"].map(OsString::from);
        let told = |what| Failure::Usage("sion create", what);
        let wanted = "7=b says its rank and a does not; give it one by RANK=a".to_string();
        assert_eq!(inputs(&words, told).err(), Some(told(wanted)));
    }
}
