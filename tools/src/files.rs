//! Holds the making of files, each whole or not at all, and never over one that may not be replaced.

use crate::failure::{Failure, Named};
use crate::input::PIECE;
use crate::progress::Progress;
use crate::signals::remove_on_signal;
use crate::system::rename_to_new;
use crate::text::{reason, shown};
use std::fs::{self, File, Metadata, Permissions};
use std::hash::{BuildHasher, Hasher, RandomState};
use std::io::ErrorKind;
use std::os::unix::fs::{FileExt, MetadataExt, OpenOptionsExt, PermissionsExt};
use std::path::{Path, PathBuf};

/// What the system takes for the least part of a file that need not be stored.
const PAGE: usize = 4096;

/// The mode of a new file, from which the system takes what the user wants kept, and that of one which replaces another, until it is whole.
const PUBLIC: u32 = 0o666;
const PRIVATE: u32 = 0o600;

/// What is done with a folder.
const STORE: &str = "store the names in";

/// How often another temporary name is tried. That a name is taken is next to impossible.
const TRIES: usize = 16;

/// A file that is read for the work, and that it must not replace: its name, its device and its number there.
pub struct Source {
    pub name: String,
    pub identity: (u64, u64),
}

impl Source {
    pub fn new(name: String, about: &Metadata) -> Source {
        Source { name, identity: (about.dev(), about.ino()) }
    }

    pub fn is(&self, about: &Metadata) -> bool {
        self.identity == (about.dev(), about.ino())
    }
}

/// A place for a file: where nothing stands, or with `force` a regular file that is none of the sources.
pub struct Place<'a> {
    pub path: &'a Path,
    pub force: bool,
    pub sources: &'a [&'a Source],
}

impl Place<'_> {
    /// Passes where a file may be put, and gives what it is to replace.
    pub fn free(&self) -> Result<Option<Metadata>, Failure> {
        let about = match fs::symlink_metadata(self.path) {
            Err(error) if error.kind() == ErrorKind::NotFound => return Ok(None),
            about => about.named("create", self.path)?,
        };
        if about.is_symlink() {
            let why = "it is a symbolic link; name the file that it leads to";
            return Err(Failure::file("create", self.path, why));
        }
        if let Some(source) = self.sources.iter().find(|source| source.is(&about)) {
            let why = format!("it is the file {}, which is read for it", source.name);
            return Err(Failure::file("create", self.path, why));
        }
        match (about.is_file(), self.force) {
            (true, true) => Ok(Some(about)),
            (true, false) => Err(self.exists()),
            (false, _) => {
                Err(Failure::file("create", self.path, "it exists and is no regular file"))
            }
        }
    }

    fn exists(&self) -> Failure {
        Failure::file("create", self.path, "it exists; --force replaces it")
    }

    /// Makes the file under a temporary name beside it, which takes its place once it is complete and stored. A file that is replaced hands
    /// on its mode.
    pub fn make(&self, fill: impl FnOnce(&File) -> Result<(), Failure>) -> Result<Names, Failure> {
        let old = self.free()?;
        let mode = if old.is_some() { PRIVATE } else { PUBLIC };
        let random = || RandomState::new().build_hasher().finish();
        let (part, file) = temporary(self.path, mode, random)?;
        let mode = |old: Metadata| Permissions::from_mode(old.mode() & 0o777);
        let keep_mode = || old.map_or(Ok(()), |old| file.set_permissions(mode(old)));
        let made = Names::of(folder(self.path)).and_then(|names| {
            fill(&file)?;
            keep_mode().named("write", self.path)?;
            file.sync_all().named("write", self.path)?;
            self.put(&part).map(|()| names)
        });
        let made = made.map_err(|failure| removed(&part, failure));
        remove_on_signal(None);
        made
    }

    /// Gives the finished file its name.
    fn put(&self, part: &Path) -> Result<(), Failure> {
        if self.force {
            self.free()?;
            return fs::rename(part, self.path).named("create", self.path);
        }
        rename_to_new(part, self.path).map_err(|error| match error.kind() {
            ErrorKind::AlreadyExists => self.exists(),
            _ => Failure::system("create", &shown(self.path), &error),
        })
    }
}

/// A new file beside a path, under a name that nobody knows beforehand. A signal that ends the program removes it.
fn temporary(
    path: &Path,
    mode: u32,
    mut random: impl FnMut() -> u64,
) -> Result<(PathBuf, File), Failure> {
    path.file_name().ok_or_else(|| Failure::file("create", path, "it names no file"))?;
    for _ in 0..TRIES {
        let part = path.with_file_name(format!(".sion-{:016x}.part", random()));
        // Named to the handler first, the file is never there without being known.
        remove_on_signal(Some(&part));
        match File::options().write(true).create_new(true).mode(mode).open(&part) {
            Ok(file) => return Ok((part, file)),
            Err(error) if error.kind() == ErrorKind::AlreadyExists => {}
            Err(error) => {
                remove_on_signal(None);
                return Err(Failure::system("create", &shown(path), &error));
            }
        }
    }
    remove_on_signal(None);
    Err(Failure::file("create", path, "every temporary name beside it is taken"))
}

/// A failure after which the temporary file is gone, or is told.
fn removed(part: &Path, failure: Failure) -> Failure {
    match fs::remove_file(part) {
        Err(error) if error.kind() != ErrorKind::NotFound => {
            let (part, why) = (shown(part), reason(&error));
            failure.and(format!("the temporary file {part} cannot be removed: {why}"))
        }
        _ => failure,
    }
}

/// The folder in which a path stands.
pub fn folder(path: &Path) -> &Path {
    match path.parent() {
        Some(folder) if folder != Path::new("") => folder,
        _ => Path::new("."),
    }
}

/// The names of a folder's files, which are stored once a file was put there, so that it is there after a loss of power too.
pub struct Names {
    folder: File,
    name: String,
}

impl Names {
    /// Opens the folder, before anything is put there.
    pub fn of(folder: &Path) -> Result<Names, Failure> {
        let opened = File::open(folder).named(STORE, folder)?;
        Ok(Names { folder: opened, name: shown(folder) })
    }

    pub fn store(&self) -> Result<(), Failure> {
        self.folder.sync_all().map_err(|error| {
            let stands = "what was made is there, but a loss of power may undo it";
            Failure::system(STORE, &self.name, &error).and(stands.to_string())
        })
    }
}

/// A new file that is written from its start on, with holes in place of pages that are zeros alone.
pub struct Sparse<'a> {
    file: &'a File,
    path: &'a Path,
    length: u64,
}

impl<'a> Sparse<'a> {
    pub fn new(file: &'a File, path: &'a Path) -> Sparse<'a> {
        Sparse { file, path, length: 0 }
    }

    /// Adds bytes, and tells how far it is.
    pub fn put(&mut self, bytes: &[u8], progress: &mut Progress) -> Result<(), Failure> {
        for piece in bytes.chunks(PIECE) {
            self.piece(piece)?;
            self.length += piece.len() as u64;
            progress.bytes(piece.len());
        }
        Ok(())
    }

    /// Writes what stands between the pages of zeros.
    fn piece(&self, piece: &[u8]) -> Result<(), Failure> {
        let (mut start, mut end) = (0, 0);
        while end < piece.len() {
            let page = end..piece.len().min(end + self.to_next_page(end));
            end = page.end;
            if is_zero(&piece[page.clone()]) {
                self.write(start, &piece[start..page.start])?;
                start = end;
            }
        }
        self.write(start, &piece[start..])
    }

    /// The bytes from a place behind those written to the next page of the file.
    fn to_next_page(&self, place: usize) -> usize {
        PAGE - (self.length as usize).wrapping_add(place) % PAGE
    }

    fn write(&self, place: usize, bytes: &[u8]) -> Result<(), Failure> {
        let written = self.file.write_all_at(bytes, self.length + place as u64);
        written.named("write", self.path)
    }

    /// Gives the file its length, also where it ends in a hole.
    pub fn end(self) -> Result<(), Failure> {
        self.file.set_len(self.length).named("write", self.path)
    }
}

/// Whether at most a page of bytes is zeros alone.
fn is_zero(bytes: &[u8]) -> bool {
    static ZEROS: [u8; PAGE] = [0; PAGE];
    bytes == &ZEROS[..bytes.len()]
}

#[cfg(test)]
pub mod tests {
    use super::*;

    /// A folder that is removed in the end.
    pub struct Scratch(pub PathBuf);

    impl Scratch {
        pub fn new(name: &str) -> Scratch {
            let path = std::env::temp_dir().join(format!("sion-{name}-{}", std::process::id()));
            fs::create_dir(&path).unwrap();
            Scratch(path)
        }
    }

    impl Drop for Scratch {
        fn drop(&mut self) {
            let _ = fs::remove_dir_all(&self.0);
        }
    }

    #[test]
    fn a_temporary_name_that_is_taken_is_passed_over() {
        let scratch = Scratch::new("temporary");
        let taken = scratch.0.join(".sion-0000000000000007.part");
        fs::write(&taken, "another run's").unwrap();
        let mut names = [7, 7, 0xabc].into_iter();
        let (part, _) =
            temporary(&scratch.0.join("new"), PUBLIC, || names.next().unwrap()).unwrap();
        assert_eq!(part, scratch.0.join(".sion-0000000000000abc.part"));
        assert_eq!(fs::read_to_string(&taken).unwrap(), "another run's");
        assert!(temporary(&scratch.0.join("new"), PUBLIC, || 7).is_err());
        assert!(
            temporary(Path::new("/"), PUBLIC, || 7).is_err()
                && temporary(Path::new(".."), PUBLIC, || 7).is_err()
        );
        remove_on_signal(None);
    }

    #[test]
    fn temporary_names_differ() {
        let scratch = Scratch::new("random");
        let place = Place { path: &scratch.0.join("new"), force: true, sources: &[] };
        let names = || fs::read_dir(&scratch.0).unwrap().map(|entry| entry.unwrap().file_name());
        let mut seen = std::collections::HashSet::new();
        for _ in 0..20 {
            place
                .make(|_| {
                    let part = names().find(|name| name.as_encoded_bytes().ends_with(b".part"));
                    assert!(seen.insert(part.expect("a temporary file")));
                    Ok(())
                })
                .unwrap();
        }
        assert_eq!(names().collect::<Vec<_>>(), ["new"]);
    }

    #[test]
    fn every_byte_is_written_around_the_holes() {
        let scratch = Scratch::new("sparse");
        let path = scratch.0.join("sparse");
        let mut all = vec![0; 5 * PAGE + 100];
        for place in [0, PAGE + 7, 2 * PAGE, 3 * PAGE - 1] {
            all[place] = 1;
        }
        for cut in [1, 7, PAGE - 1, PAGE, PAGE + 1, 2 * PAGE + 3, all.len()] {
            let file = File::create(&path).unwrap();
            let mut sparse = Sparse::new(&file, &path);
            for part in all.chunks(cut) {
                sparse.put(part, &mut Progress::new("written", 0, 0)).unwrap();
            }
            sparse.end().unwrap();
            assert!(fs::read(&path).unwrap() == all, "parts of {cut} bytes");
        }
    }

    #[test]
    fn a_path_has_a_folder() {
        for (path, wanted) in [("a", "."), ("a/b", "a"), ("/a", "/"), ("./a", "."), ("/", ".")] {
            assert_eq!(folder(Path::new(path)), Path::new(wanted));
        }
    }
}
