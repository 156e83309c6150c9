//! Holds a loaded pair, a container in two physical files, and its files.

use crate::memory::{Image, Table};
use crate::refusal::accepted;
use crate::task::{Task, READABLE};
use crate::{raw, ByteOrder, Fault, Format, InFile, LoadError, OpenError, Refusal, CELLS};
use std::ffi::OsString;
use std::fmt;
use std::fs::File;
use std::path::{Path, PathBuf};

/// A container in two physical files, whose structure was checked: both files and the mapping in the first. Its tasks are named by their
/// global ranks, which are 0, 1 and so on over both files.
///
/// ```
/// use lapurmihi::{Pair, PairPlan, Plan, Refusal, CELLS};
///
/// let first = Plan::new(512).blocks(3).task(2, 500).task(0, 600);
/// let plan = PairPlan::new(first, Plan::new(512).blocks(2).task(1, 20));
/// let [one, two] = plan.needs()?;
/// let (mut image0, mut image1) = (vec![0; one.image], vec![0; two.image]);
/// let (mut table0, mut table1) = (vec![0; one.cells], vec![0; two.cells]);
/// let mut session = plan.open([&mut image0, &mut image1], [&mut table0, &mut table1])?;
/// session.write(1, b"Lindau 05:12")?;
/// session.write(2, b"Ulm 05:40")?;
/// let files = session.close()?; // two files, which belong together
///
/// let (mut table0, mut table1) = ([0; CELLS], [0; CELLS]);
/// let pair = Pair::load(files, [&mut table0, &mut table1])?;
/// let totals: Vec<u64> = pair.tasks().map(|task| task.total()).collect();
/// assert_eq!(totals, [0, 12, 9]);
/// assert_eq!((pair.task(1)?.file(), pair.task(1)?.chunk(1)?), (1, &b"Lindau 05:12"[..]));
/// assert_eq!(pair.task(3).err(), Some(Refusal::NoTask));
/// # Ok::<(), Refusal>(())
/// ```
pub struct Pair<'a> {
    pub(crate) records: [raw::Loaded; 2],
    pub(crate) images: [Image<'a>; 2],
    tables: [Table<'a>; 2],
    /// The file and the index there of each rank's task.
    places: Vec<(usize, usize)>,
}

impl Pair<'static> {
    /// The name of a pair's second file, given that of its first: a number is appended.
    pub fn second_name(first: impl AsRef<Path>) -> PathBuf {
        let mut name: OsString = first.as_ref().as_os_str().to_os_string();
        name.push(".000001");
        name.into()
    }

    /// Opens and checks both files of a pair, given the first one's path: the second one is [`second_name`](Pair::second_name). They are mapped
    /// as by [`Container::open`](crate::Container::open). What is wrong with the first comes before a second that is not there.
    pub fn open(first: impl AsRef<Path>) -> Result<Pair<'static>, InFile<OpenError>> {
        let opened = |path: &Path| File::open(path).and_then(|opened| Image::of(&opened));
        let in_file = |file| move |error| InFile { file, error: OpenError::File(error) };
        let image0 = opened(first.as_ref()).map_err(in_file(0))?;
        match opened(&Pair::second_name(&first)) {
            Ok(image1) => Ok(Pair::owned([image0, image1])?),
            Err(missing) => match Pair::owned([image0, Image::Owned(vec![])]) {
                Err(broken) if broken.file == 0 => Err(broken.into()),
                _ => Err(in_file(1)(missing)),
            },
        }
    }

    /// Checks both files of a pair in bytes that it keeps.
    pub fn from_bytes(files: [Vec<u8>; 2]) -> Result<Pair<'static>, InFile<LoadError>> {
        Pair::owned(files.map(Image::Owned))
    }

    /// A pair over images of its own, with tables that are long enough for each.
    fn owned(images: [Image<'static>; 2]) -> Result<Pair<'static>, InFile<LoadError>> {
        let (mut table0, mut table1) = (vec![0; CELLS], vec![0; CELLS]);
        let records = loaded([&images[0], &images[1]], [&mut table0, &mut table1])?;
        Ok(Pair::over(records, images, [Table::Owned(table0), Table::Owned(table1)]))
    }
}

/// The records of an accepted load, or where it broke off, and in which file.
fn loaded(
    images: [&[u8]; 2],
    tables: [&mut [i64]; 2],
) -> Result<[raw::Loaded; 2], InFile<LoadError>> {
    let answer = raw::pair::load(images, tables);
    match accepted(answer.refusal) {
        Ok(()) => Ok([answer.loaded0, answer.loaded1]),
        Err(refusal) => {
            let error = LoadError { refusal, fault: Fault::new(answer.fault) };
            Err(InFile { file: answer.file as usize, error })
        }
    }
}

impl<'a> Pair<'a> {
    /// Checks both files of a pair over lent memory, whatever their bytes are. Tables of [`CELLS`](crate::CELLS) cells are long enough for
    /// each.
    pub fn load(
        images: [&'a [u8]; 2],
        tables: [&'a mut [i64]; 2],
    ) -> Result<Pair<'a>, InFile<LoadError>> {
        let [table0, table1] = tables;
        let records = loaded(images, [table0, table1])?;
        Ok(Pair::over(records, images.map(Image::Lent), [Table::Lent(table0), Table::Lent(table1)]))
    }

    /// The pair of an accepted load: each rank is carried by one task.
    fn over(records: [raw::Loaded; 2], images: [Image<'a>; 2], tables: [Table<'a>; 2]) -> Pair<'a> {
        let all = records.iter().enumerate().flat_map(|(file, record)| {
            (0..record.numbers.n as usize).map(move |index| (record.ranks[index], (file, index)))
        });
        let mut by_rank: Vec<_> = all.collect();
        by_rank.sort_unstable();
        let places = by_rank.into_iter().map(|(_, place)| place).collect();
        Pair { records, images, tables, places }
    }

    pub(crate) fn records(&self) -> [&raw::Loaded; 2] {
        [&self.records[0], &self.records[1]]
    }

    pub(crate) fn images(&self) -> [&[u8]; 2] {
        [&self.images[0], &self.images[1]]
    }

    pub(crate) fn tables(&self) -> [&[i64]; 2] {
        [&self.tables[0], &self.tables[1]]
    }

    /// The two physical files.
    pub fn files(&self) -> [PairFile<'_>; 2] {
        [PairFile { pair: self, file: 0 }, PairFile { pair: self, file: 1 }]
    }

    /// The tasks of both files, by their ranks from 0 up.
    pub fn tasks(&self) -> impl ExactSizeIterator<Item = Task<'_>> + DoubleEndedIterator {
        self.places.iter().map(|&(file, index)| Task::of_pair(self, file, index))
    }

    /// The task with a rank, counted from 0.
    pub fn task(&self, rank: u64) -> Result<Task<'_>, Refusal> {
        let counted = raw::pair::total(self.records(), self.images(), self.tables(), rank);
        accepted(counted.refusal)?;
        let (file, index) = self.places[rank as usize];
        Ok(Task::of_pair(self, file, index))
    }
}

impl fmt::Debug for Pair<'_> {
    fn fmt(&self, f: &mut fmt::Formatter<'_>) -> fmt::Result {
        f.debug_struct("Pair")
            .field("files", &self.files())
            .field("tasks", &self.tasks().collect::<Vec<_>>())
            .finish()
    }
}

/// One of the two physical files of a loaded pair.
#[derive(Clone, Copy)]
pub struct PairFile<'p> {
    pair: &'p Pair<'p>,
    file: usize,
}

impl<'p> PairFile<'p> {
    fn record(&self) -> &'p raw::Loaded {
        &self.pair.records[self.file]
    }

    /// The bytes that it was loaded from, with what follows the file's last field in them.
    pub fn image(&self) -> &'p [u8] {
        &self.pair.images[self.file]
    }

    /// The byte order of its numbers.
    pub fn byte_order(&self) -> ByteOrder {
        ByteOrder::of(self.record())
    }

    /// The library version that it names.
    pub fn version(&self) -> i32 {
        self.record().numbers.version
    }

    /// The patch level that it names.
    pub fn patch(&self) -> i32 {
        self.record().numbers.patch
    }

    /// Its fileformat_version.
    pub fn format(&self) -> Format {
        Format::of(self.record())
    }

    /// The bytes of a file-system block.
    pub fn blocksize(&self) -> u32 {
        self.record().numbers.blocksize
    }

    /// The greatest number of chunks that one of its tasks used.
    pub fn maxchunks(&self) -> u32 {
        self.record().numbers.maxchunks
    }

    /// The number of its tasks.
    pub fn tasks(&self) -> usize {
        self.record().numbers.n as usize
    }

    /// Its bytes, from the image's start: up to META2's end, and in file 0 up to the mapping's.
    pub fn length(&self) -> u64 {
        let counted = raw::length(&self.alone(), self.image(), &self.pair.tables[self.file]);
        accepted(counted.refusal).expect(READABLE);
        let mapping = 4 + 8 * self.pair.places.len() as u64;
        counted.bytes + if self.file == 0 { mapping } else { 0 }
    }

    /// The filename prefix that it names, without the zeros that fill it up: any bytes, at most 1024.
    pub fn prefix(&self) -> &'p [u8] {
        let part = raw::prefix(&self.alone(), self.image(), &self.pair.tables[self.file]);
        accepted(part.refusal).expect(READABLE);
        &self.image()[part.start as usize..][..part.length as usize]
    }

    /// The same record as of a single file, for the calls that speak of one: where META2 ends and what the prefix is does not depend on it.
    fn alone(&self) -> raw::Loaded {
        let mut record = *self.record();
        (record.numbers.files, record.numbers.file) = (1, 0);
        record
    }
}

impl fmt::Debug for PairFile<'_> {
    fn fmt(&self, f: &mut fmt::Formatter<'_>) -> fmt::Result {
        f.debug_struct("PairFile")
            .field("byte_order", &self.byte_order())
            .field("version", &self.version())
            .field("patch", &self.patch())
            .field("format", &self.format())
            .field("blocksize", &self.blocksize())
            .field("maxchunks", &self.maxchunks())
            .field("length", &self.length())
            .field("prefix", &String::from_utf8_lossy(self.prefix()))
            .finish()
    }
}
