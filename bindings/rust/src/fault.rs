//! Holds where a refused load broke off: the first offending field, and the sentence about it.

use crate::raw;
use std::fmt;

/// Makes the enum and its tables from one list.
macro_rules! fields {
    ($($variant:ident = $number:literal $name:literal)*) => {
        /// A field at which a load breaks off. More of them may come, so a `match` has an arm for the rest.
        #[derive(Clone, Copy, Debug, PartialEq, Eq, Hash)]
        #[non_exhaustive]
        #[repr(u32)]
        pub enum Field {
            $(#[doc = $name] $variant = $number,)*
        }

        impl Field {
            /// All of them, by their numbers.
            pub const ALL: &'static [Field] = &[$(Field::$variant),*];

            /// Its name, as in the format.
            pub fn name(self) -> &'static str {
                match self { $(Field::$variant => $name,)* }
            }
        }
    };
}

fields! {
    Mark = 1 "the mark"
    Order = 2 "the order number"
    Image = 3 "the image's end"
    Format = 4 "fileformat_version"
    Blocksize = 5 "blocksize"
    Tasks = 6 "ntasks"
    Files = 7 "nfiles"
    FileNumber = 8 "filenumber"
    Rank = 9 "rank"
    Size = 10 "requested size"
    Maxchunks = 11 "maxchunks"
    Start = 12 "start_of_varheader"
    Table = 13 "the table"
    Count = 14 "count"
    Value = 15 "bytes written"
    MappingSize = 16 "mapping_size"
    EntryFile = 17 "mapped file number"
    EntryTask = 18 "mapped local rank"
    EntryRank = 19 "rank of the mapped task"
}

impl Field {
    /// The library's number for it.
    pub fn number(self) -> u32 {
        self as u32
    }
}

/// Where a refused load broke off: the first offending field by the order of the tests, what it says, and what it may say. Shown, it is a
/// sentence about the field, without its place.
///
/// ```
/// use lapurmihi::{Container, Field};
///
/// let mut bytes = std::fs::read("../../examples/two-tasks.sion")?;
/// bytes[3089] = 2; // of the eight bytes that say how many were written to chunk 1 of task 1
/// let fault = Container::from_bytes(bytes).unwrap_err().fault;
/// assert_eq!((fault.place(), fault.field()), (3088, Field::Value));
/// assert_eq!((fault.task(), fault.chunk()), (Some(1), Some(1)));
/// assert_eq!((fault.says(), fault.least(), fault.most()), (757, 0, 512));
/// assert_eq!(fault.to_string(), "chunk 1 of task 1 says 757 bytes, a chunk holds 512");
/// # Ok::<(), std::io::Error>(())
/// ```
#[derive(Clone, Copy, Debug, PartialEq, Eq)]
pub struct Fault {
    place: u64,
    field: Field,
    task: u32,
    chunk: u32,
    says: i64,
    least: i64,
    most: i64,
}

impl Fault {
    /// What the library says of a refused load.
    pub(crate) fn new(told: raw::Fault) -> Fault {
        let raw::Fault { place, says, least, most, field, task, chunk } = told;
        let known = Field::ALL.iter().copied().find(|known| known.number() == field);
        let field = known.expect("the library names one of its fields");
        Fault { place, field, task, chunk, says, least, most }
    }

    /// Where in the image the field stands. It is the image's length where the image is too short, and 0 where the table is.
    pub fn place(&self) -> u64 {
        self.place
    }

    /// Which field it is.
    pub fn field(&self) -> Field {
        self.field
    }

    /// Of which task it is, counted from 1, if it is of one; of a pair's mapping, of which entry, which is its rank and 1.
    pub fn task(&self) -> Option<u64> {
        (self.task != 0).then_some(self.task.into())
    }

    /// Of which chunk it is, counted from 1, if it is of one.
    pub fn chunk(&self) -> Option<u64> {
        (self.chunk != 0).then_some(self.chunk.into())
    }

    /// The number that stands there: of [`Field::Image`] the image's length, of [`Field::Table`] the cells lent, and 0 of [`Field::Mark`] and
    /// [`Field::Order`].
    pub fn says(&self) -> i64 {
        self.says
    }

    /// The least that it may be. A number from it to [`most`](Fault::most) breaks a second rule: a blocksize is no power of two, or a rank is
    /// that of an earlier task.
    pub fn least(&self) -> i64 {
        self.least
    }

    /// The most that it may be.
    pub fn most(&self) -> i64 {
        self.most
    }

    /// The field as a sentence names it.
    fn subject(&self) -> String {
        match (self.field.name(), self.task, self.chunk) {
            (name, entry, _) if matches!(self.field, Field::EntryFile | Field::EntryTask) => {
                format!("{name} of entry {entry}")
            }
            (name, 0, _) => name.to_string(),
            (name, task, 0) => format!("{name} of task {task}"),
            (_, task, chunk) => format!("chunk {chunk} of task {task}"),
        }
    }

    /// What may stand there, in words.
    fn asked(&self) -> String {
        let Fault { least, most, .. } = self;
        match most.saturating_sub(*least) {
            0 => least.to_string(),
            1 => format!("{least} or {most}"),
            _ => format!("{least} to {most}"),
        }
    }
}

impl fmt::Display for Fault {
    fn fmt(&self, f: &mut fmt::Formatter<'_>) -> fmt::Result {
        let Fault { says, least, most, .. } = *self;
        let (subject, asked) = (self.subject(), self.asked());
        match self.field {
            Field::Mark => f.write_str("the image does not begin with sion"),
            Field::Order => f.write_str("the order number is cut off, or 1 in neither byte order"),
            Field::Image => write!(f, "the image ends here, and {least} bytes are needed"),
            Field::Table => write!(f, "the table has {says} of the {least} cells that are needed"),
            Field::Value if most < 0 => {
                write!(f, "{subject} says {}, and the task does not use it", bytes(says))
            }
            Field::Value if says < 0 => {
                write!(
                    f,
                    "{subject} says {says}, and the task uses it; {asked} bytes are asked for"
                )
            }
            Field::Value => write!(f, "{subject} says {}, a chunk holds {most}", bytes(says)),
            Field::Count if says > most => {
                write!(f, "{subject} says {says}, and maxchunks is {most}")
            }
            Field::Count => write!(f, "{subject} says {says}, and at least {least} is asked for"),
            Field::Maxchunks if least == most => {
                write!(f, "{subject} says {says}, and the greatest count is {least}")
            }
            Field::Start if says == 0 => {
                write!(f, "{subject} says 0: the container was never closed")
            }
            Field::Start => write!(f, "{subject} says {says}, and META2 starts at {least}"),
            Field::Blocksize => {
                write!(f, "{subject} says {says}, and a power of two from {asked} is asked for")
            }
            Field::Rank if (least..=most).contains(&says) => {
                write!(f, "{subject} says {says}, which an earlier task has")
            }
            Field::MappingSize => {
                write!(f, "{subject} says {says}, and the files have {least} tasks together")
            }
            Field::EntryRank => {
                let entry = self.task;
                write!(
                    f,
                    "entry {entry} of the mapping names a task of rank {says}, and rank {least} is asked for"
                )
            }
            _ => write!(f, "{subject} says {says}, and {asked} is asked for"),
        }
    }
}

/// A number of bytes in words.
fn bytes(number: i64) -> String {
    match number {
        1 => "1 byte".to_string(),
        _ => format!("{number} bytes"),
    }
}
