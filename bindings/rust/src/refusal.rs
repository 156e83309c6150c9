//! Holds the refusal numbers of the paper, each with its name and the sentence that says what it means.

use std::{error, fmt, io};

/// Makes the enum and its tables from one list.
macro_rules! refusals {
    ($($variant:ident = $number:literal $name:literal $sentence:literal)*) => {
        /// Why a call was refused: the number of the first test that failed. A refused call changes nothing. More of them may come,
        /// so a `match` has an arm for the rest.
        ///
        /// ```
        /// use lapurmihi::Refusal;
        ///
        /// let refusal = Refusal::try_from(16).unwrap();
        /// assert_eq!(refusal, Refusal::NoChunkLeft);
        /// assert_eq!(refusal.name(), "NO_CHUNK_LEFT");
        /// assert_eq!(refusal.to_string(), "refusal 16: the task has no chunk left");
        /// ```
        #[derive(Clone, Copy, Debug, PartialEq, Eq, Hash)]
        #[non_exhaustive]
        #[repr(u32)]
        pub enum Refusal {
            $(#[doc = $sentence] $variant = $number,)*
        }

        impl Refusal {
            /// All of them, by their numbers.
            pub const ALL: &'static [Refusal] = &[$(Refusal::$variant),*];

            /// The name in the project's documents.
            pub fn name(self) -> &'static str {
                match self { $(Refusal::$variant => $name,)* }
            }

            /// What it means.
            pub fn sentence(self) -> &'static str {
                match self { $(Refusal::$variant => $sentence,)* }
            }
        }
    };
}

refusals! {
    NoMark = 1 "NO_MARK" "the image is under 4 bytes, or does not begin with sion"
    NoOrder = 2 "NO_ORDER" "the image is under 8 bytes, or the order number is 1 in neither byte order; at opening, the order is neither 0 nor 1"
    ShortMeta1 = 3 "SHORT_META1" "the image is under 1076 bytes; later, under 1088 + 16 n bytes"
    BadFormat = 4 "BAD_FORMAT" "fileformat_version is neither 3 nor 4"
    BadBlocksize = 5 "BAD_BLOCKSIZE" "blocksize is no power of two from 512 to 4,194,304"
    BadTasks = 6 "BAD_TASKS" "ntasks is not from 1 to 64; at opening also, the lists of ranks and sizes are not equally long"
    BadFiles = 7 "BAD_FILES" "nfiles or filenumber is not that of the file meant: 1 and 0, and of a pair 2 and 0 or 1"
    BadRank = 8 "BAD_RANK" "a rank is not from 0 to 2,147,483,647, or comes twice; opening a pair, its ranks are not 0, 1 and so on"
    BadSize = 9 "BAD_SIZE" "a requested size is not from 1 to 1,073,741,824"
    NotClosed = 10 "NOT_CLOSED" "start_of_varheader is 0: the container was never closed"
    BadMaxchunks = 11 "BAD_MAXCHUNKS" "maxchunks is not from 0 to 32"
    BadMeta2Place = 12 "BAD_META2_PLACE" "start_of_varheader is not where META2 has to start, or META2 does not fit in the image"
    BadMeta2 = 13 "BAD_META2" "a count or a value of META2 breaks its rule"
    NoTask = 14 "NO_TASK" "there is no such task, or of a pair no such rank"
    TooLong = 15 "TOO_LONG" "the request is longer than the task's chunk size"
    NoChunkLeft = 16 "NO_CHUNK_LEFT" "the task has no chunk left"
    BadRecord = 17 "BAD_RECORD" "the session or the loaded record is already closed, its numbers or lists break a rule, or it is of another file than meant"
    TooShort = 18 "TOO_SHORT" "the lent image or table is too short"
    CellsDisagree = 19 "CELLS_DISAGREE" "the table's cells disagree with the record"
    BadPlanned = 20 "BAD_PLANNED" "the planned blocks K are not from 1 to 32"
    LongPrefix = 21 "LONG_PREFIX" "the filename prefix is over 1024 bytes"
    NoChunk = 22 "NO_CHUNK" "the chunk number is not from 1 to the task's count"
    PastTotal = 23 "PAST_TOTAL" "the place p is greater than the task's total"
    BadMapping = 25 "BAD_MAPPING" "the mapping of a pair does not fit in its first file, or is not that of its tasks' ranks"
}

impl Refusal {
    /// The paper's number.
    pub fn number(self) -> u32 {
        self as u32
    }
}

/// A number as the library answers it: 0, or a refusal.
pub(crate) fn accepted(number: u32) -> Result<(), Refusal> {
    match number {
        0 => Ok(()),
        _ => Err(Refusal::try_from(number).expect("the library answers with the paper's numbers")),
    }
}

impl TryFrom<u32> for Refusal {
    /// The number itself, which is no refusal's.
    type Error = u32;

    fn try_from(number: u32) -> Result<Refusal, u32> {
        Refusal::ALL.iter().copied().find(|refusal| refusal.number() == number).ok_or(number)
    }
}

impl fmt::Display for Refusal {
    fn fmt(&self, f: &mut fmt::Formatter<'_>) -> fmt::Result {
        write!(f, "refusal {}: {}", self.number(), self.sentence())
    }
}

impl error::Error for Refusal {}

impl From<Refusal> for io::Error {
    /// An error of kind `Other` with the refusal inside.
    fn from(refusal: Refusal) -> io::Error {
        io::Error::other(refusal)
    }
}
