//! Holds the image and the table of a container, each lent or its own.

use crate::mapping::Mapping;
use std::fs::File;
use std::io::{self, Read};
use std::ops::Deref;

/// The bytes that a container is read from.
pub(crate) enum Image<'a> {
    Lent(&'a [u8]),
    Owned(Vec<u8>),
    Mapped(Mapping),
}

impl Image<'static> {
    /// A file's bytes: mapped, or read where that cannot be. A length of 0 says nothing of files that the system makes up as they are read.
    pub(crate) fn of(file: &File) -> io::Result<Image<'static>> {
        let about = file.metadata()?;
        if about.is_file() {
            let mapped = usize::try_from(about.len()).map(|length| Mapping::new(file, length));
            if let Ok(Ok(mapping)) = mapped {
                return Ok(Image::Mapped(mapping));
            }
        }
        let (mut file, mut bytes) = (file, vec![]);
        file.read_to_end(&mut bytes)?;
        Ok(Image::Owned(bytes))
    }
}

impl Deref for Image<'_> {
    type Target = [u8];

    fn deref(&self) -> &[u8] {
        match self {
            Image::Lent(bytes) => bytes,
            Image::Owned(bytes) => bytes,
            Image::Mapped(mapping) => mapping.bytes(),
        }
    }
}

/// The cells with the bytes written to each chunk.
pub(crate) enum Table<'a> {
    Lent(&'a [i64]),
    Owned(Vec<i64>),
}

impl Deref for Table<'_> {
    type Target = [i64];

    fn deref(&self) -> &[i64] {
        match self {
            Table::Lent(cells) => cells,
            Table::Owned(cells) => cells,
        }
    }
}
