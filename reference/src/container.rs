//! Holds a closed container of one file with its fields by name, and copies of it that are damaged by setting them.

use crate::Order;

/// A container with what is needed to find its fields.
#[derive(Clone)]
pub struct Container {
    pub bytes: Vec<u8>,
    pub order: Order,
    pub n: usize,
    pub maxchunks: usize,
    pub meta2: usize,
}

/// The fields of both metadata blocks, and of the mapping behind the second in a pair's file 0; tasks, chunks and ranks counted from 0.
#[derive(Clone, Copy, Debug)]
pub enum Field {
    Mark,
    Order,
    Version,
    Patch,
    Format,
    Blocksize,
    Ntasks,
    Nfiles,
    Filenumber,
    Flag1,
    Flag2,
    Prefix,
    Rank(usize),
    Size(usize),
    Maxchunks,
    Start,
    Count(usize),
    Cell(usize, usize),
    MappingSize,
    EntryFile(usize),
    EntryTask(usize),
}

impl Container {
    /// Takes the closed container of n tasks in `bytes`, or one file of a closed pair that has n tasks there.
    pub fn new(bytes: Vec<u8>, order: Order, n: usize) -> Container {
        let mut container = Container { bytes, order, n, maxchunks: 0, meta2: 0 };
        container.maxchunks = container.get(Field::Maxchunks) as usize;
        container.meta2 = container.get(Field::Start) as usize;
        container
    }

    /// Offset and width of a field.
    fn place(&self, field: Field) -> (usize, usize) {
        match field {
            Field::Mark => (0, 4),
            Field::Order => (4, 4),
            Field::Version => (8, 4),
            Field::Patch => (12, 4),
            Field::Format => (16, 4),
            Field::Blocksize => (20, 4),
            Field::Ntasks => (24, 4),
            Field::Nfiles => (28, 4),
            Field::Filenumber => (32, 4),
            Field::Flag1 => (36, 8),
            Field::Flag2 => (44, 8),
            Field::Prefix => (52, 8),
            Field::Rank(task) => (1076 + 8 * task, 8),
            Field::Size(task) => (1076 + 8 * (self.n + task), 8),
            Field::Maxchunks => (1076 + 16 * self.n, 4),
            Field::Start => (1080 + 16 * self.n, 8),
            Field::Count(task) => (self.meta2 + 8 * task, 8),
            Field::Cell(chunk, task) => (self.meta2 + 8 * (self.n * (1 + chunk) + task), 8),
            Field::MappingSize => (self.meta2_end(), 4),
            Field::EntryFile(rank) => (self.meta2_end() + 4 + 8 * rank, 4),
            Field::EntryTask(rank) => (self.meta2_end() + 8 + 8 * rank, 4),
        }
    }

    /// Where META2 ends, and the mapping of a pair's file 0 starts.
    pub fn meta2_end(&self) -> usize {
        self.meta2 + 8 * self.n * (1 + self.maxchunks)
    }

    pub fn get(&self, field: Field) -> i64 {
        match self.place(field) {
            (at, 4) => i64::from(self.order.int(&self.bytes, at)),
            (at, _) => self.order.long(&self.bytes, at),
        }
    }

    pub fn put(&mut self, field: Field, value: i64) {
        match self.place(field) {
            (at, 4) => self.order.put_int(&mut self.bytes, at, value as i32),
            (at, _) => self.order.put_long(&mut self.bytes, at, value),
        }
    }

    /// A copy with one field set.
    pub fn with(&self, field: Field, value: i64) -> Container {
        let mut copy = self.clone();
        copy.put(field, value);
        copy
    }

    /// A copy with the bytes of one field in reverse.
    pub fn swapped(&self, field: Field) -> Container {
        let (mut copy, (at, width)) = (self.clone(), self.place(field));
        if let Some(bytes) = copy.bytes.get_mut(at..at + width) {
            bytes.reverse();
        }
        copy
    }

    /// A copy of its first bytes.
    pub fn cut(&self, length: usize) -> Container {
        let mut copy = self.clone();
        copy.bytes.truncate(length);
        copy
    }

    /// A copy with bytes added behind, or cut, to the length.
    pub fn padded(&self, length: usize, byte: u8) -> Container {
        let mut copy = self.clone();
        copy.bytes.resize(length, byte);
        copy
    }

    /// A copy with META2 moved to `at`.
    pub fn moved(&self, at: usize) -> Container {
        let mut copy = self.padded(at.min(self.meta2), 0);
        copy.bytes.resize(at, 0);
        copy.bytes.extend_from_slice(&self.bytes[self.meta2..]);
        copy
    }

    /// A copy with the values of META2 grouped by task.
    pub fn grouped_by_task(&self) -> Container {
        let mut copy = self.clone();
        for i in 0..self.n * self.maxchunks {
            let value = self.get(Field::Cell(i % self.maxchunks, i / self.maxchunks));
            copy.put(Field::Cell(i / self.n, i % self.n), value);
        }
        copy
    }
}
