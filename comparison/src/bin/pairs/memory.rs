//! Holds the images and the tables of both files with the lengths that are lent of them, and the comparison of what two calls leave there.

use comparison::same_list;
use reference::Rng;

#[derive(Clone)]
pub struct Memory {
    pub images: [Vec<u8>; 2],
    pub tables: [Vec<i64>; 2],
}

impl Memory {
    /// Random bytes and cells.
    pub fn random(lengths: [usize; 2], cells: [usize; 2], rng: &mut Rng) -> Memory {
        let images = lengths.map(|length| rng.bytes(length));
        let tables = cells.map(|cells| (0..cells).map(|_| rng.number() as i64).collect());
        Memory { images, tables }
    }

    /// Both images, to be read and to be stored into.
    pub fn images(&self) -> [&[u8]; 2] {
        [&self.images[0], &self.images[1]]
    }

    pub fn tables(&self) -> [&[i64]; 2] {
        [&self.tables[0], &self.tables[1]]
    }

    /// All four, to be stored into.
    pub fn lent(&mut self) -> ([&mut [u8]; 2], [&mut [i64]; 2]) {
        let ([image0, image1], [table0, table1]) = (&mut self.images, &mut self.tables);
        ([image0, image1], [table0, table1])
    }

    pub fn same(&self, wanted: &Memory) -> Result<(), String> {
        for file in 0..2 {
            let image = format!("the image of file {file}");
            same_list(&image, &self.images[file], &wanted.images[file])?;
            let table = format!("the table of file {file}");
            same_list(&table, &self.tables[file], &wanted.tables[file])?;
        }
        Ok(())
    }
}
