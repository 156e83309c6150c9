//! Holds the line printed for a container, its checksums, and the saving of a collection.

use reference::{chunk, load, read, total, Loaded};
use std::collections::BTreeMap;
use std::error::Error;
use std::fs;
use std::path::Path;

/// The most bytes the small program reads.
pub const LONGEST: usize = 65_536;
const CELLS: usize = 2_048;

/// The line of the small program.
pub fn line(bytes: &[u8]) -> String {
    describe(bytes, false)
}

/// The same line, and for an accepted container the checksums of what is read from it and the answer to a table too short.
pub fn full_line(bytes: &[u8]) -> String {
    describe(bytes, true)
}

fn describe(bytes: &[u8], sums: bool) -> String {
    if bytes.len() > LONGEST {
        return "long".to_string();
    }
    let mut table = vec![0; CELLS];
    let loaded = load(bytes, &mut table).map_err(|fault| fault.refusal);
    let answer = loaded.and_then(|loaded| {
        let plain = accepted(&loaded, bytes, &table)?;
        if !sums {
            return Ok(plain);
        }
        let parts = parts_sum(&loaded, bytes, &table)?;
        let streams = streams_sum(&loaded, bytes, &table)?;
        let short = short_answer(&loaded, bytes);
        Ok(format!("{plain} | {parts:08x} {streams:08x} {short}"))
    });
    answer.unwrap_or_else(|number| number.to_string())
}

fn accepted(loaded: &Loaded, image: &[u8], table: &[i64]) -> Result<String, u32> {
    let mut line = format!("0 {} {}", loaded.head.n, loaded.maxchunks);
    for task in 1..=u64::from(loaded.head.n) {
        line += &format!(" {}", total(loaded, image, table, task)?);
    }
    Ok(line)
}

/// The answer to a load with a table of one cell fewer than the container has values, if it has any.
fn short_answer(loaded: &Loaded, image: &[u8]) -> u32 {
    let values = loaded.head.n as usize * loaded.maxchunks as usize;
    let mut table = vec![0; values.saturating_sub(1)];
    load(image, &mut table).err().map_or(0, |fault| fault.refusal)
}

/// The checksum of all chunk parts, task by task.
fn parts_sum(loaded: &Loaded, image: &[u8], table: &[i64]) -> Result<u32, u32> {
    let mut sum = Adler::new();
    for task in 1..=u64::from(loaded.head.n) {
        for number in 1..=loaded.head.counts[task as usize - 1] {
            sum.add(chunk(loaded, image, table, task, number)?);
        }
    }
    Ok(sum.value())
}

/// The checksum of all streams, task by task, copied in pieces of 100 bytes.
fn streams_sum(loaded: &Loaded, image: &[u8], table: &[i64]) -> Result<u32, u32> {
    let mut sum = Adler::new();
    let mut piece = [0; 100];
    for task in 1..=u64::from(loaded.head.n) {
        for p in (0..).step_by(piece.len()) {
            let count = read(loaded, image, table, task, p, &mut piece)? as usize;
            sum.add(&piece[..count]);
            if count < piece.len() {
                break;
            }
        }
    }
    Ok(sum.value())
}

/// Adler-32 of RFC 1950.
struct Adler {
    a: u32,
    b: u32,
}

impl Adler {
    fn new() -> Adler {
        Adler { a: 1, b: 0 }
    }

    fn add(&mut self, bytes: &[u8]) {
        for &byte in bytes {
            self.a = (self.a + u32::from(byte)) % 65_521;
            self.b = (self.b + self.a) % 65_521;
        }
    }

    fn value(&self) -> u32 {
        self.b << 16 | self.a
    }
}

/// Saves named containers below `dir` with their names and lines, and prints how often each answer came.
pub fn save(
    dir: &Path,
    containers: impl IntoIterator<Item = (String, Vec<u8>)>,
) -> Result<(), Box<dyn Error>> {
    let data = dir.join("data");
    fs::create_dir_all(&data)?;
    let (mut args, mut stdout, mut answers) = (String::new(), String::new(), BTreeMap::new());
    for (name, bytes) in containers {
        let line = full_line(&bytes);
        let answer = line.split(' ').next().and_then(|word| word.parse::<u32>().ok());
        *answers.entry(answer).or_insert(0) += 1;
        args += &format!("{name}\n");
        stdout += &format!("{name}: {line}\n");
        fs::write(data.join(name), bytes)?;
    }
    fs::write(dir.join("args"), args)?;
    fs::write(dir.join("stdout"), stdout)?;
    summary(&answers);
    Ok(())
}

fn summary(answers: &BTreeMap<Option<u32>, u32>) {
    let show = |(answer, times): (&Option<u32>, &u32)| match answer {
        Some(number) => format!("{number}: {times}"),
        None => format!("long: {times}"),
    };
    let words: Vec<String> = answers.iter().map(show).collect();
    println!("{}", words.join(", "));
}

#[test]
fn checksum_of_a_known_text() {
    let mut sum = Adler::new();
    sum.add(b"Wikipedia");
    assert_eq!(sum.value(), 0x11e6_0398);
}
