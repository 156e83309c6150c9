//! Holds the comparison of random pairs of physical files, and of damaged ones and hostile records: the library against the reference, call by
//! call, with all that each call leaves.

mod calls;
mod counts;
mod course;
mod damaged;
mod drawn;
mod hostile;
mod memory;

use counts::Counts;
use reference::Rng;
use std::process::ExitCode;

/// From so many pairs on, every number has to come up.
const ENOUGH: u32 = 500;

fn main() -> ExitCode {
    let args: Vec<String> = std::env::args().skip(1).collect();
    let words: Vec<&str> = args.iter().map(String::as_str).collect();
    let numbers = match words[..] {
        [seed, count] => seed.parse().ok().zip(count.parse().ok()),
        _ => None,
    };
    let done = match numbers {
        Some((seed, count)) => compare(seed, count),
        None => Err("pairs SEED COUNT: both are numbers".to_string()),
    };
    match done {
        Ok(line) => println!("pairs: {line}"),
        Err(line) => {
            eprintln!("pairs: {line}");
            return ExitCode::FAILURE;
        }
    }
    ExitCode::SUCCESS
}

/// Runs so many pairs; gives the line to print.
fn compare(seed: u64, count: u32) -> Result<String, String> {
    let (mut rng, mut counts) = (Rng::new(seed), Counts::default());
    for pair in 1..=count {
        course::run(&mut rng, &mut counts)
            .map_err(|difference| format!("seed {seed}, pair {pair}, {difference}"))?;
    }
    let line = format!("{count} pairs of seed {seed}, {}", counts.line());
    let missing = counts.missing();
    if count < ENOUGH || missing.is_empty() {
        Ok(line)
    } else {
        Err(format!("{line}; never an answer: {missing:?}"))
    }
}
