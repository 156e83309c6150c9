//! Holds the commands of the program.

mod forge;
mod random;
mod report;
mod vectors;

use std::error::Error;
use std::io::{stdin, Read};
use std::path::Path;

const USAGE: &str = "reference check | vectors DIR [all] | random SEED COUNT DIR";

fn main() -> Result<(), Box<dyn Error>> {
    let args: Vec<String> = std::env::args().skip(1).collect();
    let words: Vec<&str> = args.iter().map(String::as_str).collect();
    match words[..] {
        ["check"] => check(),
        ["vectors", dir] => report::save(Path::new(dir), vectors::stored()),
        ["vectors", dir, "all"] => report::save(Path::new(dir), vectors::all()),
        ["random", seed, count, dir] => {
            let containers = random::all(seed.parse()?, count.parse()?);
            report::save(Path::new(dir), containers)
        }
        _ => Err(USAGE.into()),
    }
}

/// Reads one container from standard input and prints its line.
fn check() -> Result<(), Box<dyn Error>> {
    let mut bytes = Vec::new();
    stdin().take(report::LONGEST as u64 + 1).read_to_end(&mut bytes)?;
    println!("{}", report::line(&bytes));
    Ok(())
}
