//! Holds the comparison of random sessions and of what is read of them: the library against the reference, and against the tally of
//! demand 3, call by call.

mod both;
mod call;
mod counts;
mod course;
mod damaged;
mod drawn;
mod hostile;
mod library;
mod memory;
mod numbers;
mod pairs;
mod plan;
mod reload;
mod requests;
mod same;
mod second;
mod sizes;
mod turns;

use counts::Counts;
use pairs::Pairs;
use reference::Rng;
use std::process::ExitCode;

/// From so many sessions on, every number and every pair of faults has to come up.
const ENOUGH: u32 = 1_000;

fn main() -> ExitCode {
    let args: Vec<String> = std::env::args().skip(1).collect();
    let words: Vec<&str> = args.iter().map(String::as_str).collect();
    let numbers = match words[..] {
        [seed, count] => seed.parse().ok().zip(count.parse().ok()),
        _ => None,
    };
    let done = match numbers {
        Some((seed, count)) => compare(seed, count),
        None => Err("sessions SEED COUNT: both are numbers".to_string()),
    };
    match done {
        Ok(line) => println!("sessions: {line}"),
        Err(line) => {
            eprintln!("sessions: {line}");
            return ExitCode::FAILURE;
        }
    }
    ExitCode::SUCCESS
}

/// Runs the paper's numbers and so many sessions; gives the line to print.
fn compare(seed: u64, count: u32) -> Result<String, String> {
    let (mut rng, mut counts, mut pairs) = (Rng::new(seed), Counts::default(), Pairs::new());
    numbers::check(&mut rng).map_err(|difference| format!("seed {seed}, {difference}"))?;
    for session in 1..=count {
        course::run(&mut rng, &mut counts, &mut pairs)
            .map_err(|difference| format!("seed {seed}, session {session}, {difference}"))?;
    }
    let line = format!("{count} sessions of seed {seed}, {}, {}", counts.line(), pairs.line());
    let (numbers, faults) = (counts.missing(), pairs.missing());
    if count < ENOUGH || (numbers.is_empty() && faults.is_empty()) {
        Ok(line)
    } else {
        Err(format!("{line}; never an answer: {numbers:?}; never run: {faults:?}"))
    }
}
