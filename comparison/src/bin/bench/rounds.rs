//! Holds the clock: turns of many calls, rounds in which every side takes its turn, and the line that they give.

use std::time::Instant;

/// Rounds in which every side takes its turn.
const ROUNDS: usize = 41;

/// Nanoseconds of one call, over a turn of calls.
pub fn time(calls: usize, mut call: impl FnMut(usize)) -> f64 {
    let start = Instant::now();
    for i in 0..calls {
        call(i);
    }
    start.elapsed().as_nanos() as f64 / calls as f64
}

pub fn heading() {
    println!("Time of one call, the median of {ROUNDS} rounds; then the ratio of ours to theirs, its median and its spread.\n");
    println!("{:31} {:>10} {:>10}  {:20} {:>9}  ratio", "", "ours", "reference", "ratio", "memcpy");
}

/// A number of bytes as a person writes it.
pub fn in_words(bytes: usize) -> String {
    match bytes {
        0..1_024 => format!("{bytes} B"),
        1_024..1_048_576 => format!("{} KiB", bytes / 1_024),
        _ => format!("{} MiB", bytes / 1_048_576),
    }
}

/// A number of tasks as a person writes it.
pub fn tasks_in_words(tasks: usize) -> String {
    format!("{tasks} task{}", if tasks == 1 { "" } else { "s" })
}

/// Tasks that have so many chunks each.
pub fn chunks_in_words(tasks: usize, chunks: usize) -> String {
    format!("{} x {chunks} chunk{}", tasks_in_words(tasks), if chunks == 1 { "" } else { "s" })
}

/// Lets each side take its turns, each of which gives the nanoseconds of one call, and prints the line about them.
pub fn compare(
    what: &str,
    mut ours: impl FnMut() -> f64,
    mut reference: impl FnMut() -> f64,
    copy: Option<&mut dyn FnMut() -> f64>,
) {
    let mut none = || 0.0;
    let copies = copy.is_some();
    let copy = copy.unwrap_or(&mut none);
    let rounds: Vec<[f64; 3]> = (0..ROUNDS).map(|_| [ours(), reference(), copy()]).collect();
    let side = |k: usize| rounds.iter().map(move |round| round[k]).collect::<Vec<_>>();
    let against = |k: usize| spread(rounds.iter().map(|round| round[0] / round[k]).collect());
    print!("{what:31} {:>10} {:>10}  {:20}", nanos(side(0)), nanos(side(1)), against(1));
    if copies {
        print!(" {:>9}  {}", nanos(side(2)), against(2));
    }
    println!();
}

fn sorted(mut numbers: Vec<f64>) -> Vec<f64> {
    numbers.sort_by(f64::total_cmp);
    numbers
}

fn nanos(times: Vec<f64>) -> String {
    format!("{:.0} ns", sorted(times)[ROUNDS / 2])
}

fn spread(ratios: Vec<f64>) -> String {
    let ratios = sorted(ratios);
    format!("{:.2} ({:.2} to {:.2})", ratios[ROUNDS / 2], ratios[0], ratios[ROUNDS - 1])
}
