//! Holds the comparison of sessions that a power cut ends: each call of each session is cut after every single byte store, on the library's
//! side and on the reference's, and what is found is held to what document 02's W-212 says of that moment.

mod both;
mod cases;
mod course;
mod cut;
mod earlier;
mod library;
mod moments;
mod second;

use cases::Case;
use course::Course;
use earlier::Earlier;
use moments::Counts;
use std::process::ExitCode;

fn main() -> ExitCode {
    match compare() {
        Ok(line) => println!("cuts: {line}"),
        Err(line) => {
            eprintln!("cuts: {line}");
            return ExitCode::FAILURE;
        }
    }
    ExitCode::SUCCESS
}

/// Runs every session; gives the line to print.
fn compare() -> Result<String, String> {
    let mut counts = Counts::default();
    for case in cases::all() {
        every_way(&case, &mut counts)?;
    }
    let (line, missing) = (counts.line(), counts.missing());
    if missing.is_empty() {
        Ok(line)
    } else {
        Err(format!("{line}; never met: {missing:?}"))
    }
}

/// Runs a session in both byte orders and formats, over each kind of earlier image.
fn every_way(case: &Case, counts: &mut Counts) -> Result<(), String> {
    for (order, format) in [(0, 3), (0, 4), (1, 3), (1, 4)] {
        for earlier in Earlier::ALL {
            let course = Course::new(case, order, format, earlier);
            course.and_then(|mut course| course.run(counts)).map_err(|difference| {
                let over = format!("order {order}, format {format}, over {earlier:?}");
                format!("{}, {over}, {difference}", case.name)
            })?;
        }
    }
    Ok(())
}
