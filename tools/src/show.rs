//! Holds the command `show`: a container as a person reads it.

use crate::args::{Args, Command, Known};
use crate::each::{each, unopened};
use crate::failure::Failure;
use crate::input::Found;
use crate::show_pair;
use crate::text::{array, json, object, shown};
use crate::{input, print, tell};
use lapurmihi::{ByteOrder, Container, Task};
use std::ffi::OsStr;
use std::os::unix::ffi::OsStrExt;

pub const COMMAND: Command = Command {
    name: "show",
    called: "sion show",
    help: HELP,
    options: &[Known::Flag("--chunks"), Known::Flag("--json")],
    run,
};

const HELP: &str = "\
usage: sion show [--chunks] [--json] FILE...

Shows what containers hold: byte order, versions, blocksize and filename prefix, the length of the file and the bytes
that follow the container in it; and a line for each task with its rank, the size that it requested for a chunk, the
chunk size, which is what a chunk holds, the chunks that it used, its bytes, and the share of those chunks that they
fill. The chunk size is the requested size, rounded up to a multiple of the blocksize. Where several files are named,
a line FILE: stands before each. FILE '-' is standard input. A container in two files is named by the first, and the
second, FILE.000001, is found beside it: both are told, and their tasks by their ranks from 0 up.

    --chunks    list every chunk too: its task, rank and number, its offset in the file and its bytes
    --json      print a JSON object for each file, with an array of its tasks

The exit status is 0; 3 where a file could not be read or nothing could be printed, else 1 where one was refused;
2 where the command line is wrong.
";

const HEADINGS: [&str; 7] = ["task", "rank", "requested", "chunk size", "chunks", "bytes", "fill"];
const CHUNK_HEADINGS: [&str; 5] = ["task", "rank", "chunk", "offset", "bytes"];

fn run(args: &Args) -> Result<(), Failure> {
    let (chunks, as_json) = (args.flag("--chunks"), args.flag("--json"));
    let several = args.words.len() > 1;
    each(&COMMAND, &args.words, |word, opened| match opened {
        Ok(Found::Single(container)) if as_json => print(&whole(word, container, chunks)),
        Ok(Found::Pair(pair)) if as_json => print(&show_pair::whole(word, pair, chunks)),
        Err(error) if as_json => print(&unopened(error)),
        Ok(found) => {
            let head = if several { format!("{}:\n", shown(word)) } else { String::new() };
            let chunks = if chunks { format!("\n{}", listed(found)) } else { String::new() };
            print(&format!("{head}{}{chunks}", told(word, found)))
        }
        Err(error) => {
            tell(&input::failure(error));
            Ok(())
        }
    })
}

/// All about a container but for its chunks.
fn told(word: &OsStr, found: &Found) -> String {
    match found {
        Found::Single(container) => format!("{}\n{}", about(container), tasks(container)),
        Found::Pair(pair) => show_pair::told(word, pair),
    }
}

/// The table of its chunks.
fn listed(found: &Found) -> String {
    match found {
        Found::Single(container) => parts(container),
        Found::Pair(pair) => show_pair::parts(pair),
    }
}

pub fn order(order: ByteOrder) -> &'static str {
    match order {
        ByteOrder::Little => "little",
        ByteOrder::Big => "big",
    }
}

/// A filename prefix as it is shown.
pub fn prefix(bytes: &[u8]) -> String {
    match bytes {
        b"" => "none".to_string(),
        prefix => shown(OsStr::from_bytes(prefix)),
    }
}

/// The lines about the whole container.
fn about(container: &Container) -> String {
    let lines = [
        ("byte order", order(container.byte_order()).to_string()),
        ("version", format!("{}, patch level {}", container.version(), container.patch())),
        ("format", (container.format() as u32).to_string()),
        ("blocksize", container.blocksize().to_string()),
        ("tasks", container.tasks().len().to_string()),
        ("most chunks", container.maxchunks().to_string()),
        ("prefix", prefix(container.prefix())),
        ("file length", format!("{} bytes", container.image().len())),
        ("trailing", format!("{} bytes", trailing(container))),
    ];
    named(&lines)
}

/// Names with their values, a line for each.
pub fn named(lines: &[(&str, String)]) -> String {
    lines.iter().map(|(name, value)| format!("{name:<13}{value}\n")).collect()
}

/// The bytes of the file that follow the container.
fn trailing(container: &Container) -> u64 {
    container.image().len() as u64 - container.length()
}

/// All of a container as a line of JSON.
fn whole(word: &OsStr, container: &Container, chunks: bool) -> String {
    let fields = [
        ("file", json(word)),
        ("refusal", "0".to_string()),
        ("order", json(order(container.byte_order()))),
        ("version", container.version().to_string()),
        ("patch", container.patch().to_string()),
        ("format", (container.format() as u32).to_string()),
        ("blocksize", container.blocksize().to_string()),
        ("maxchunks", container.maxchunks().to_string()),
        ("prefix", json(OsStr::from_bytes(container.prefix()))),
        ("filelength", container.image().len().to_string()),
        ("length", container.length().to_string()),
        ("trailing", trailing(container).to_string()),
        ("tasks", array(container.tasks().map(|task| task_object(task, chunks)))),
    ];
    object(fields) + "\n"
}

fn task_object(task: Task, chunks: bool) -> String {
    object(task_fields(task, chunks))
}

pub fn task_fields(task: Task, chunks: bool) -> Vec<(&'static str, String)> {
    let mut fields = vec![
        ("task", task.number().to_string()),
        ("rank", task.rank().to_string()),
        ("requested", task.requested_size().to_string()),
        ("chunksize", task.chunk_size().to_string()),
        ("used", task.chunks_used().to_string()),
        ("bytes", task.total().to_string()),
    ];
    if chunks {
        let objects = places(task).map(|[chunk, offset, bytes]| {
            object([("chunk", chunk), ("offset", offset), ("bytes", bytes)])
        });
        fields.push(("chunks", array(objects)));
    }
    fields
}

/// The number of each chunk that a task used, its offset in the file and its bytes.
pub fn places(task: Task<'_>) -> impl Iterator<Item = [String; 3]> + use<'_> {
    (1..=task.chunks_used()).map(move |chunk| {
        let place = task.chunk_place(chunk).expect("a chunk that is used has its place");
        [chunk.to_string(), place.start.to_string(), place.len().to_string()]
    })
}

/// The table of the chunks.
fn parts(container: &Container) -> String {
    let mut rows = vec![CHUNK_HEADINGS.map(str::to_string)];
    for task in container.tasks() {
        let (number, rank) = (task.number().to_string(), task.rank().to_string());
        rows.extend(
            places(task)
                .map(|[chunk, offset, bytes]| [number.clone(), rank.clone(), chunk, offset, bytes]),
        );
    }
    aligned(&rows)
}

/// The table of the tasks, with a sum line.
fn tasks(container: &Container) -> String {
    let mut rows = vec![HEADINGS.map(str::to_string)];
    let (mut chunks, mut bytes, mut room) = (0, 0, 0);
    for task in container.tasks() {
        let (size, used, total) = (task.chunk_size(), task.chunks_used(), task.total());
        let numbers = [task.number(), task.rank(), task.requested_size(), size];
        rows.push(row(numbers.map(|number| number.to_string()), used, total, used * size));
        (chunks, bytes, room) = (chunks + used, bytes + total, room + used * size);
    }
    rows.push(row(["sum", "", "", ""].map(str::to_string), chunks, bytes, room));
    aligned(&rows)
}

fn row(first: [String; 4], chunks: u64, bytes: u64, room: u64) -> [String; 7] {
    let [task, rank, requested, size] = first;
    [task, rank, requested, size, chunks.to_string(), bytes.to_string(), fill(bytes, room)]
}

/// Bytes as a share of their room in percent, cut behind the first digit, so that only full chunks show 100.
pub fn fill(bytes: u64, room: u64) -> String {
    match (bytes * 1000).checked_div(room) {
        Some(share) => format!("{}.{} %", share / 10, share % 10),
        None => "-".to_string(),
    }
}

/// Rows as lines, each column as wide as its widest entry and set to the right.
pub fn aligned<const N: usize>(rows: &[[String; N]]) -> String {
    let widths: [usize; N] =
        std::array::from_fn(|at| rows.iter().map(|row| row[at].len()).max().unwrap_or(0));
    let line = |row: &[String; N]| {
        let entries = row.iter().zip(widths).map(|(entry, width)| format!("{entry:>width$}"));
        entries.collect::<Vec<_>>().join("  ") + "\n"
    };
    rows.iter().map(line).collect()
}

#[cfg(test)]
mod tests {
    use super::*;

    const SAMPLE: &[u8] = include_bytes!("../../examples/two-tasks.sion");
    const BEFORE: &[u8] = include_bytes!("../../crates/vectors/data/ok-base-p12.sion");
    const IDLE: &[u8] = include_bytes!("../../crates/vectors/data/ok-idle-p12.sion");

    #[test]
    fn the_sample() {
        let container = Container::from_bytes(SAMPLE.to_vec()).unwrap();
        let wanted = "\
byte order   little
version      1, patch level 7
format       3
blocksize    512
tasks        2
most chunks  1
prefix       data/run.sion
file length  3104 bytes
trailing     0 bytes
";
        assert_eq!(about(&container), wanted);
        let wanted = "\
task  rank  requested  chunk size  chunks  bytes    fill
   1     0        500         512       1    501  97.8 %
   2     1        600        1024       0      0       -
 sum                                    1    501  97.8 %
";
        assert_eq!(tasks(&container), wanted);
    }

    /// In format 4 a task that wrote nothing has a chunk, with no bytes in it.
    #[test]
    fn idle_tasks_of_format_4() {
        let container = Container::from_bytes(IDLE.to_vec()).unwrap();
        assert!(about(&container).contains("\nformat       4\n"));
        let wanted = "\
task  rank  requested  chunk size  chunks  bytes    fill
   1     0        500         512       1    501  97.8 %
   2     1        600        1024       1      0   0.0 %
 sum                                    2    501  32.6 %
";
        assert_eq!(tasks(&container), wanted);
        let wanted = "\
task  rank  chunk  offset  bytes
   1     0      1    1536    501
   2     1      1    2048      0
";
        assert_eq!(parts(&container), wanted);
    }

    /// The chunks of a container that was written before version 0.2.0, when a chunk held its requested size.
    #[test]
    fn the_chunks_of_a_container_of_before() {
        let container = Container::from_bytes(BEFORE.to_vec()).unwrap();
        let wanted = "\
task  rank  chunk  offset  bytes
   1     0      1    1536    500
   1     0      2    3072      1
";
        assert_eq!(parts(&container), wanted);
        let wanted = concat!(
            r#"{"task":1,"rank":0,"requested":500,"chunksize":512,"used":2,"bytes":501,"chunks":["#,
            r#"{"chunk":1,"offset":1536,"bytes":500},{"chunk":2,"offset":3072,"bytes":1}]}"#,
        );
        assert_eq!(task_object(container.task(1).unwrap(), true), wanted);
        let wanted = r#"{"task":2,"rank":1,"requested":600,"chunksize":1024,"used":0,"bytes":0}"#;
        assert_eq!(task_object(container.task(2).unwrap(), false), wanted);
    }

    #[test]
    fn only_full_chunks_are_filled_to_100_percent() {
        let most = (64 * 32) << 30;
        assert_eq!(fill(most, most), "100.0 %");
        assert_eq!(fill(most - 1, most), "99.9 %");
        assert_eq!((fill(0, 5), fill(0, 0)), ("0.0 %".to_string(), "-".to_string()));
    }
}
