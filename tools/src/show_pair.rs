//! Holds how `show` tells a container in two physical files: both files, then the tasks of both by their ranks.

use crate::show::{aligned, fill, named, order, places, prefix, task_fields};
use crate::text::{array, json, object, shown};
use lapurmihi::{Pair, PairFile, Task};
use std::ffi::{OsStr, OsString};
use std::os::unix::ffi::OsStrExt;

const HEADINGS: [&str; 8] =
    ["rank", "file", "task", "requested", "chunk size", "chunks", "bytes", "fill"];
const CHUNK_HEADINGS: [&str; 5] = ["rank", "file", "chunk", "offset", "bytes"];

/// Both files of a pair, each with its name.
fn files<'p>(word: &OsStr, pair: &'p Pair) -> [(OsString, PairFile<'p>); 2] {
    let [first, second] = pair.files();
    [(word.to_os_string(), first), (Pair::second_name(word).into(), second)]
}

/// All about a pair but for its chunks.
pub fn told(word: &OsStr, pair: &Pair) -> String {
    let [one, two] = files(word, pair).map(|(name, file)| about(&name, &file));
    format!("{one}\n{two}\n{}", tasks(pair))
}

/// The lines about one of the files.
fn about(name: &OsStr, file: &PairFile) -> String {
    named(&[
        ("file", shown(name)),
        ("byte order", order(file.byte_order()).to_string()),
        ("version", format!("{}, patch level {}", file.version(), file.patch())),
        ("format", (file.format() as u32).to_string()),
        ("blocksize", file.blocksize().to_string()),
        ("tasks", file.tasks().to_string()),
        ("most chunks", file.maxchunks().to_string()),
        ("prefix", prefix(file.prefix())),
        ("file length", format!("{} bytes", file.image().len())),
        ("trailing", format!("{} bytes", trailing(file))),
    ])
}

/// The bytes of the file that follow what the pair has in it.
fn trailing(file: &PairFile) -> u64 {
    file.image().len() as u64 - file.length()
}

/// The table of the tasks by their ranks, with a sum line.
fn tasks(pair: &Pair) -> String {
    let mut rows = vec![HEADINGS.map(str::to_string)];
    let (mut chunks, mut bytes, mut room) = (0, 0, 0);
    for task in pair.tasks() {
        let (used, total) = (task.chunks_used(), task.total());
        let held = used * task.chunk_size();
        let first = [task.rank(), task.file() as u64, task.number(), task.requested_size()];
        let [rank, file, number, requested] = first.map(|number| number.to_string());
        let last = [task.chunk_size(), used, total].map(|number| number.to_string());
        let [size, used_text, total_text] = last;
        let share = fill(total, held);
        rows.push([rank, file, number, requested, size, used_text, total_text, share]);
        (chunks, bytes, room) = (chunks + used, bytes + total, room + held);
    }
    let [chunks, bytes, share] = [chunks.to_string(), bytes.to_string(), fill(bytes, room)];
    let [sum, a, b, c, d] = ["sum", "", "", "", ""].map(str::to_string);
    rows.push([sum, a, b, c, d, chunks, bytes, share]);
    aligned(&rows)
}

/// The table of the chunks: each offset is in the task's own file.
pub fn parts(pair: &Pair) -> String {
    let mut rows = vec![CHUNK_HEADINGS.map(str::to_string)];
    for task in pair.tasks() {
        let (rank, file) = (task.rank().to_string(), task.file().to_string());
        rows.extend(
            places(task)
                .map(|[chunk, offset, bytes]| [rank.clone(), file.clone(), chunk, offset, bytes]),
        );
    }
    aligned(&rows)
}

/// All of a pair as a line of JSON.
pub fn whole(word: &OsStr, pair: &Pair, chunks: bool) -> String {
    let files = files(word, pair);
    let objects = files.iter().map(|(name, file)| {
        object([
            ("file", json(name)),
            ("order", json(order(file.byte_order()))),
            ("version", file.version().to_string()),
            ("patch", file.patch().to_string()),
            ("format", (file.format() as u32).to_string()),
            ("blocksize", file.blocksize().to_string()),
            ("maxchunks", file.maxchunks().to_string()),
            ("prefix", json(OsStr::from_bytes(file.prefix()))),
            ("filelength", file.image().len().to_string()),
            ("length", file.length().to_string()),
            ("trailing", trailing(file).to_string()),
        ])
    });
    let task = |task: Task| {
        let mut fields = vec![("filenumber", task.file().to_string())];
        fields.extend(task_fields(task, chunks));
        object(fields)
    };
    let fields = [
        ("file", json(word)),
        ("refusal", "0".to_string()),
        ("files", array(objects)),
        ("tasks", array(pair.tasks().map(task))),
    ];
    object(fields) + "\n"
}

#[cfg(test)]
mod tests {
    use super::*;
    use lapurmihi::{PairPlan, Plan};

    #[test]
    fn a_small_pair() {
        let first = Plan::new(512).blocks(3).task(2, 500).task(0, 600);
        let plan = PairPlan::new(first, Plan::new(512).blocks(2).task(1, 20));
        let [one, two] = plan.needs().unwrap();
        let (mut image0, mut image1) = (vec![0; one.image], vec![0; two.image]);
        let (mut table0, mut table1) = (vec![0; one.cells], vec![0; two.cells]);
        let images = [&mut image0[..], &mut image1[..]];
        let mut session = plan.open(images, [&mut table0, &mut table1]).unwrap();
        session.write(2, &[7; 500]).unwrap();
        session.write(1, &[7; 512]).unwrap();
        session.write(1, &[7; 1]).unwrap();
        let [mut first, second] = session.close().unwrap().map(<[u8]>::to_vec);
        first.push(0);
        let pair = Pair::from_bytes([first, second]).unwrap();
        let wanted = "\
rank  file  task  requested  chunk size  chunks  bytes    fill
   0     0     2        600        1024       0      0       -
   1     1     1         20         512       2    513  50.0 %
   2     0     1        500         512       1    500  97.6 %
 sum                                          3   1013  65.9 %
";
        assert_eq!(tasks(&pair), wanted);
        let wanted = "\
rank  file  chunk  offset  bytes
   1     1      1    1536    512
   1     1      2    2048      1
   2     0      1    1536    500
";
        assert_eq!(parts(&pair), wanted);
        let wanted = "\
file         night.sion
byte order   little
version      0, patch level 0
format       3
blocksize    512
tasks        2
most chunks  1
prefix       none
file length  3133 bytes
trailing     1 bytes
";
        let word = OsStr::new("night.sion");
        assert!(told(word, &pair).starts_with(wanted), "{}", told(word, &pair));
        assert!(told(word, &pair).contains("\nfile         night.sion.000001\n"));
        let json = whole(word, &pair, false);
        assert!(
            json.contains(r#""tasks":[{"filenumber":0,"task":2,"rank":0,"requested":600,"#),
            "{json}"
        );
    }
}
