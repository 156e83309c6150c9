//! Holds the command `cat`: one task's bytes on standard output.

use crate::args::{digits, Args, Command};
use crate::failure::Failure;
use crate::input::{name, opened, PIECE};
use crate::progress::Progress;
use crate::system::standard_output;
use crate::text::shown;
use crate::unprinted;
use std::io::Write;
use std::os::unix::ffi::OsStrExt;

pub const COMMAND: Command =
    Command { name: "cat", called: "sion cat", help: HELP, options: &[], run };

const HELP: &str = "\
usage: sion cat CONTAINER RANK

Puts the bytes of the task with a rank on standard output. CONTAINER '-' is standard input. Of a container in two
files CONTAINER is the first, and the second is found beside it.

The exit status is 0; 1 where the container is refused or has no such rank (14 NO_TASK); 2 where the command line is
wrong; 3 where the container could not be read, or standard output could not be written.
";

fn run(args: &Args) -> Result<(), Failure> {
    let wrong = |what: String| Failure::Usage(COMMAND.called, what);
    let [container, rank] = &args.words[..] else {
        return Err(wrong("cat takes a container and a rank".to_string()));
    };
    let not_rank = || wrong(format!("a rank is a number, not '{}'", shown(rank)));
    let number = digits(rank.as_bytes()).ok_or_else(not_rank)?;
    let file = opened(container)?;
    let task = file.task_by_rank(number).map_err(|refusal| {
        let (container, rank) = (name(container), shown(rank));
        let (number, name) = (refusal.number(), refusal.name());
        Failure::Refused(format!("{container} has no rank {rank} ({number} {name})"))
    })?;
    let mut out = standard_output().map_err(|error| unprinted(&error))?;
    let mut progress = Progress::new("written", 0, task.total()).beside_output();
    for piece in task.chunks().flat_map(|chunk| chunk.chunks(PIECE)) {
        out.write_all(piece).map_err(|error| unprinted(&error))?;
        progress.bytes(piece.len());
    }
    Ok(())
}
