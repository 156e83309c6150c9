//! Holds the command `check`: containers judged, one line for each.

use crate::args::{Args, Command, Known};
use crate::each::{each, unopened};
use crate::failure::Failure;
use crate::input::{Found, Unopened};
use crate::text::{array, json, object, shown};
use crate::{input, page, print, tell};
use lapurmihi::{LoadError, OpenError};
use std::ffi::OsStr;
use std::io::{stderr, IsTerminal};

pub const COMMAND: Command = Command {
    name: "check",
    called: "sion check",
    help: HELP,
    options: &[Known::Flag("--quiet"), Known::Flag("--json")],
    run,
};

const HELP: &str = "\
usage: sion check [--quiet] [--json] FILE...

Judges containers of any size, one line for each:

    night.sion: 0 2 1 27 10           accepted; 2 tasks, at most 1 chunk for each, their bytes
    night.sion: 13 BAD_META2 at byte 4640: chunk 2 of task 1 says 601 bytes, a chunk holds 512
                                      refused; 'sion explain 13' says what to do

The byte is where the first field that is wrong stands, and 'xxd -s 4640 -l 8 night.sion' shows it; of a file that is
cut off it is the file's length.

A container in two files is named by the first, and the second, FILE.000001, is found beside it: its line has the
tasks of both, by their ranks from 0 up, and a refusal names the one of the two that is at fault.

FILE '-' is standard input; what comes through a pipe is held in memory. What follows a container in its file is
not looked at; 'sion show' counts it.

    --quiet    print nothing but failures of the system; the exit status says the rest
    --json     print a JSON object for each file: its refusal is 0 and the rest as above, or its name,
               what it means, what to do, and the place, field, task and chunk at which it broke off with
               what the field says and the least and most that it may; a file that cannot be read has an error

Every file is judged, also after one that fails, but for a file that is shortened while it is read: that ends the
run with 3. The exit status is 0 where all were accepted; 3 where a file could not be read or nothing could be
printed, else 1 where one was refused; 2 where the command line is wrong.
";

fn run(args: &Args) -> Result<(), Failure> {
    let (quiet, json) = (args.flag("--quiet"), args.flag("--json"));
    each(&COMMAND, &args.words, |word, opened| match opened {
        _ if json && !quiet => print(&judged(word, opened)),
        Err(unopened @ Unopened { error: OpenError::File(_), .. }) => {
            tell(&input::failure(unopened));
            Ok(())
        }
        _ if quiet => Ok(()),
        Ok(found) => print(&line(word, found)),
        Err(Unopened { word, error: OpenError::Refused(error) }) => refused(word, error),
    })
}

/// The line that sioncheck prints too: 0, the tasks, the greatest number of chunks, each task's bytes.
fn line(word: &OsStr, found: &Found) -> String {
    let tasks = found.tasks();
    let totals: String = tasks.iter().map(|task| format!(" {}", task.total())).collect();
    format!("{}: 0 {} {}{totals}\n", shown(word), tasks.len(), found.maxchunks())
}

/// The line of a refusal, and for a person at a terminal what it means.
fn refused(word: &OsStr, error: &LoadError) -> Result<(), Failure> {
    print(&format!("{}: {error}\n", shown(word)))?;
    if let (true, Some(advice)) = (stderr().is_terminal(), page::advice(error.refusal)) {
        tell(&Failure::Refused(format!("{}: {advice}", input::name(word))));
    }
    Ok(())
}

/// A line of JSON.
fn judged(word: &OsStr, opened: &Result<Found, Unopened>) -> String {
    let found = match opened {
        Ok(found) => found,
        Err(error) => return unopened(error),
    };
    let tasks = found.tasks();
    let fields = [
        ("file", json(word)),
        ("refusal", "0".to_string()),
        ("tasks", tasks.len().to_string()),
        ("maxchunks", found.maxchunks().to_string()),
        ("totals", array(tasks.iter().map(|task| task.total().to_string()))),
    ];
    object(fields) + "\n"
}
