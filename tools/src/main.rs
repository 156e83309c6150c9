//! Holds the program `sion`, which works with containers in files: its commands and its exit status.

mod args;
mod cat;
mod check;
mod create;
mod create_pair;
mod each;
mod explain;
mod extract;
mod failure;
mod files;
mod input;
mod page;
mod plan;
mod progress;
mod show;
mod show_pair;
mod signals;
mod sources;
mod system;
mod text;

use args::{Args, Command};
use failure::Failure;
use std::ffi::OsString;
use std::io::{self, Write};
use std::process::ExitCode;

const COMMANDS: [&Command; 6] = [
    &check::COMMAND,
    &show::COMMAND,
    &create::COMMAND,
    &extract::COMMAND,
    &cat::COMMAND,
    &explain::COMMAND,
];

/// Commands of other programs, and what does the like here.
const ELSEWHERE: [(&str, &str); 2] = [
    ("pack", "create puts files into a container"),
    ("unpack", "extract takes files out of a container"),
];

const HELP: &str = "\
usage: sion COMMAND ...

Works with containers in the SIONlib file format, each of which holds the bytes of up to 64 tasks.

    sion check   [--quiet] [--json] FILE...            judge containers of any size, one line a file
    sion show    [--chunks] [--json] FILE...           show what containers hold
    sion create  [OPTIONS] CONTAINER [RANK=]FILE...    put each file into a task of its own
    sion extract [--force] CONTAINER FOLDER            take each task's bytes out into a file
    sion cat     CONTAINER RANK                        put one task's bytes on standard output
    sion explain [NUMBER|NAME]...                      say what refusals mean and what to do
    sion --version                                     say which version this is

'sion COMMAND --help' says more of a command. The exit status is 0 where all was done; 1 where a container, or what
'create' was asked for, is refused, or a rank is not there; 2 where the command line is wrong; 3 where a file or the
system failed.
";

fn main() -> ExitCode {
    signals::install();
    match run(std::env::args_os().skip(1)) {
        Ok(()) => ExitCode::SUCCESS,
        Err(failure) => {
            tell(&failure);
            ExitCode::from(failure.status())
        }
    }
}

fn run(mut line: impl Iterator<Item = OsString>) -> Result<(), Failure> {
    let name = line.next().ok_or(Failure::NoCommand(HELP))?;
    match name.to_str() {
        Some("--help" | "-h") => return print(HELP),
        Some("--version") => return print(concat!("sion ", env!("CARGO_PKG_VERSION"), "\n")),
        _ => {}
    }
    let Some(command) = COMMANDS.into_iter().find(|command| name == command.name) else {
        let hint = ELSEWHERE.iter().find(|(other, _)| name == *other);
        let hint = hint.map_or(String::new(), |(_, hint)| format!("; {hint}"));
        let unknown = format!("there is no command '{}'{hint}", text::shown(&name));
        return Err(Failure::Usage("sion", unknown));
    };
    let told = |message| Failure::Usage(command.called, message);
    let args = Args::parse(line, command.options).map_err(told)?;
    if args.help {
        return print(command.help);
    }
    (command.run)(&args)
}

/// Tells a failure on standard error. Nobody is left to tell where that fails too.
fn tell(failure: &Failure) {
    let _ = io::stderr().write_all(failure.text().as_bytes());
}

/// Puts a text on standard output.
fn print(text: &str) -> Result<(), Failure> {
    let printed = system::standard_output().and_then(|mut out| out.write_all(text.as_bytes()));
    printed.map_err(|error| unprinted(&error))
}

/// Why something cannot be put on standard output.
fn unprinted(error: &io::Error) -> Failure {
    Failure::system("write to", "standard output", error)
}

#[cfg(test)]
mod tests {
    use super::*;

    #[test]
    fn the_help_names_every_command() {
        for command in COMMANDS {
            assert!(HELP.contains(&format!("\n    {:<13}", command.called)), "{}", command.name);
            assert!(command.help.starts_with(&format!("usage: {} ", command.called)));
            assert!(command.help.contains("The exit status is 0"), "{}", command.name);
            for option in command.options {
                let lines = command.help.lines();
                let told =
                    lines.filter(|line| line.starts_with(&format!("    {} ", option.name())));
                assert_eq!(told.count(), 1, "{} {}", command.name, option.name());
            }
        }
        assert!(HELP.contains(&format!("up to {} tasks", lapurmihi::TASKS)));
    }
}
