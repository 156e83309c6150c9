//! Holds the command `explain`: what refusals mean and what to do.

use crate::args::{digits, Args, Command};
use crate::failure::Failure;
use crate::page::{row, CALL, CONTAINER};
use crate::text::shown;
use lapurmihi::Refusal;
use std::ffi::OsStr;
use std::os::unix::ffi::OsStrExt;

pub const COMMAND: Command =
    Command { name: "explain", called: "sion explain", help: HELP, options: &[], run };

const HELP: &str = "\
usage: sion explain [NUMBER|NAME]...

Says what refusals mean and what to do, for containers that are refused and for calls of the library that are:
'sion explain 12', or 'sion explain bad_meta2_place'. All of them without a word.

The exit status is 0; 2 where there is no such refusal; 3 where nothing could be printed.
";

fn run(args: &Args) -> Result<(), Failure> {
    let found = args.words.iter().map(|word| {
        let unknown = || format!("there is no refusal '{}'", shown(word));
        find(word).ok_or_else(|| Failure::Usage(COMMAND.called, unknown()))
    });
    let mut refusals = found.collect::<Result<Vec<_>, _>>()?;
    if refusals.is_empty() {
        refusals = Refusal::ALL.to_vec();
    }
    let texts: Vec<String> = refusals.into_iter().map(explained).collect();
    crate::print(&texts.join("\n"))
}

/// A refusal by its number or its name, in letters of either case.
fn find(word: &OsStr) -> Option<Refusal> {
    let number = digits(word.as_bytes());
    let named = |refusal: &Refusal| {
        number == Some(refusal.number().into()) || word.eq_ignore_ascii_case(refusal.name())
    };
    Refusal::ALL.iter().copied().find(named)
}

fn explained(refusal: Refusal) -> String {
    let (number, name, sentence) = (refusal.number(), refusal.name(), refusal.sentence());
    let mut text = format!("{number} {name}\n    {sentence}\n");
    for section in [CONTAINER, CALL] {
        if let Some(advice) = row(section, refusal) {
            let lines = [
                section,
                "\n    means  ",
                &advice.means,
                "\n    do     ",
                &advice.what_to_do,
                "\n",
            ];
            text.extend(lines);
        }
    }
    text
}

#[cfg(test)]
mod tests {
    use super::*;

    #[test]
    fn refusals_are_found_by_number_and_name() {
        for word in ["16", "016", "NO_CHUNK_LEFT", "no_chunk_left"] {
            assert_eq!(find(OsStr::new(word)), Some(Refusal::NoChunkLeft));
        }
        for word in ["0", "24", "NO_CHUNK_", "", "-1", "99999999999999999999"] {
            assert_eq!(find(OsStr::new(word)), None);
        }
    }

    #[test]
    fn both_sections_are_shown() {
        let text = explained(Refusal::NoOrder);
        assert!(text.starts_with("2 NO_ORDER\n    the image is under 8 bytes, or "), "{text}");
        assert_eq!(text.matches("\n    means  ").count(), 2);
        let text = explained(Refusal::NotClosed);
        assert!(text.contains("\nA container is refused\n    means  the night was never closed"));
        assert!(!text.contains(CALL));
    }
}
