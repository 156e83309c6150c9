//! Holds the work on several containers, of which each is done, whatever becomes of the others.

use crate::args::Command;
use crate::failure::{Failure, REFUSED, SYSTEM};
use crate::input::{Found, Unopened};
use crate::progress::Progress;
use crate::text::{json, object, reason};
use crate::{input, page};
use lapurmihi::{Fault, LoadError, OpenError};
use std::ffi::{OsStr, OsString};

/// Has each container that the words name told, or why it cannot be opened, and fails with the worst status. Where something cannot be
/// told, nothing more is done.
pub fn each(
    command: &Command,
    words: &[OsString],
    mut tell: impl FnMut(&OsStr, &Result<Found, Unopened>) -> Result<(), Failure>,
) -> Result<(), Failure> {
    let wrong = match words {
        [] => Some(format!("{} takes at least one file", command.name)),
        _ => input::named_twice(words),
    };
    if let Some(what) = wrong {
        return Err(Failure::Usage(command.called, what));
    }
    let mut progress = Progress::new("looked at", words.len(), 0).beside_output();
    let mut worst = 0;
    for word in words {
        let opened = input::open(word);
        progress.clear();
        tell(word, &opened)?;
        progress.file();
        worst = worst.max(status(&opened));
    }
    match worst {
        0 => Ok(()),
        status => Err(Failure::Told(status)),
    }
}

fn status(opened: &Result<Found, Unopened>) -> u8 {
    match opened.as_ref().map_err(|unopened| &unopened.error) {
        Ok(_) => 0,
        Err(OpenError::Refused(_)) => REFUSED,
        Err(OpenError::File(_)) => SYSTEM,
    }
}

/// Why a container cannot be opened, as a line of JSON: its file is the one at fault.
pub fn unopened(Unopened { word, error }: &Unopened) -> String {
    let mut fields = vec![("file", json(word))];
    match error {
        OpenError::File(error) => fields.push(("error", json(reason(error)))),
        OpenError::Refused(LoadError { refusal, fault, .. }) => {
            fields.push(("refusal", refusal.number().to_string()));
            fields.push(("name", json(refusal.name())));
            if let Some(advice) = page::advice(*refusal) {
                fields.push(("means", json(advice.means)));
                fields.push(("do", json(advice.what_to_do)));
            }
            fields.extend(place(fault));
        }
    }
    object(fields) + "\n"
}

/// Where a load broke off, as fields of JSON; a task or a chunk of 0 is none.
fn place(fault: &Fault) -> [(&'static str, String); 7] {
    [
        ("place", fault.place().to_string()),
        ("field", json(fault.field().name())),
        ("task", fault.task().unwrap_or(0).to_string()),
        ("chunk", fault.chunk().unwrap_or(0).to_string()),
        ("says", fault.says().to_string()),
        ("least", fault.least().to_string()),
        ("most", fault.most().to_string()),
    ]
}
