//! Holds the reference's side of each call, whole or within a budget of byte stores.

use crate::both::{Answer, Call, Held};
use crate::cases::Case;
use lapurmihi::raw::Plan;
use reference::Session;

/// Makes the call, and gives the answer.
pub fn answer(call: &Call, held: &mut Held<Session>, budget: Option<u64>) -> Answer {
    let Held { session, image, table } = held;
    let answer = match *call {
        Call::Open { plan, case, prefix } => {
            let opened = open(plan, case, prefix, image, table, budget);
            *session = opened.clone().unwrap_or_else(|_| Session::refused());
            opened.map(|_| 0)
        }
        Call::Write { task, bytes } => {
            let written = match budget {
                None => reference::write(session, image, table, task, bytes),
                Some(budget) => reference::write_within(session, image, table, task, bytes, budget),
            };
            written.map(|()| 0)
        }
        Call::Close => match budget {
            None => reference::close(session, image, table),
            Some(budget) => reference::close_within(session, image, table, budget),
        },
    };
    (answer.err().unwrap_or(0), answer.unwrap_or(0))
}

fn open(
    plan: Plan,
    case: &Case,
    prefix: &[u8],
    image: &mut [u8],
    table: &mut [i64],
    budget: Option<u64>,
) -> Result<Session, u32> {
    let Plan { order, version, patch, format, blocksize, planned: k } = plan;
    let (ranks, sizes) = (&case.ranks, &case.sizes);
    match budget {
        None => reference::open(
            order, version, patch, format, blocksize, ranks, sizes, prefix, k, image, table,
        ),
        Some(budget) => reference::open_within(
            order, version, patch, format, blocksize, ranks, sizes, prefix, k, image, table, budget,
        ),
    }
}
