//! Holds the library's side of each call, whole or within a budget of byte stores.

use crate::both::{Answer, Call, Held};
use lapurmihi::raw::{self, Session};

/// Makes the call, and gives the answer.
pub fn answer(call: &Call, held: &mut Held<Session>, budget: Option<u64>) -> Answer {
    let Held { session, image, table } = held;
    match *call {
        Call::Open { plan, case, prefix } => {
            let (ranks, sizes) = (&case.ranks, &case.sizes);
            let opened = match budget {
                None => raw::open(plan, ranks, sizes, prefix, image, table),
                Some(budget) => raw::open_within(plan, ranks, sizes, prefix, image, table, budget),
            };
            *session = opened.session;
            (opened.refusal, 0)
        }
        Call::Write { task, bytes } => {
            let refusal = match budget {
                None => raw::write(session, image, table, task, bytes),
                Some(budget) => raw::write_within(session, image, table, task, bytes, budget),
            };
            (refusal, 0)
        }
        Call::Close => {
            let closed = match budget {
                None => raw::close(session, image, table),
                Some(budget) => raw::close_within(session, image, table, budget),
            };
            (closed.refusal, closed.length)
        }
    }
}
