//! Holds the second implementation of document 01, as document 02 changes it: opening, filling, closing, loading and reading one container in
//! a single file or in a pair of them; packing one in a single file; what a power cut leaves of the calls that store; and for tests the tally,
//! a generator, and containers whose fields are set by name.

mod bytes;
mod container;
mod drive;
mod fault;
mod generator;
mod layout;
mod load;
mod pack;
pub mod pair;
mod plan;
mod read;
mod record;
mod session;
mod tally;
#[cfg(test)]
mod tests;

pub use bytes::Order;
pub use container::{Container, Field};
pub use fault::{Fault, Kind};
pub use generator::Rng;
pub use layout::{capacity, chunk_size, meta1_end, Layout, IDLE_FORMAT, MARK, MAX_TASKS};
pub use load::load;
pub use pack::{pack, pack_within, packed_length};
pub use plan::Plan;
pub use read::{chunk, length, prefix, read, total};
pub use record::{Head, Loaded, Session};
pub use session::{close, close_within, open, open_within, write, write_within};
pub use tally::{Answer, PairAnswer, PairTally, PairTask, Tally};

/// Passes if the rule holds, else refuses with the paper's number.
fn demand(holds: bool, number: u32) -> Result<(), u32> {
    if holds {
        Ok(())
    } else {
        Err(number)
    }
}
