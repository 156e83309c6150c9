//! Opens, fills, closes, checks and reads one container in the SIONlib file format, in files or over memory that the caller lends.
//!
//! A container holds the bytes of up to 64 tasks, in chunks. A task requests a size for its chunks, and a chunk holds this size rounded up to
//! a multiple of the blocksize. The work is done by a library whose every function is proved. Every call is accepted or refused with one of
//! the [`Refusal`]s; a refused load has a [`LoadError`], which also says where it broke off. Tasks and chunks are counted from 1. A session,
//! and a container over lent memory, allocate nothing but a [`Plan`]'s lists and prefix; [`Container::open`] and its kin own their table and
//! what cannot be mapped.
//!
//! A container in two physical files is a [`Pair`], made with a [`PairPlan`]; its tasks are named by their global ranks.
//!
//! The library stores into an image byte by byte, in an order that lets a power cut be told from a container. For a program's own tests the
//! feature `cuts`, which is off by default and links a second static library, has `Plan::open_within`, `Session::write_within` and
//! `Session::close_within`: they leave in an image what a cut after so many stores would leave.
//!
//! ```
//! use lapurmihi::{Container, Plan, CELLS};
//!
//! // Two tasks of ranks 7 and 8, which request 500 and 600 bytes for a chunk, with room for three chunks each: of 512 and 1024 bytes.
//! let plan = Plan::new(512).prefix("night").blocks(3).task(7, 500).task(8, 600);
//! let needs = plan.needs()?;
//! let (mut image, mut table) = (vec![0; needs.image], vec![0; needs.cells]);
//!
//! let mut session = plan.open(&mut image, &mut table)?;
//! session.write(1, b"Lights out at ten. ")?;
//! session.write(2, b"Rain. ")?;
//! session.write(1, b"All quiet.")?;
//! let bytes = session.close()?; // the container, ready for a file
//!
//! let mut table = [0; CELLS];
//! let container = Container::load(bytes, &mut table)?;
//! for task in container.tasks() {
//!     println!("rank {}: {} bytes", task.rank(), task.total());
//! }
//! assert_eq!(container.task(1)?.chunk(1)?, b"Lights out at ten. All quiet.");
//! assert_eq!(std::io::read_to_string(container.task(2)?.stream())?, "Rain. ");
//! # Ok::<(), Box<dyn std::error::Error>>(())
//! ```

#![warn(missing_docs)]

/// The Rust of the project's own documents, run with the doc examples.
#[cfg(doctest)]
mod documents {
    #[doc = include_str!("../../../README.md")]
    struct Readme;
    #[doc = include_str!("../README.md")]
    struct Crate;
    #[doc = include_str!("../../../docs/USING.md")]
    struct Using;
}

mod container;
mod fault;
mod in_file;
mod load_error;
mod mapping;
mod memory;
mod open_error;
mod pair;
mod pair_session;
pub mod raw;
mod refusal;
mod session;
mod stream;
mod task;
mod writer;

pub use container::Container;
pub use fault::{Fault, Field};
pub use in_file::InFile;
pub use load_error::LoadError;
pub use open_error::OpenError;
pub use pair::{Pair, PairFile};
pub use pair_session::{PairPlan, PairSession};
pub use raw::{BLOCKS, CELLS, TASKS};
pub use refusal::Refusal;
pub use session::{ByteOrder, Format, Needs, Plan, Session};
pub use stream::Stream;
pub use task::Task;
pub use writer::Writer;
