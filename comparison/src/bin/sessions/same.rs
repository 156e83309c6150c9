//! Holds the comparisons: each passes, or says in words what the library has and what is wanted by the reference or the paper.

use crate::memory::{LibraryMemory, Memory};
use comparison::{loaded_of, same_session, session_of};

pub use comparison::{same, same_list};

/// All that a call works on: both records with their lists, and the lent memory.
pub fn same_memory(library: &LibraryMemory, wanted: &Memory) -> Result<(), String> {
    same_session(&library.session, &session_of(&wanted.session))?;
    let (ours, theirs) = (&library.loaded, loaded_of(&wanted.loaded));
    same("the loaded numbers", ours.numbers, theirs.numbers)?;
    same_list("the loaded ranks", &ours.ranks, &theirs.ranks)?;
    same_list("the loaded sizes", &ours.sizes, &theirs.sizes)?;
    same_list("the loaded counts", &ours.counts, &theirs.counts)?;
    same_lent(library, wanted)
}

/// The lent memory, and what stands behind it.
pub fn same_lent(library: &LibraryMemory, wanted: &Memory) -> Result<(), String> {
    same_list("the image", &library.image.values, &wanted.image.values)?;
    same_list("the table", &library.table.values, &wanted.table.values)?;
    same_list("the buffer", &library.buffer.values, &wanted.buffer.values)
}
