//! Holds the comparisons of values, lists and sessions' records: each passes, or says in words what the library has and what is wanted by the
//! reference or the papers.

use lapurmihi::raw::Session;
use std::fmt::Debug;

pub fn same<T: PartialEq + Debug>(what: &str, library: T, wanted: T) -> Result<(), String> {
    if library == wanted {
        Ok(())
    } else {
        Err(format!("{what}: the library has {library:?}, wanted is {wanted:?}"))
    }
}

/// Two lists, or the first place, counted from 0, where they differ.
pub fn same_list<T: PartialEq + Debug>(
    what: &str,
    library: &[T],
    wanted: &[T],
) -> Result<(), String> {
    if library == wanted {
        return Ok(());
    }
    match library.iter().zip(wanted).position(|(one, other)| one != other) {
        Some(at) => same(&format!("{what} at {at}"), &library[at], &wanted[at]),
        None => same(&format!("length of {what}"), library.len(), wanted.len()),
    }
}

/// Two records of sessions, with their lists.
pub fn same_session(library: &Session, wanted: &Session) -> Result<(), String> {
    same("the session's numbers", library.numbers, wanted.numbers)?;
    same_list("the session's ranks", &library.ranks, &wanted.ranks)?;
    same_list("the session's sizes", &library.sizes, &wanted.sizes)?;
    same_list("the session's counts", &library.counts, &wanted.counts)
}
