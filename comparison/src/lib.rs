//! Holds the reference's records as the library lays them out, so that the two can be compared, and the comparisons themselves.

mod same;

pub use same::{same, same_list, same_session};

use lapurmihi::raw::{Fault, Loaded, LoadedNumbers, Session, SessionNumbers};

/// The reference's record of a session as the library has it.
pub fn session_of(session: &reference::Session) -> Session {
    let reference::Head { ranks, sizes, counts, .. } = session.head;
    Session { numbers: session_numbers(session), ranks, sizes, counts }
}

fn session_numbers(session: &reference::Session) -> SessionNumbers {
    let reference::Session { ref head, k: planned } = *session;
    let reference::Head { order, version, patch, format, blocksize, n, files, file, .. } = *head;
    let closed = head.closed;
    SessionNumbers { order, version, patch, format, blocksize, n, files, file, planned, closed }
}

/// The reference's record of a load as the library has it.
pub fn loaded_of(loaded: &reference::Loaded) -> Loaded {
    let reference::Head { ranks, sizes, counts, .. } = loaded.head;
    Loaded { numbers: loaded_numbers(loaded), ranks, sizes, counts }
}

fn loaded_numbers(loaded: &reference::Loaded) -> LoadedNumbers {
    let reference::Loaded { ref head, maxchunks } = *loaded;
    let reference::Head { order, version, patch, format, blocksize, n, files, file, .. } = *head;
    let closed = head.closed;
    LoadedNumbers { order, version, patch, format, blocksize, n, files, file, maxchunks, closed }
}

/// Where the reference's load broke off as the library says it.
pub fn fault_of(fault: &reference::Fault) -> Fault {
    let reference::Fault { kind, place, says, least, most, task, chunk, .. } = *fault;
    Fault { place, says, least, most, field: kind as u32, task, chunk }
}
