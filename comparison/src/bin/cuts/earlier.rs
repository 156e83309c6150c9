//! Holds what stands in an image before a session is opened over it, and the bytes that sessions write.

use crate::both::{Both, Call};
use crate::cases::Case;
use comparison::same;
use lapurmihi::raw::Plan;

/// What an image may hold before.
#[derive(Clone, Copy, Debug)]
pub enum Earlier {
    Zeros,
    Nines,
    /// A complete container of the same tasks, in the other byte order and format, with every chunk full.
    OtherContainer,
    /// The complete container of the same session, with other bytes.
    SameContainer,
}

impl Earlier {
    pub const ALL: [Earlier; 4] =
        [Earlier::Zeros, Earlier::Nines, Earlier::OtherContainer, Earlier::SameContainer];

    /// What a load of it gives: neither zeros nor nines have a mark.
    pub fn number(self) -> u32 {
        match self {
            Earlier::Zeros | Earlier::Nines => 1,
            Earlier::OtherContainer | Earlier::SameContainer => 0,
        }
    }

    /// The image before a session with this plan, and no record yet.
    pub fn image(self, case: &Case, plan: Plan) -> Result<Both, String> {
        let other = Plan { order: 1 - plan.order, format: 7 - plan.format, ..plan };
        match self {
            Earlier::Zeros => Ok(Both::new(case, 0)),
            Earlier::Nines => Ok(Both::new(case, 9)),
            Earlier::OtherContainer => container(case, other, &full(case)),
            Earlier::SameContainer => container(case, plan, &accepted(case)),
        }
    }
}

/// For each chunk that there is room for a request, of as many bytes as it holds.
fn full(case: &Case) -> Vec<(u64, usize)> {
    let blocksize = u64::from(case.blocksize);
    let holds = case.sizes.iter().map(|size| (size.div_ceil(blocksize) * blocksize) as usize);
    (1..).zip(holds).flat_map(|request| vec![request; case.k as usize]).collect()
}

/// The requests of the session that are accepted.
fn accepted(case: &Case) -> Vec<(u64, usize)> {
    let accepted = case.requests.iter().filter(|&&(.., number, _)| number == 0);
    accepted.map(|&(task, length, ..)| (task, length)).collect()
}

/// The container that a session with these requests leaves.
fn container(case: &Case, plan: Plan, requests: &[(u64, usize)]) -> Result<Both, String> {
    let mut both = Both::new(case, 9);
    let mut call = |call: &Call| {
        let (number, _) = both.call(call, None)?;
        same("the answer", number, 0)
    };
    call(&Call::Open { plan, case, prefix: b"earlier" })?;
    for &(task, length) in requests {
        let bytes: Vec<u8> = (0..length).map(|at| 210 + (at % 40) as u8).collect();
        call(&Call::Write { task, bytes: &bytes })?;
    }
    call(&Call::Close)?;
    Ok(Both::new(case, 0).over(&both.ours.image))
}

/// The bytes of a request: none of them stands in an image before.
pub fn bytes(request: usize, length: usize) -> Vec<u8> {
    (0..length).map(|at| 10 + ((31 * request + 7 * at) % 200) as u8).collect()
}
