//! Holds the making of a container in two physical files.

use crate::create::{held_in_memory, write, zeros};
use crate::failure::Failure;
use crate::files::Place;
use crate::plan::{planned, Asked};
use crate::progress::Progress;
use crate::sources::Input;
use crate::text::{reason, shown};
use lapurmihi::{PairPlan, Refusal, TASKS};
use std::fs;

/// Fills both sessions over memory of their own, and makes both files of them. The first takes its name last, so that whoever finds it finds the
/// second too.
pub fn create_pair(
    asked: &Asked,
    inputs: &[Input],
    first: &Place,
    second: &Place,
) -> Result<(), Failure> {
    let container = shown(first.path);
    let plan = halves(asked, inputs)
        .map_err(|cause| Failure::Refused(format!("cannot create {container}: {cause}")))?;
    let refused = |refusal: Refusal| Failure::refused(&container, refusal);
    let needs = plan.needs().map_err(refused)?;
    let total = held_in_memory(inputs, first.path)?;
    let [mut table0, mut table1] = needs.map(|needs| vec![0; needs.cells]);
    let mut image0 = zeros(needs[0].image, first.path)?;
    let mut image1 = zeros(needs[1].image, second.path)?;

    let images = [&mut image0[..], &mut image1[..]];
    let mut session = plan.open(images, [&mut table0, &mut table1]).map_err(refused)?;
    let mut progress = Progress::new("stored", inputs.len(), total);
    for input in inputs {
        let size = session.chunk_size(input.rank).map_err(refused)?;
        let request = |bytes: &[u8]| session.write(input.rank, bytes).map_err(refused);
        input.read(size, &mut progress, request)?;
        progress.file();
    }
    let files = session.close().map_err(refused)?;
    drop(progress);
    make_both(files, first, second)
}

/// The first half of the files, rounded up, and the rest; or the cause for which there is no such plan.
fn halves(asked: &Asked, inputs: &[Input]) -> Result<PairPlan, String> {
    let numbered = |cause: String, refusal: Refusal| {
        format!("{cause} ({} {})", refusal.number(), refusal.name())
    };
    if inputs.len() < 2 || inputs.len() > 2 * TASKS {
        let cause = format!("two files hold 2 to {} tasks, not {}", 2 * TASKS, inputs.len());
        return Err(numbered(cause, Refusal::BadTasks));
    }
    let (one, two) = inputs.split_at(inputs.len().div_ceil(2));
    let plan = PairPlan::new(planned(asked, one)?, planned(asked, two)?);
    match (plan.needs(), lacking(inputs)) {
        (Err(Refusal::BadRank), Some(rank)) => {
            let last = inputs.len() - 1;
            let cause = format!(
                "the ranks of a container in two files are 0 to {last}, and none is {rank}"
            );
            Err(numbered(cause, Refusal::BadRank))
        }
        (Err(refusal), _) => Err(numbered(refusal.sentence().to_string(), refusal)),
        (Ok(_), _) => Ok(plan),
    }
}

/// The first rank that no file has, of as many ranks as there are files.
fn lacking(inputs: &[Input]) -> Option<u64> {
    let there = |rank: &u64| inputs.iter().any(|input| input.rank == *rank);
    (0..inputs.len() as u64).find(|rank| !there(rank))
}

/// Makes the second file, then the first. Where the first cannot be made, a second that is new is removed again.
fn make_both(files: [&[u8]; 2], first: &Place, second: &Place) -> Result<(), Failure> {
    let new = second.free()?.is_none();
    let mut progress = Progress::new("written", 0, (files[0].len() + files[1].len()) as u64);
    let names = write(second, files[1], &mut progress)?;
    let made = write(first, files[0], &mut progress);
    let made = made.map_err(|failure| {
        let name = shown(second.path);
        match new.then(|| fs::remove_file(second.path)) {
            Some(Ok(())) => failure,
            Some(Err(error)) => failure.and(format!("{name} stands: {}", reason(&error))),
            None => failure.and(format!("{name} was replaced already, and the other was not")),
        }
    })?;
    names.store()?;
    made.store()
}

#[cfg(test)]
mod tests {
    use super::*;
    use lapurmihi::{ByteOrder, Format, Plan};

    const ASKED: Asked = Asked {
        blocksize: 512,
        order: ByteOrder::Little,
        format: Format::V3,
        prefix: b"",
        blocks: None,
    };

    fn files(ranks: &[u64]) -> Vec<Input> {
        ranks.iter().map(|rank| Input::of(&format!("f{rank}"), *rank, 10)).collect()
    }

    #[test]
    fn the_first_half_is_rounded_up() {
        let plan = |ranks: &[u64]| Plan::new(512).tasks(ranks.iter().map(|rank| (*rank, 10)));
        let wanted = PairPlan::new(plan(&[2, 0]), plan(&[1]));
        assert_eq!(halves(&ASKED, &files(&[2, 0, 1])), Ok(wanted));
        let most: Vec<u64> = (0..2 * TASKS as u64).collect();
        assert!(halves(&ASKED, &files(&most)).is_ok());
    }

    #[test]
    fn other_ranks_are_told() {
        for (ranks, wanted) in [
            (&[0][..], "two files hold 2 to 128 tasks, not 1 (6 BAD_TASKS)"),
            (
                &[1, 2],
                "the ranks of a container in two files are 0 to 1, and none is 0 (8 BAD_RANK)",
            ),
            (
                &[0, 2, 1, 0],
                "the ranks of a container in two files are 0 to 3, and none is 3 (8 BAD_RANK)",
            ),
            (&[0, 0, 1], "f0 and f0 both have the rank 0 (8 BAD_RANK)"),
        ] {
            assert_eq!(halves(&ASKED, &files(ranks)), Err(wanted.to_string()));
        }
    }
}
