//! Holds the plan of a container that is created, and why the library refuses one, as who asked for it has to know.

use crate::sources::Input;
use lapurmihi::{ByteOrder, Format, Plan, Refusal, BLOCKS, TASKS};

/// What the options ask for.
#[derive(Debug, PartialEq)]
pub struct Asked<'a> {
    pub blocksize: u32,
    pub order: ByteOrder,
    pub format: Format,
    pub prefix: &'a [u8],
    /// The blocks; if none are said, the fewest for which no requested size is too large.
    pub blocks: Option<u32>,
}

/// A task for each file, spread over the blocks; or the cause for which there is no such plan.
pub fn planned(asked: &Asked, inputs: &[Input]) -> Result<Plan, String> {
    let most = BLOCKS as u32;
    let fits = |&blocks: &u32| asked.spread(blocks, inputs).needs() != Err(Refusal::BadSize);
    let blocks = asked.blocks.or_else(|| (1..most).find(fits)).unwrap_or(most);
    let plan = asked.spread(blocks, inputs);
    match plan.needs() {
        Ok(_) => Ok(plan),
        Err(refusal) => {
            let (number, name) = (refusal.number(), refusal.name());
            Err(format!("{} ({number} {name})", asked.cause(refusal, blocks, inputs)))
        }
    }
}

impl Asked<'_> {
    fn spread(&self, blocks: u32, inputs: &[Input]) -> Plan {
        let plan = Plan::new(self.blocksize).byte_order(self.order).format(self.format);
        let tasks = inputs.iter().map(|input| (input.rank, share(input, blocks)));
        plan.prefix(self.prefix).blocks(blocks).tasks(tasks)
    }

    /// The file, the rank or the option at fault. Which one it is among many, the library says of each alone.
    fn cause(&self, refusal: Refusal, blocks: u32, inputs: &[Input]) -> String {
        let sentence = refusal.sentence();
        let alone = |input: &&Input| {
            let one = Plan::new(self.blocksize).task(input.rank, share(input, blocks));
            one.blocks(blocks).needs() == Err(refusal)
        };
        let at_fault = inputs.iter().find(alone);
        match (refusal, at_fault, twice(inputs)) {
            (Refusal::BadBlocksize, ..) => {
                format!("--blocksize {}; {sentence}", self.blocksize)
            }
            (Refusal::BadTasks, ..) => {
                format!("{} files; a container holds {TASKS} tasks", inputs.len())
            }
            (Refusal::BadRank, Some(Input { source, .. }), _) => {
                format!("the rank of {} is too great; {sentence}", source.name)
            }
            (Refusal::BadRank, None, Some((one, other))) => {
                let (one, other, rank) = (&one.source.name, &other.source.name, one.rank);
                format!("{one} and {other} both have the rank {rank}")
            }
            (Refusal::BadSize, Some(Input { source, length, .. }), _) => {
                let (name, most) = (&source.name, format!("--blocks {blocks}"));
                let room = self.blocks.map_or("a task", |_| &most[..]);
                format!("{name} has {length} bytes, too many for {room}; {sentence}")
            }
            (Refusal::BadPlanned, ..) => format!("--blocks {blocks}; {sentence}"),
            (Refusal::LongPrefix, ..) => {
                format!("--prefix has {} bytes; {sentence}", self.prefix.len())
            }
            _ => sentence.to_string(),
        }
    }
}

/// The size that a file requests for its chunks: an even share of its bytes for each block, at least 1. A chunk holds this or more, so that
/// the file fits, and may use fewer chunks than there are blocks.
fn share(input: &Input, blocks: u32) -> u64 {
    input.length.div_ceil(blocks.max(1).into()).max(1)
}

/// Two files of one rank.
fn twice(inputs: &[Input]) -> Option<(&Input, &Input)> {
    (1..inputs.len()).find_map(|at| {
        let (before, other) = (&inputs[..at], &inputs[at]);
        before.iter().find(|one| one.rank == other.rank).map(|one| (one, other))
    })
}

#[cfg(test)]
mod tests {
    use super::*;

    const GIB: u64 = 1 << 30;
    const ASKED: Asked = Asked {
        blocksize: 512,
        order: ByteOrder::Little,
        format: Format::V3,
        prefix: b"",
        blocks: None,
    };

    fn files(ranks_and_lengths: &[(u64, u64)]) -> Vec<Input> {
        let file = |&(rank, length)| Input::of(&format!("f{rank}.{length}"), rank, length);
        ranks_and_lengths.iter().map(file).collect()
    }

    fn lengths(lengths: &[u64]) -> Vec<Input> {
        files(&(0..).zip(lengths.iter().copied()).collect::<Vec<_>>())
    }

    fn plan(blocks: u32, sizes: &[u64]) -> Result<Plan, String> {
        Ok(Plan::new(512).blocks(blocks).tasks((0..).zip(sizes.iter().copied())))
    }

    #[test]
    fn as_few_blocks_as_the_requested_size_allows() {
        assert_eq!(planned(&ASKED, &lengths(&[0, 5, GIB])), plan(1, &[1, 5, GIB]));
        assert_eq!(planned(&ASKED, &lengths(&[3, GIB + 1])), plan(2, &[2, GIB / 2 + 1]));
        assert_eq!(planned(&ASKED, &lengths(&[32 * GIB])), plan(32, &[GIB]));
    }

    /// The greatest requested size is a multiple of every blocksize, so that no chunk holds more than it, and no file needs fewer blocks.
    #[test]
    fn rounding_up_spares_no_block() {
        for blocksize in [512, 4 << 20] {
            let asked = Asked { blocksize, ..ASKED };
            for (length, blocks) in [(GIB, 1), (GIB + 1, 2), (31 * GIB, 31), (31 * GIB + 1, 32)] {
                let size = length.div_ceil(blocks.into());
                let plan = Plan::new(blocksize).blocks(blocks).task(0, size);
                assert_eq!(planned(&asked, &lengths(&[length])), Ok(plan));
            }
        }
    }

    #[test]
    fn as_many_blocks_as_are_asked_for() {
        let asked = Asked { blocks: Some(3), ..ASKED };
        assert_eq!(planned(&asked, &lengths(&[0, 7])), plan(3, &[1, 3]));
        let asked = Asked { blocks: Some(2), ..ASKED };
        let around_two_chunks = lengths(&[1023, 1024, 1025]);
        assert_eq!(planned(&asked, &around_two_chunks), plan(2, &[512, 512, 513]));
    }

    #[test]
    fn options_make_the_plan() {
        let (order, format, prefix) = (ByteOrder::Big, Format::V4, b"run");
        let asked = Asked { blocksize: 1024, order, format, prefix, ..ASKED };
        let wanted = Plan::new(1024).byte_order(order).format(format).prefix("run").task(9, 4);
        assert_eq!(planned(&asked, &files(&[(9, 4)])), Ok(wanted));
    }

    #[test]
    fn a_cause_names_what_is_at_fault() {
        let two = lengths(&[1, 2]);
        let told = |asked: Asked, files: &[Input], wanted: &str| {
            let cause = planned(&asked, files).unwrap_err();
            let (number, sentence) = cause.split_at(cause.rfind(" (").unwrap());
            assert!(number.starts_with(wanted), "{cause}");
            assert!(sentence.starts_with(" ("), "{cause}");
        };
        told(Asked { blocksize: 100, ..ASKED }, &two, "--blocksize 100; blocksize is no power");
        told(Asked { blocks: Some(0), ..ASKED }, &two, "--blocks 0; the planned blocks");
        told(Asked { blocks: Some(u32::MAX), ..ASKED }, &two, "--blocks 4294967295; ");
        told(Asked { prefix: &[7; 1025], ..ASKED }, &two, "--prefix has 1025 bytes; ");
        told(ASKED, &lengths(&[1; 65]), "65 files; a container holds 64 tasks");
        let same = files(&[(1, 1), (7, 2), (2, 3), (7, 4)]);
        told(ASKED, &same, "f7.2 and f7.4 both have the rank 7");
        told(
            ASKED,
            &files(&[(0, 1), (u64::MAX, 2)]),
            "the rank of f18446744073709551615.2 is too great",
        );
        let long = lengths(&[1, 32 * GIB + 1]);
        told(ASKED, &long, "f1.34359738369 has 34359738369 bytes, too many for a task; ");
        let asked = Asked { blocks: Some(2), ..ASKED };
        told(
            asked,
            &lengths(&[1, 3 * GIB]),
            "f1.3221225472 has 3221225472 bytes, too many for --blocks 2; ",
        );
    }
}
