//! Holds the command `create`: files put into a container, each into a task of its own.

use crate::args::{Args, Command, Known};
use crate::create_pair::create_pair;
use crate::failure::Failure;
use crate::files::{Names, Place, Sparse};
use crate::plan::{planned, Asked};
use crate::progress::Progress;
use crate::sources::{inputs, Input};
use crate::system::{free_memory, Zeros};
use crate::text::{reason, shown};
use lapurmihi::{ByteOrder, Format, Pair, Refusal};
use std::os::unix::ffi::OsStrExt;
use std::path::Path;

pub const COMMAND: Command = Command {
    name: "create",
    called: "sion create",
    help: HELP,
    options: &[
        Known::Valued("--blocksize"),
        Known::Valued("--order"),
        Known::Valued("--format"),
        Known::Valued("--prefix"),
        Known::Valued("--blocks"),
        Known::Valued("--files"),
        Known::Flag("--force"),
    ],
    run,
};

const HELP: &str = "\
usage: sion create [OPTIONS] CONTAINER [RANK=]FILE...

Puts each file into a task of its own. RANK=FILE gives its rank; a file of the name rank-N, as 'sion extract' makes
them, has the rank N; where no file has a rank, they are 0, 1 and so on in their order. Some with and some without
are a wrong command line. A name that begins with digits and '=' is written ./5=x. The files are regular ones,
at most 64; '-' names neither a file nor the container. What they hold has to fit in the computer's memory.

    --blocksize SIZE      bytes of a file-system block: a power of two from 512 to 4M (4k)
    --order little|big    byte order of the container's numbers (little)
    --format 3|4          fileformat_version (3); in 4 a task of an empty file has one chunk of 0 bytes, in 3 none
    --prefix TEXT         filename prefix that the container names (none)
    --blocks K            blocks that are planned, 1 to 32 (as few as needed); a file is spread over at most so many
    --files 1|2           physical files that the container is spread over (1)
    --force               replace CONTAINER if it is a regular file and none of the files; its mode stays

A task requests its file's length divided by the blocks, rounded up, and at least 1 byte; a chunk is filled to its end
before the next is begun.

With --files 2 the first half of the files, rounded up, goes into CONTAINER and the rest into CONTAINER.000001, at most
64 into each. Their ranks have to be 0, 1 and so on, each once. Both files belong together: neither is a container by
itself. CONTAINER takes its name last.

A SIZE may end in k or M. The container is made under a temporary name beside it, and is there once it is whole
and stored on the drive. A symbolic link is never replaced: name the file that it leads to.

The exit status is 0; 1 where the library refuses what is asked for, with the refusal's number; 2 where the command
line is wrong; 3 where a file could not be read or written, or exists.
";

fn run(args: &Args) -> Result<(), Failure> {
    let wrong = |what| Failure::Usage(COMMAND.called, what);
    let asked = asked(args).map_err(wrong)?;
    let (container, files) = match &args.words[..] {
        [] => {
            return Err(wrong("create takes a container and the files to put into it".to_string()))
        }
        [container, ..] if container == "-" => {
            return Err(wrong(
                "a container is made under a name, not on standard output".to_string(),
            ));
        }
        [_] => return Err(wrong("create takes at least one file".to_string())),
        [container, files @ ..] => (Path::new(container), files),
    };
    let inputs = inputs(files, wrong)?;
    let sources: Vec<_> = inputs.iter().map(|input| &input.source).collect();
    let force = args.flag("--force");
    let place = Place { path: container, force, sources: &sources };
    place.free()?;
    if !two_files(args).map_err(wrong)? {
        return create(&asked, &inputs, &place);
    }
    let second = Place { path: &Pair::second_name(container), force, sources: &sources };
    second.free()?;
    create_pair(&asked, &inputs, &place, &second)
}

/// Whether the container is to be spread over two physical files.
fn two_files(args: &Args) -> Result<bool, String> {
    match args.value("--files") {
        None => Ok(false),
        Some(files) if files == "1" => Ok(false),
        Some(files) if files == "2" => Ok(true),
        Some(other) => Err(format!("--files is 1 or 2, not '{}'", shown(other))),
    }
}

/// What the options ask for.
fn asked(args: &Args) -> Result<Asked<'_>, String> {
    let order = match args.value("--order") {
        None => ByteOrder::Little,
        Some(order) if order == "little" => ByteOrder::Little,
        Some(order) if order == "big" => ByteOrder::Big,
        Some(other) => return Err(format!("--order is little or big, not '{}'", shown(other))),
    };
    let format = match args.value("--format") {
        None => Format::V3,
        Some(format) if format == "3" => Format::V3,
        Some(format) if format == "4" => Format::V4,
        Some(other) => return Err(format!("--format is 3 or 4, not '{}'", shown(other))),
    };
    Ok(Asked {
        blocksize: args.size("--blocksize")?.unwrap_or(4096),
        order,
        format,
        prefix: args.value("--prefix").map_or(b"", |prefix| prefix.as_bytes()),
        blocks: args.number("--blocks")?,
    })
}

/// Fills a session over memory of its own, and makes the container's file of it.
fn create(asked: &Asked, inputs: &[Input], place: &Place) -> Result<(), Failure> {
    let container = shown(place.path);
    let plan = planned(asked, inputs)
        .map_err(|cause| Failure::Refused(format!("cannot create {container}: {cause}")))?;
    let refused = |refusal: Refusal| Failure::refused(&container, refusal);
    let needs = plan.needs().map_err(refused)?;
    let total = held_in_memory(inputs, place.path)?;
    let mut table = vec![0; needs.cells];
    let mut image = zeros(needs.image, place.path)?;

    let mut session = plan.open(&mut image, &mut table).map_err(refused)?;
    let mut progress = Progress::new("stored", inputs.len(), total);
    for (task, input) in (1..).zip(inputs) {
        let size = session.chunk_size(task).map_err(refused)?;
        input.read(size, &mut progress, |bytes| session.write(task, bytes).map_err(refused))?;
        progress.file();
    }
    let bytes = session.close().map_err(refused)?;
    drop(progress);
    let mut progress = Progress::new("written", 0, bytes.len() as u64);
    write(place, bytes, &mut progress)?.store()
}

/// The bytes of all files, for which there has to be memory.
pub fn held_in_memory(inputs: &[Input], container: &Path) -> Result<u64, Failure> {
    let total = inputs.iter().map(|input| input.length).sum();
    if let Some(free) = free_memory().filter(|&free| free < total) {
        let why =
            format!("its files have {total} bytes, which are held in memory, and {free} are free");
        return Err(Failure::file("create", container, why));
    }
    Ok(total)
}

/// An image that is cleared.
pub fn zeros(bytes: usize, container: &Path) -> Result<Zeros, Failure> {
    Zeros::new(bytes).map_err(|error| {
        let why = format!("{bytes} bytes of memory: {}", reason(&error));
        Failure::file("create", container, why)
    })
}

/// Makes a file of these bytes.
pub fn write(place: &Place, bytes: &[u8], progress: &mut Progress) -> Result<Names, Failure> {
    place.make(|file| {
        let mut file = Sparse::new(file, place.path);
        file.put(bytes, progress)?;
        file.end()
    })
}

#[cfg(test)]
mod tests {
    use super::*;
    use crate::files::tests::Scratch;
    use lapurmihi::{Container, Plan, BLOCKS, TASKS};
    use std::ffi::OsString;
    use std::fs;

    #[test]
    fn the_help_names_the_librarys_limits() {
        assert!(HELP.contains(&format!("at most {TASKS};")));
        assert!(HELP.contains(&format!("1 to {BLOCKS} ")));
        for (blocksize, taken) in [(256, false), (512, true), (4 << 20, true), (8 << 20, false)] {
            assert_eq!(Plan::new(blocksize).task(0, 1).needs().is_ok(), taken);
        }
        assert!(HELP.contains("a power of two from 512 to 4M"));
    }

    #[test]
    fn options_are_taken() {
        let line = |line: &str| {
            let words = line.split_whitespace().map(OsString::from);
            Args::parse(words, COMMAND.options).unwrap()
        };
        let (order, format) = (ByteOrder::Little, Format::V3);
        let default = Asked { blocksize: 4096, order, format, prefix: b"", blocks: None };
        assert_eq!(asked(&line("c f")), Ok(default));
        let (order, format) = (ByteOrder::Big, Format::V4);
        let all = Asked { blocksize: 512, order, format, prefix: b"run", blocks: Some(3) };
        let args = line("--blocksize 512 --order big --format 4 --prefix run --blocks 3");
        assert_eq!(asked(&args), Ok(all));
        assert!(asked(&line("--order up")).is_err());
        for format in ["2", "5", "04", "four"] {
            let args = line(&format!("--format={format}"));
            assert_eq!(asked(&args), Err(format!("--format is 3 or 4, not '{format}'")));
        }
    }

    /// The chunks of a file that was put into a container.
    fn chunks(folder: &Path, bytes: &[u8], blocksize: u32, blocks: Option<u32>) -> Vec<Vec<u8>> {
        let (file, made) = (folder.join("file"), folder.join("made.sion"));
        fs::write(&file, bytes).unwrap();
        let inputs = inputs(&[file.into()], |what| Failure::Usage("sion create", what)).unwrap();
        let (order, format) = (ByteOrder::Little, Format::V3);
        let asked = Asked { blocksize, order, format, prefix: b"", blocks };
        create(&asked, &inputs, &Place { path: &made, force: true, sources: &[] }).unwrap();
        let container = Container::open(&made).unwrap();
        let task = container.task(1).unwrap();
        task.chunks().map(<[u8]>::to_vec).collect()
    }

    #[test]
    fn a_chunk_is_filled_to_its_end_before_the_next_is_begun() {
        let scratch = Scratch::new("chunks");
        for (blocksize, blocks, length, wanted) in [
            (512, None, 0, &[][..]),
            (512, None, 511, &[511]),
            (512, None, 512, &[512]),
            (512, None, 513, &[513]),
            (512, Some(2), 512, &[512]),
            (512, Some(2), 513, &[512, 1]),
            (512, Some(2), 1024, &[512, 512]),
            (512, Some(2), 1025, &[1024, 1]),
            (512, Some(3), 1024, &[512, 512]),
            (512, Some(3), 1536, &[512, 512, 512]),
            (512, Some(3), 1537, &[1024, 513]),
            (512, Some(32), 512, &[512]),
            (4096, Some(2), 4096, &[4096]),
            (4096, Some(2), 4097, &[4096, 1]),
            (65_536, Some(3), 150_000, &[65_536, 65_536, 18_928]),
        ] {
            let bytes: Vec<u8> = (0..length).map(|at| (at % 251) as u8).collect();
            let chunks = chunks(&scratch.0, &bytes, blocksize, blocks);
            let lengths: Vec<usize> = chunks.iter().map(Vec::len).collect();
            assert_eq!(lengths, wanted, "{length} bytes, {blocksize}, {blocks:?}");
            assert_eq!(chunks.concat(), bytes);
        }
    }
}
