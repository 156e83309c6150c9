//! Holds the command `extract`: each task's bytes taken out into a file.

use crate::args::{Args, Command, Known};
use crate::failure::{Failure, Named};
use crate::files::{folder as folder_of, Names, Place, Source, Sparse};
use crate::input::{opened, sources, Found};
use crate::progress::Progress;
use crate::text::shown;
use lapurmihi::Task;
use std::path::{Path, PathBuf};

pub const COMMAND: Command = Command {
    name: "extract",
    called: "sion extract",
    help: HELP,
    options: &[Known::Flag("--force")],
    run,
};

const HELP: &str = "\
usage: sion extract [--force] CONTAINER FOLDER

Takes each task's bytes out into the file FOLDER/rank-N, where N is the task's rank in ten digits, so that
'sion create CONTAINER FOLDER/rank-*' gives each file its rank again. The folder is made if need be. CONTAINER '-' is
standard input. Of a container in two files CONTAINER is the first, and the second is found beside it.

    --force    replace regular files that exist; their modes stay, not their owners

Each file is made under a temporary name beside it, and is there once it is whole and stored on the drive. Where one
cannot be made, it is told which stand already. A symbolic link is never replaced: name the file that it leads to.

The exit status is 0; 1 where the container is refused; 2 where the command line is wrong; 3 where a file could not
be read or written, or exists.
";

fn run(args: &Args) -> Result<(), Failure> {
    let (container, folder) = match &args.words[..] {
        [container, folder] if !folder.is_empty() => (container, Path::new(folder)),
        _ => {
            let what = "extract takes a container and a folder".to_string();
            return Err(Failure::Usage(COMMAND.called, what));
        }
    };
    let found = opened(container)?;
    let sources = sources(container, &found)?;
    extract(&found, folder, args.flag("--force"), &sources.iter().collect::<Vec<_>>())
}

fn extract(found: &Found, folder: &Path, force: bool, sources: &[&Source]) -> Result<(), Failure> {
    let path = |task: Task| folder.join(format!("rank-{:010}", task.rank()));
    let tasks = found.tasks().into_iter();
    let files: Vec<(Task, PathBuf)> = tasks.map(|task| (task, path(task))).collect();
    let place = |path| Place { path, force, sources };
    files.iter().try_for_each(|(_, path)| place(path).free().map(drop))?;
    let names = make_folder(folder)?;
    let total = files.iter().map(|(task, _)| task.total()).sum();
    let mut progress = Progress::new("extracted", files.len(), total);
    for (done, (task, path)) in files.iter().enumerate() {
        let made = place(path).make(|file| {
            let mut file = Sparse::new(file, path);
            task.chunks().try_for_each(|chunk| file.put(chunk, &mut progress))?;
            file.end()
        });
        made.map_err(|failure| standing(failure, &files, done))?;
        progress.file();
    }
    names.iter().try_for_each(Names::store)
}

/// Makes a folder with those above it, and gives the names of all folders in which some are new then.
fn make_folder(folder: &Path) -> Result<Vec<Names>, Failure> {
    let absent = |folder: &&Path| !folder.as_os_str().is_empty() && !folder.exists();
    let above = folder.ancestors().take_while(absent).map(folder_of);
    let changed: Vec<&Path> = std::iter::once(folder).chain(above).collect();
    std::fs::create_dir_all(folder).named("make the folder", folder)?;
    changed.into_iter().map(Names::of).collect()
}

/// A failure with the files that were made before it.
fn standing(failure: Failure, files: &[(Task, PathBuf)], done: usize) -> Failure {
    let names: Vec<String> = files[..done].iter().map(|(_, path)| shown(path)).collect();
    let all = files.len();
    match done {
        0 => failure.and(format!("none of {all} files was made")),
        _ => failure.and(format!("{done} of {all} files stand: {}", names.join(", "))),
    }
}
