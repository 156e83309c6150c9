//! Holds the reads of a loaded record: one chunk's bytes, a copying read, a task's total, and the whole container's length and prefix. What
//! they do when the record and the task have passed serves a pair's reads too.

use crate::demand;
use crate::layout::MAX_PREFIX;
use crate::Loaded;

/// The written bytes of one chunk, task and chunk counted from 1; tests 17, 18, 19, 14, 22.
pub fn chunk<'a>(
    loaded: &Loaded,
    image: &'a [u8],
    table: &[i64],
    task: u64,
    chunk: u64,
) -> Result<&'a [u8], u32> {
    loaded.judge(image, table)?;
    let task = loaded.head.task(task)?;
    let (_, written) = chunk_of(loaded, image, table, task, chunk)?;
    Ok(written)
}

/// The start and the written bytes of one chunk, counted from 1, of a task, counted from 0; test 22.
pub(crate) fn chunk_of<'a>(
    loaded: &Loaded,
    image: &'a [u8],
    table: &[i64],
    task: usize,
    chunk: u64,
) -> Result<(u64, &'a [u8]), u32> {
    demand((1..=loaded.head.counts[task]).contains(&chunk), 22)?;
    let start = loaded.head.layout().chunk(task, chunk - 1);
    Ok((start, part(loaded, image, table, task, chunk - 1)))
}

/// Copies from place `p` of a task's stream on and reports the bytes copied; tests 17, 18, 19, 14, 23.
pub fn read(
    loaded: &Loaded,
    image: &[u8],
    table: &[i64],
    task: u64,
    p: u64,
    out: &mut [u8],
) -> Result<u64, u32> {
    loaded.judge(image, table)?;
    let task = loaded.head.task(task)?;
    copy_of(loaded, image, table, task, p, out)
}

/// Copies from place `p` of the stream of a task, counted from 0; test 23.
pub(crate) fn copy_of(
    loaded: &Loaded,
    image: &[u8],
    table: &[i64],
    task: usize,
    p: u64,
    out: &mut [u8],
) -> Result<u64, u32> {
    demand(p <= total_of(loaded, table, task), 23)?;
    let (mut skip, mut done) = (p as usize, 0);
    for chunk in 0..loaded.head.counts[task] {
        let written = part(loaded, image, table, task, chunk);
        let rest = written.get(skip..).unwrap_or(&[]);
        skip = skip.saturating_sub(written.len());
        let step = rest.len().min(out.len() - done);
        out[done..done + step].copy_from_slice(&rest[..step]);
        done += step;
    }
    Ok(done as u64)
}

/// The length of a task's stream; tests 17, 18, 19, 14.
pub fn total(loaded: &Loaded, image: &[u8], table: &[i64], task: u64) -> Result<u64, u32> {
    loaded.judge(image, table)?;
    let task = loaded.head.task(task)?;
    Ok(total_of(loaded, table, task))
}

/// The length of the stream of a task, counted from 0.
pub(crate) fn total_of(loaded: &Loaded, table: &[i64], task: usize) -> u64 {
    let chunks = 0..loaded.head.counts[task];
    chunks.map(|chunk| cell(loaded, table, task, chunk)).sum()
}

/// The bytes of the container; tests 17, 18, 19.
pub fn length(loaded: &Loaded, image: &[u8], table: &[i64]) -> Result<u64, u32> {
    loaded.judge(image, table)?;
    Ok(loaded.end())
}

/// The filename prefix, up to its first zero; tests 17, 18, 19.
pub fn prefix<'a>(loaded: &Loaded, image: &'a [u8], table: &[i64]) -> Result<&'a [u8], u32> {
    loaded.judge(image, table)?;
    let field = &image[52..52 + MAX_PREFIX];
    Ok(field.split(|&byte| byte == 0).next().unwrap_or(field))
}

/// The written bytes of a used chunk, task and chunk counted from 0.
pub(crate) fn part<'a>(
    loaded: &Loaded,
    image: &'a [u8],
    table: &[i64],
    task: usize,
    chunk: u64,
) -> &'a [u8] {
    let start = loaded.head.layout().chunk(task, chunk) as usize;
    &image[start..start + cell(loaded, table, task, chunk) as usize]
}

/// The cell of a used chunk, which is 0 or more.
fn cell(loaded: &Loaded, table: &[i64], task: usize, chunk: u64) -> u64 {
    table[chunk as usize * loaded.head.tasks() + task] as u64
}
