//! Holds the paper's numbers to check by that are about sessions, run on both sides.

use crate::call::{Answer, Call};
use crate::counts::Counts;
use crate::memory::{Lent, Memory};
use crate::plan::Plan;
use crate::reload::reload;
use crate::same::{same, same_list};
use crate::sizes::{self, Asked};
use lapurmihi::raw::Fault;
use reference::{Order, Rng, IDLE_FORMAT};

/// The number by which a load names a value of META2.
const VALUE: u32 = 15;

/// Runs them all; the generator gives what stands in images and tables before.
pub fn check(rng: &mut Rng) -> Result<(), String> {
    for order in [0, 1] {
        p11_p12(order, rng).map_err(|difference| format!("P11 and P12, {difference}"))?;
        already_written(order, rng).map_err(|difference| format!("P12 as before, {difference}"))?;
        idle_p12(order, rng).map_err(|difference| format!("P12 in version 4, {difference}"))?;
        idle_nothing(order, rng)
            .map_err(|difference| format!("the smallest container of version 4, {difference}"))?;
        p13(order, rng).map_err(|difference| format!("P13, {difference}"))?;
        holds(order, rng).map_err(|difference| format!("what a chunk holds, {difference}"))?;
        most_blocks(order, &mut rng.clone())
            .map_err(|difference| format!("K = 32, {difference}"))?;
    }
    sizes::bounds()?;
    openings(rng).map_err(|difference| format!("the paper's openings, {difference}"))
}

/// Blocksize 512, sizes 500 and 600, K = 3: task 1 writes 300, 200 and 1 bytes, and the session is closed; its container is loaded and read.
fn p11_p12(order: u32, rng: &mut Rng) -> Result<(), String> {
    let plan = Plan::new(order, 512, &[500, 600], 3);
    same("image needed", plan.bytes, 6208)?;
    same("image of 6207 bytes", Plan { bytes: 6207, ..plan.clone() }.open(rng)?.0.refusal, 18)?;
    let (answer, mut memory) = plan.open(rng)?;
    same("opening", answer.refusal, 0)?;
    for length in [300, 200, 1] {
        same("write", write(&mut memory, length)?, 0)?;
    }
    let stream = [[44; 300].as_slice(), &[200; 200], &[1]].concat();
    same_list("chunk 1", &memory.image.values[1536..2037], &stream)?;
    same("the last byte written", memory.image.values[2036], 1)?;
    close(&mut memory, order, 3104, 3072, &[1, 0, 501, -1])?;
    reload(&memory, 3104, &[stream, vec![]], rng, &mut Counts::default())
}

/// The container that the same requests left when a chunk held its requested size is loaded and read.
fn already_written(order: u32, rng: &mut Rng) -> Result<(), String> {
    let (answer, mut memory) = Plan::new(order, 512, &[500, 600], 3).open(rng)?;
    same("opening", answer.refusal, 0)?;
    let stream = rng.bytes(501);
    memory.image.values[1536..2036].copy_from_slice(&stream[..500]);
    memory.image.values[3072] = stream[500];
    memory.table.values[..4].copy_from_slice(&[500, -1, 1, -1]);
    memory.session.head.counts[0] = 2;
    close(&mut memory, order, 4656, 4608, &[2, 0, 500, -1, 1, -1])?;
    reload(&memory, 4656, &[stream, vec![]], rng, &mut Counts::default())
}

/// The session of P12 in version 4: META2 is at 3072 too, and task 2, which wrote nothing, has one chunk of 0 bytes.
fn idle_p12(order: u32, rng: &mut Rng) -> Result<(), String> {
    let plan = Plan { format: IDLE_FORMAT, ..Plan::new(order, 512, &[500, 600], 3) };
    let (answer, mut memory) = plan.open(rng)?;
    same("opening", answer.refusal, 0)?;
    same_list("the counts", &memory.session.head.counts[..3], &[1, 1, 0])?;
    same_list("the cells", &memory.table.values[..6], &[0, 0, -1, -1, -1, -1])?;
    for length in [300, 200, 1] {
        same("write", write(&mut memory, length)?, 0)?;
    }
    let stream = [[44; 300].as_slice(), &[200; 200], &[1]].concat();
    close(&mut memory, order, 3104, 3072, &[1, 1, 501, 0])?;
    reload(&memory, 3104, &[stream, vec![]], rng, &mut Counts::default())
}

/// One task that wrote nothing: 2,064 bytes, with one chunk of 0 bytes.
fn idle_nothing(order: u32, rng: &mut Rng) -> Result<(), String> {
    let plan = Plan { format: IDLE_FORMAT, ..Plan::new(order, 512, &[1], 1) };
    let (answer, mut memory) = plan.open(rng)?;
    same("opening", answer.refusal, 0)?;
    let answer = memory.call(&Call::Close)?;
    same("close", answer, Answer::new(0, [2064, 0]))?;
    reload(&memory, 2064, &[vec![]], rng, &mut Counts::default())
}

/// Closes the session of two tasks, which leaves so many bytes, META2 where it is said, and in it these numbers; the first is maxchunks too.
fn close(
    memory: &mut Memory,
    order: u32,
    length: u64,
    start: usize,
    numbers: &[i64],
) -> Result<(), String> {
    let answer = memory.call(&Call::Close)?;
    same("close", answer, Answer::new(0, [length, 0]))?;
    let (image, bytes) = (&memory.image.values, Order::from_number(order).ok_or("no such order")?);
    same("maxchunks", i64::from(bytes.int(image, 1108)), numbers[0])?;
    same("start_of_varheader", bytes.long(image, 1112), start as i64)?;
    let meta2: Vec<i64> = bytes.longs(&image[start..length as usize]).collect();
    same_list("META2", &meta2, numbers)
}

/// Size 500, K = 2: requests of 1 and 512 are accepted, then 1 is refused with 16, and 513 with 15 at any moment.
fn p13(order: u32, rng: &mut Rng) -> Result<(), String> {
    let (answer, mut memory) = Plan::new(order, 512, &[500], 2).open(rng)?;
    same("opening", answer.refusal, 0)?;
    for (length, wanted) in [(513, 15), (1, 0), (513, 15), (512, 0), (1, 16), (513, 15)] {
        same(&format!("write of {length}"), write(&mut memory, length)?, wanted)?;
    }
    Ok(())
}

/// K = 1: a chunk holds its size rounded up to a multiple of blocksize, which a multiple of it is already.
fn holds(order: u32, rng: &mut Rng) -> Result<(), String> {
    for (blocksize, size, holds) in
        [(512, 511, 512), (512, 512, 512), (512, 513, 1024), (4_194_304, 1, 4_194_304)]
    {
        Asked { size, blocksize }.answers(0, holds as u64)?;
        let (answer, mut memory) = Plan::new(order, blocksize, &[size], 1).open(rng)?;
        same("opening", answer.refusal, 0)?;
        for (length, wanted) in [(holds + 1, 15), (holds - 1, 0), (2, 16), (1, 0), (1, 16)] {
            let call = format!("blocksize {blocksize}, size {size}, write of {length}");
            same(&call, write(&mut memory, length)?, wanted)?;
        }
        one_over(memory, order, holds as i64)?;
    }
    Ok(())
}

/// The one chunk of a session is full: one more in its cell is refused with 19, and one more in the closed container with 13, at its place.
fn one_over(mut memory: Memory, order: u32, holds: i64) -> Result<(), String> {
    let mut over = memory.clone();
    over.table.values[0] = holds + 1;
    same("close of one over", over.call(&Call::Close)?.refusal, 19)?;
    let length = memory.call(&Call::Close)?.numbers[0] as usize;
    let (mut image, bytes) = (memory.image, Order::from_number(order).ok_or("no such order")?);
    bytes.put_long(&mut image.values, length - 8, holds + 1);
    let mut closed = Memory::new(image, Lent::all(vec![0]));
    let (place, says) = (length as u64 - 8, holds + 1);
    let value = Fault { place, says, least: 0, most: holds, field: VALUE, task: 1, chunk: 1 };
    same("load of one over", closed.call(&Call::Load)?, Answer::load(13, value))
}

/// Size 1, K = 32: so many requests of 512 are accepted, which random sessions never reach, then one of 1 is refused with 16; all is read.
fn most_blocks(order: u32, rng: &mut Rng) -> Result<(), String> {
    let (answer, mut memory) = Plan::new(order, 512, &[1], 32).open(rng)?;
    same("opening", answer.refusal, 0)?;
    for request in 1..=32 {
        same(&format!("write {request}"), write(&mut memory, 512)?, 0)?;
    }
    same("write 33", write(&mut memory, 1)?, 16)?;
    let length = memory.call(&Call::Close)?.numbers[0];
    reload(&memory, length, &[vec![0; 32 * 512]], rng, &mut Counts::default())
}

/// Writes so many bytes to task 1, each the low byte of their number, and gives the answer.
fn write(memory: &mut Memory, length: usize) -> Result<u32, String> {
    memory.buffer = Lent::all(vec![length as u8; length]);
    Ok(memory.call(&Call::Write { task: 1 })?.refusal)
}

/// The blocksizes, the formats and the numbers of tasks that the papers name.
fn openings(rng: &mut Rng) -> Result<(), String> {
    for (blocksize, wanted) in [(512, 0), (4_194_304, 0), (256, 5), (768, 5), (8_388_608, 5)] {
        let plan = Plan { blocksize, ..Plan::new(0, blocksize.min(4_194_304), &[1], 1) };
        same(&format!("blocksize {blocksize}"), plan.open(rng)?.0.refusal, wanted)?;
    }
    for (format, wanted) in [(2, 4), (3, 0), (4, 0), (5, 4)] {
        let plan = Plan { format, ..Plan::new(0, 512, &[1], 1) };
        same(&format!("format {format}"), plan.open(rng)?.0.refusal, wanted)?;
    }
    for (n, wanted) in [(64, 0), (0, 6), (65, 6)] {
        let plan = Plan::new(1, 512, &vec![1; n], 1);
        same(&format!("{n} tasks"), plan.open(rng)?.0.refusal, wanted)?;
    }
    Ok(())
}
