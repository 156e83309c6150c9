//! Holds what the tests share: memory with something in it, the paper's session and its container.
#![allow(dead_code)] // each test file is a program of its own and uses some of it

use lapurmihi::{ByteOrder, Plan, Refusal, CELLS};

pub const ORDERS: [ByteOrder; 2] = [ByteOrder::Little, ByteOrder::Big];

/// What stands in a table before.
pub const CELL: i64 = -77;

/// The container of the paper's P12, as the independent program made it.
pub const SAMPLE: &[u8] = include_bytes!("../../../../examples/two-tasks.sion");

/// What was written for P12 before version 0.2.0, when a chunk held its requested size: the last byte stands in a second chunk.
pub const BEFORE: &[u8] = include_bytes!("../../../../crates/vectors/data/ok-base-p12.sion");

/// The plan of both: blocksize 512, sizes 500 and 600, K = 3.
pub fn paper() -> Plan {
    Plan::new(512).version(1, 7).prefix("data/run.sion").blocks(3).task(0, 500).task(1, 600)
}

/// Bytes that differ from their neighbours.
pub fn bytes(length: usize) -> Vec<u8> {
    (0..length).map(|i| (i % 251 + 1) as u8).collect()
}

/// An image and a table of just the lengths that a plan needs, with something in them.
pub fn memory(plan: &Plan) -> (Vec<u8>, Vec<i64>) {
    let needs = plan.needs().unwrap();
    (vec![0xAA; needs.image], vec![CELL; needs.cells])
}

/// A table for any load, with something in it.
pub fn table() -> Vec<i64> {
    vec![CELL; CELLS]
}

/// The container of a session in which every one of these requests is accepted.
pub fn packed(plan: &Plan, requests: &[(u64, &[u8])]) -> Vec<u8> {
    let (mut image, mut table) = memory(plan);
    let mut session = plan.open(&mut image, &mut table).unwrap();
    for (task, bytes) in requests {
        session.write(*task, bytes).unwrap();
    }
    session.close().unwrap().to_vec()
}

/// The paper's container: task 1 writes 300, 200 and 1 bytes.
pub fn paper_container(order: ByteOrder) -> Vec<u8> {
    let all = bytes(501);
    let requests = [(1, &all[..300]), (1, &all[300..500]), (1, &all[500..])];
    packed(&paper().byte_order(order), &requests)
}

/// What an opening of the plan answers over memory of these lengths, which a refused one leaves as it was.
pub fn opening(plan: &Plan, image: usize, cells: usize) -> Result<(), Refusal> {
    let (mut image, mut table) = (vec![0xAA; image], vec![CELL; cells]);
    let answer = plan.open(&mut image, &mut table).map(drop);
    if answer.is_err() {
        assert!(image.iter().all(|&byte| byte == 0xAA), "a refused opening changed the image");
        assert!(table.iter().all(|&cell| cell == CELL), "a refused opening changed the table");
    }
    answer
}
