//! Holds refused loads to where they say that they broke off, and to the sentences about it.

mod common;

use common::*;
use lapurmihi::{Container, Field, Plan};

/// The paper's container in a byte order, with numbers of 4 or 8 bytes put into it.
fn damaged(order: usize, numbers: &[(usize, usize, i64)]) -> Vec<u8> {
    let mut container = paper_container(ORDERS[order]);
    put(&mut container, order, numbers);
    container
}

fn put(container: &mut [u8], order: usize, numbers: &[(usize, usize, i64)]) {
    for &(place, width, number) in numbers {
        let field = &mut container[place..place + width];
        match order {
            0 => field.copy_from_slice(&number.to_le_bytes()[..width]),
            _ => field.copy_from_slice(&number.to_be_bytes()[8 - width..]),
        }
    }
}

/// What is said of a load over a table of so many cells.
fn said(image: &[u8], cells: usize) -> String {
    Container::load(image, &mut vec![CELL; cells]).unwrap_err().to_string()
}

/// Two tasks of 500 and 600 bytes, the first with one chunk of 501 bytes: ranks at 1076, sizes at 1092, maxchunks at 1108, META2's start at
/// 1112, the counts at 3072 and the values at 3088.
#[test]
fn one_number_is_wrong() {
    let cases: [(usize, usize, i64, &str); 25] = [
        (0, 4, 7, "1 NO_MARK at byte 0: the image does not begin with sion"),
        (4, 4, 2, "2 NO_ORDER at byte 4: the order number is cut off, or 1 in neither byte order"),
        (16, 4, 5, "4 BAD_FORMAT at byte 16: fileformat_version says 5, and 3 or 4 is asked for"),
        (20, 4, 1000, "5 BAD_BLOCKSIZE at byte 20: blocksize says 1000, and a power of two from 512 to 4194304 is asked for"),
        (20, 4, -512, "5 BAD_BLOCKSIZE at byte 20: blocksize says -512, and a power of two from 512 to 4194304 is asked for"),
        (24, 4, 65, "6 BAD_TASKS at byte 24: ntasks says 65, and 1 to 64 is asked for"),
        (28, 4, 2, "7 BAD_FILES at byte 28: nfiles says 2, and 1 is asked for"),
        (32, 4, 1, "7 BAD_FILES at byte 32: filenumber says 1, and 0 is asked for"),
        (1076, 8, -1, "8 BAD_RANK at byte 1076: rank of task 1 says -1, and 0 to 2147483647 is asked for"),
        (1076, 8, 1, "8 BAD_RANK at byte 1084: rank of task 2 says 1, which an earlier task has"),
        (1084, 8, 1 << 31, "8 BAD_RANK at byte 1084: rank of task 2 says 2147483648, and 0 to 2147483647 is asked for"),
        (1100, 8, 0, "9 BAD_SIZE at byte 1100: requested size of task 2 says 0, and 1 to 1073741824 is asked for"),
        (1112, 8, 0, "10 NOT_CLOSED at byte 1112: start_of_varheader says 0: the container was never closed"),
        (1108, 4, 33, "11 BAD_MAXCHUNKS at byte 1108: maxchunks says 33, and 0 to 32 is asked for"),
        (1112, 8, 3080, "12 BAD_META2_PLACE at byte 1112: start_of_varheader says 3080, and META2 starts at 3072"),
        (3080, 8, 4, "13 BAD_META2 at byte 3080: count of task 2 says 4, and maxchunks is 1"),
        (3072, 8, -1, "13 BAD_META2 at byte 3072: count of task 1 says -1, and at least 0 is asked for"),
        (3072, 8, 0, "13 BAD_META2 at byte 1108: maxchunks says 1, and the greatest count is 0"),
        (3088, 8, 601, "13 BAD_META2 at byte 3088: chunk 1 of task 1 says 601 bytes, a chunk holds 512"),
        (3088, 8, -1, "13 BAD_META2 at byte 3088: chunk 1 of task 1 says -1, and the task uses it; 0 to 512 bytes are asked for"),
        (3096, 8, 5, "13 BAD_META2 at byte 3096: chunk 1 of task 2 says 5 bytes, and the task does not use it"),
        (3096, 8, 1, "13 BAD_META2 at byte 3096: chunk 1 of task 2 says 1 byte, and the task does not use it"),
        (3080, 8, 1, "13 BAD_META2 at byte 3096: chunk 1 of task 2 says -1, and the task uses it; 0 to 1024 bytes are asked for"),
        (1092, 8, 513, "12 BAD_META2_PLACE at byte 1112: start_of_varheader says 3072, and META2 starts at 3584"),
        (16, 4, 4, "13 BAD_META2 at byte 3080: count of task 2 says 0, and at least 1 is asked for"),
    ];
    for (place, width, number, wanted) in cases {
        for order in [0, 1] {
            assert_eq!(said(&damaged(order, &[(place, width, number)]), 2), wanted);
        }
    }
}

#[test]
fn what_is_lent_is_too_short() {
    let container = paper_container(ORDERS[1]);
    for (length, number, needed) in [
        (8, "3 SHORT_META1", 1076),
        (1050, "3 SHORT_META1", 1076),
        (1076, "3 SHORT_META1", 1120),
        (1120, "12 BAD_META2_PLACE", 3104),
        (3103, "12 BAD_META2_PLACE", 3104),
    ] {
        let wanted = format!(
            "{number} at byte {length}: the image ends here, and {needed} bytes are needed"
        );
        assert_eq!(said(&container[..length], 2), wanted);
    }
    for cells in [0, 1] {
        let wanted =
            format!("18 TOO_SHORT at byte 0: the table has {cells} of the 2 cells that are needed");
        assert_eq!(said(&container, cells), wanted);
    }
}

/// A later chunk, of the later of two tasks.
#[test]
fn a_value_of_a_later_chunk() {
    let plan = Plan::new(512).blocks(2).byte_order(ORDERS[1]).task(3, 500).task(4, 600);
    let mut container = packed(&plan, &[(2, &bytes(1024)), (2, b"x")]);
    let place = container.len() - 8;
    put(&mut container, 1, &[(place, 8, 1025)]);
    let fault = Container::from_bytes(container).unwrap_err().fault;
    assert_eq!((fault.field(), fault.place()), (Field::Value, place as u64));
    assert_eq!((fault.task(), fault.chunk()), (Some(2), Some(2)));
    assert_eq!((fault.says(), fault.least(), fault.most()), (1025, 0, 1024));
    assert_eq!(fault.to_string(), "chunk 2 of task 2 says 1025 bytes, a chunk holds 1024");
}

#[test]
fn what_is_of_no_task_has_none() {
    let fault = Container::from_bytes(b"sio".to_vec()).unwrap_err().fault;
    assert_eq!((fault.field(), fault.place()), (Field::Mark, 0));
    assert_eq!((fault.task(), fault.chunk()), (None, None));
    assert_eq!((fault.says(), fault.least(), fault.most()), (0, 0, 0));
}

#[test]
fn fields_have_the_numbers_1_to_19_and_names_of_their_own() {
    let numbers: Vec<u32> = Field::ALL.iter().map(|field| field.number()).collect();
    assert_eq!(numbers, (1..=19).collect::<Vec<_>>());
    for (at, field) in Field::ALL.iter().enumerate() {
        assert!(Field::ALL[..at].iter().all(|other| other.name() != field.name()), "{field:?}");
    }
}
