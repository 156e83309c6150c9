//! Holds the fixed collection: names starting `rNN` are refused with NN, all others are accepted; and which of them are stored.

mod accepted;
mod refused;

use crate::forge::Plan;
use reference::{Container, Field, Order, MAX_TASKS};

const I32: [i64; 2] = [i32::MIN as i64, i32::MAX as i64];
const I64: [i64; 2] = [i64::MIN, i64::MAX];

/// The names, without what tells the byte order, of those that are stored beside the library; all others are made anew where they are
/// compared.
#[rustfmt::skip]
const STORED: [&str; 39] = [
    // P12, what was written for it when a chunk held its requested size, and one for each number.
    "p12", "ok-base-p12",
    "r01-mark-byte-0", "r02-order-0", "r03-cut-1103", "r04-format-5", "r05-blocksize-256", "r06-ntasks-0", "r07-nfiles-2",
    "r08-rank-of-two-0", "r09-size-0", "r10-not-closed", "r11-maxchunks-33", "r12-start-1537", "r13-value-513",
    // The bounds of the rules, and one past them.
    "ok-tasks-1", "ok-tasks-64", "ok-written-64", "r06-ntasks-65",
    "ok-maxchunks-0", "ok-maxchunks-32",
    "ok-blocksize-32768", "r12-too-short-for-blocksize-4194304", "r05-blocksize-8388608",
    "ok-size-idle-1073741824", "r09-size-1073741825",
    "ok-rank-2147483647", "r08-rank-2147483648",
    "ok-full-two", "ok-prefix-full",
    // Version 4: P12, a task that wrote nothing, and counts and a maxchunks of 0; and a count of 1 with 0 bytes in version 3.
    "ok-idle-p12", "ok-idle-tasks-1", "r13-idle-count-0", "r13-idle-maxchunks-0", "ok-idle-as-3",
    // The bounds of the input's length.
    "r01-cut-0", "r02-cut-7", "r12-cut-1543", "ok-tail-to-65536",
];

/// The whole collection with its names.
pub fn all() -> Vec<(String, Vec<u8>)> {
    let mut list = List(Vec::new());
    accepted::large(&mut list);
    for order in [Order::Little, Order::Big] {
        let bases = Bases::new(order);
        accepted::plans(&mut list, order);
        accepted::chunks(&mut list, order);
        accepted::idle(&mut list, order);
        accepted::values(&mut list, &bases);
        accepted::changes(&mut list, &bases);
        refused::all(&mut list, &bases);
    }
    list.0
}

/// The stored ones with their names.
pub fn stored() -> Vec<(String, Vec<u8>)> {
    all().into_iter().filter(|(name, _)| STORED.contains(&plain(name))).collect()
}

/// A name without what tells the byte order.
fn plain(name: &str) -> &str {
    let name = name.strip_suffix(".sion").unwrap_or(name);
    name.strip_suffix("-big").unwrap_or(name)
}

struct List(Vec<(String, Vec<u8>)>);

impl List {
    fn add(&mut self, name: &str, container: &Container) {
        let tail = if container.order == Order::Big { "-big.sion" } else { ".sion" };
        self.0.push((format!("{name}{tail}"), container.bytes.clone()));
    }

    /// One container for each value of a field.
    fn fields(&mut self, name: &str, base: &Container, field: Field, values: &[i64]) {
        for &value in values {
            let sign = if value < 0 { "minus-" } else { "" };
            let name = format!("{name}-{sign}{}", value.unsigned_abs());
            self.add(&name, &base.with(field, value));
        }
    }

    /// One container for each length it is cut to.
    fn cuts(&mut self, name: &str, base: &Container, lengths: &[usize]) {
        for &length in lengths {
            self.add(&format!("{name}-{length}"), &base.cut(length));
        }
    }
}

/// The sound containers that the damaged ones start from.
struct Bases {
    /// 1 task of size 1 with nothing written: 1544 bytes, META2 at 1536.
    one: Container,
    /// 64 tasks of size 1 with nothing written: 3072 bytes, META2 at 2560.
    many: Container,
    /// Sizes 5 and 6, values 512, 3, 1, -1: 3632 bytes, META2 at 3584.
    two: Container,
    /// Sizes 5 and 6, values 512, -1, 1, -1.
    lone: Container,
    /// Sizes 500 and 600, values 512 and 1024: 3104 bytes, META2 at 3072.
    full: Container,
}

impl Bases {
    fn new(order: Order) -> Bases {
        let small = Plan::new(order, &[5, 6]);
        Bases {
            one: Plan::new(order, &[1]).build(&[]),
            many: Plan::new(order, &[1; 64]).build(&[]),
            two: small.build(&visible(&[(1, 512), (2, 3), (1, 1)])),
            lone: small.build(&visible(&[(1, 512), (1, 1)])),
            full: Plan::new(order, &[500, 600]).build(&visible(&[(1, 300), (2, 1024), (1, 212)])),
        }
    }
}

/// Requests whose bytes tell task and place in the stream; byte i of task 1 is i mod 251 + 1.
fn visible(lengths: &[(u64, usize)]) -> Vec<(u64, Vec<u8>)> {
    let mut places = [0; MAX_TASKS + 1];
    let request = |&(task, length): &(u64, usize)| {
        let from = places[task as usize];
        places[task as usize] += length;
        let byte = |i: usize| ((i + 7 * (task as usize - 1)) % 251 + 1) as u8;
        (task, (from..from + length).map(byte).collect())
    };
    lengths.iter().map(request).collect()
}

#[test]
fn names_tell_the_answers() {
    let vectors = all();
    for (name, bytes) in &vectors {
        let line = crate::report::line(bytes);
        let expected = name.strip_prefix('r').map_or("0", |rest| rest[..2].trim_start_matches('0'));
        assert_eq!(line.split(' ').next(), Some(expected), "{name}");
        assert!(bytes.len() <= 65_536, "{name}");
    }
    let names: std::collections::BTreeSet<&String> = vectors.iter().map(|(name, _)| name).collect();
    assert_eq!(names.len(), vectors.len());
}

#[test]
fn lines_and_lengths() {
    let p12 = [("p12", 3104, "0 2 1 501 0"), ("ok-base-p12", 4656, "0 2 2 501 0")];
    let full = [("ok-full-two", 3104, "0 2 1 512 1024")];
    let idle = [("ok-idle-p12", 3104, "0 2 1 501 0"), ("ok-idle-tasks-1", 2064, "0 1 1 0")];
    for (wanted, length, line) in p12.into_iter().chain(full).chain(idle) {
        let found = stored().into_iter().filter(|(name, _)| plain(name) == wanted);
        let told: Vec<(usize, String)> =
            found.map(|(_, bytes)| (bytes.len(), crate::report::line(&bytes))).collect();
        assert_eq!(told, vec![(length, line.to_string()); 2], "{wanted}");
    }
}

#[test]
fn stored_ones_are_there() {
    let names: Vec<String> = stored().into_iter().map(|(name, _)| name).collect();
    for wanted in STORED {
        assert!(names.iter().any(|name| plain(name) == wanted), "{wanted}");
    }
    let numbers = (1..=13).map(|number| format!("r{number:02}"));
    for start in numbers.chain(["p12".to_string()]) {
        for big in [false, true] {
            let told = |name: &String| name.starts_with(&start) && name.contains("-big.") == big;
            assert!(names.iter().any(told), "{start}, big endian: {big}");
        }
    }
}
