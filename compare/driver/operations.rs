//! Lists of operations on the list of a sitting, that bytes describe. README.md states the records in words; the crate
//! `replay_list` reads them too.
use crate::list_rules::{Held, Operation};

/// Bytes of a record: of the start, and of each operation.
pub const RECORD: usize = 32;
/// Places of the memory. An operation is lent some of them, from the first on.
pub const MEMORY: usize = 600;

pub const MINIMA: [u64; 16] = [
    0,
    1,
    2,
    3,
    10,
    100,
    1000,
    65536,
    1000000,
    1 << 32,
    1 << 54,
    1 << 62,
    (1 << 63) - 1,
    1 << 63,
    u64::MAX - 1,
    u64::MAX,
];

/// The ends of 64 bits and the middle.
const ENDS: [u64; 8] = [0, 1, (1 << 63) - 1, 1 << 63, (1 << 63) + 1, u64::MAX - 2, u64::MAX - 1, u64::MAX];

/// The stamp n - 2^63: numbers of 64 bits are stamps in their order.
fn stamp(n: u64) -> i64 {
    n.wrapping_sub(1 << 63) as i64
}

/// The number that `stamp` takes to ts.
pub fn raised(ts: i64) -> u64 {
    (ts as u64).wrapping_add(1 << 63)
}

/// Eight bytes, least first.
fn wide(bytes: &[u8]) -> u64 {
    u64::from_le_bytes(bytes[..8].try_into().expect("eight bytes"))
}

fn count(r: &[u8]) -> u64 {
    let b = r[13] as u64;
    match r[12] % 16 {
        0..=3 => 0,
        4 => 1,
        5..=7 => 2,
        8 => 3,
        9 => b,
        10 => 256 + b,
        11 => 505 + b % 8,
        12 => 511,
        _ => 512,
    }
}

fn step(r: &[u8], minimum: u64) -> u64 {
    match r[1] % 16 {
        0..=8 => minimum.max(1),
        9 | 10 => minimum.wrapping_add(1),
        11 => minimum.wrapping_sub(1),
        12 => 0,
        13 => u64::MAX - r[2] as u64,
        14 => 1 << 54,
        _ => 256 * r[2] as u64 + 1,
    }
}

/// The list that a start describes.
fn start(r: &[u8]) -> Held {
    let minimum = MINIMA[r[0] as usize % 16];
    let (count, step) = (count(r), step(r, minimum));
    let first = match r[3] % 8 {
        0 | 1 => 0,
        2..=4 => u64::MAX.wrapping_sub(step.wrapping_mul(count.saturating_sub(1))),
        5 => 1 << 63,
        _ => wide(&r[4..]),
    };
    Held::new(minimum, count, (0..MEMORY as u64).map(|i| stamp(first.wrapping_add(step.wrapping_mul(i)))))
}

/// Whether the operations of a list are mostly additions, of stamps far apart.
fn fills(start: &[u8]) -> bool {
    start[14] % 4 == 0
}

/// A place of the memory: one of the first 16, or any of the first 512.
fn place(a: u8, b: u8) -> usize {
    match b % 2 {
        0 => a as usize % 16,
        _ => 2 * a as usize + b as usize / 2 % 2,
    }
}

/// A number that is moved by the minimum, or nearly so, or by half of it, or by a little.
fn moved(n: u64, minimum: u64, how: u8, by: u8) -> u64 {
    let less = minimum.wrapping_sub(1);
    match how % 16 {
        6 => n.wrapping_add(1),
        7 => n.wrapping_sub(1),
        8 => n.wrapping_add(minimum),
        9 => n.wrapping_sub(minimum),
        10 => n.wrapping_add(less),
        11 => n.wrapping_sub(less),
        12 => n.wrapping_add(minimum / 2),
        13 => n.wrapping_sub(minimum / 2),
        14 => n.wrapping_add(by as u64),
        15 => n.wrapping_sub(by as u64),
        _ => n,
    }
}

/// The stamp that twelve bytes describe.
fn aimed(q: &[u8], fills: bool, held: &Held) -> i64 {
    if fills && q[0] >= 64 {
        return stamp(wide(&q[4..]));
    }
    stamp(match q[0] % 16 {
        0..=9 => moved(raised(held.places[place(q[1], q[2])]), held.min_duration(), q[3], q[4]),
        10 | 11 => ENDS[q[1] as usize % 8],
        12 | 13 => (1 << 63) - 2048 + 16 * q[1] as u64 + q[2] as u64 % 16,
        _ => wide(&q[4..]),
    })
}

fn operation(r: &[u8], fills: bool, held: &Held) -> Operation {
    let ts = aimed(&r[8..20], fills, held);
    if fills && r[0] >= 32 {
        return Operation::Add(ts);
    }
    match r[0] % 16 {
        5..=7 => Operation::Remove(ts),
        8 | 9 => Operation::Nearest(ts),
        10..=12 if r[31] % 8 == 0 => Operation::Span(ts, ts),
        10..=12 => Operation::Span(ts, aimed(&r[20..32], fills, held)),
        13 | 14 => Operation::Clip(ts),
        15 if r[1] % 4 == 0 => Operation::Empty,
        _ => Operation::Add(ts),
    }
}

/// How many places an operation is lent.
fn lent(r: &[u8]) -> usize {
    match (r[3] % 64, r[2] % 8) {
        (2, _) => 511,
        (3, _) => r[4] as usize,
        (_, 0..=3) => 512,
        (_, 4 | 5) => 513,
        _ => MEMORY,
    }
}

/// The list that an operation is handed: the one that the list of operations has come to, at times with a fault.
fn given(r: &[u8], held: &Held) -> Held {
    let mut given = held.clone();
    match r[3] % 64 {
        0 => given.set_count(513),
        1 => given.set_count(u64::MAX - r[4] as u64),
        4 => given.set_min_duration(held.min_duration().wrapping_add(1)),
        5 => given.set_count(held.count().wrapping_add(1)),
        6 => {
            let place = faulty_place(r);
            given.places[place] = stamp(broken(raised(held.places[place - 1]), held.min_duration(), r[4], r[5]));
        }
        _ => (),
    }
    given
}

/// A place that has one before it.
fn faulty_place(r: &[u8]) -> usize {
    place(r[6], r[7]) % 511 + 1
}

/// What stands where a stamp should: the number of the one before, one before that, or one that is too close to it.
fn broken(before: u64, minimum: u64, how: u8, by: u8) -> u64 {
    match how % 4 {
        0 => before,
        1 => before.wrapping_sub(by as u64 + 1),
        2 => before.wrapping_add(minimum / 2),
        _ => before.wrapping_add(minimum).wrapping_sub(1),
    }
}

/// Runs a list of operations. `each` gets the list as an operation is handed it and how many places are lent, and gives
/// the number and what the operation left. After a 15 the list goes on from what was there before the fault.
pub fn run(script: &[u8], mut each: impl FnMut(&Held, usize, Operation) -> (u32, Held)) {
    let (first, records) = script.split_at(RECORD);
    let mut held = start(first);
    for r in records.chunks_exact(RECORD) {
        let operation = operation(r, fills(first), &held);
        let (number, after) = each(&given(r, &held), lent(r), operation);
        if number != 15 {
            held = after;
        }
    }
}
