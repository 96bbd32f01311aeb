//! The list of a sitting through the station library and through the Rust wrapper, beside its rules (list_rules.rs):
//! lists of operations from random bytes (operations.rs).
use crate::generator::Random;
use crate::list_kinds::{Case, Met};
use crate::list_rules::{self as rules, GUARD, Held, Operation, PLACES};
use crate::operations::{self, MINIMA, RECORD};
use crate::table::Row;
use mawerodu::CutList;
use mawerodu::sys as c;

/// Operations of a list, and of a long one, in which 512 stamps are added: one list in 64 is long.
const SHORT: usize = 24;
const LONG: usize = 1000;
/// One list goes through the wrapper for so many that go through the C functions; its bytes are others.
const WRAPPED: u64 = 10;
/// How many lists there are at most to each time that a kind of operations is met.
const LISTS_TO_ONE: u64 = 100;

/// The wrapper is run where the C functions show no difference: it rests on them, and has no guards about its memory.
pub fn rows(seed: u64, lists: u64) -> Vec<Row> {
    let mut rows = vec![new_lists(), by_station(seed, lists)];
    if rows.iter().all(|row| row.differ() == 0) {
        rows.push(by_wrapper(!seed, lists.div_ceil(WRAPPED)));
    }
    rows
}

/// Lists of operations from random bytes.
fn scripts(mut random: Random, lists: u64) -> impl Iterator<Item = Vec<u8>> {
    (0..lists).map(move |i| {
        let records = 1 + if i % 64 == 63 { LONG } else { SHORT };
        (0..records * RECORD / 8).flat_map(|_| random.next().to_le_bytes()).collect()
    })
}

fn by_station(seed: u64, lists: u64) -> Row {
    let mut row = Row::by_rules("operations on lists of a sitting");
    let mut met = Met::new();
    let mut versions = Random(!seed);
    for script in scripts(Random(seed), lists) {
        operations::run(&script, |given, lent, operation| {
            one(&mut row, Some(&mut met), &versioned(given, &mut versions), lent, operation, operate)
        });
    }
    met.hold(&mut row, lists / LISTS_TO_ONE);
    row
}

/// One operation in 32 is handed a record with one bit of its version turned.
fn versioned(given: &Held, random: &mut Random) -> Held {
    let mut given = given.clone();
    if random.next() % 32 == 0 {
        *given.version() ^= 1 << (random.next() % 64);
    }
    given
}

/// One operation through the library: its number, and what it leaves.
fn operate(held: &mut Held, lent: usize, operation: Operation) -> u32 {
    assert!(lent + GUARD <= held.places.len());
    let (list, stamps) = (held.words[GUARD..].as_mut_ptr().cast(), held.places.as_mut_ptr());
    let answer = held.answer[GUARD..].as_mut_ptr();
    // SAFETY: the words of record and answer lie between guards, the memory has more places than are lent, none of the
    // three overlaps another, and nothing more is asked.
    unsafe {
        match operation {
            Operation::Add(ts) => c::mw_list_add(list, stamps, lent, ts),
            Operation::Remove(ts) => c::mw_list_remove(list, stamps, lent, ts),
            Operation::Empty => c::mw_list_empty(list, stamps, lent),
            Operation::Nearest(ts) => c::mw_list_nearest(list, stamps, lent, ts, answer.cast()),
            Operation::Span(from, to) => c::mw_list_span(list, stamps, lent, from, to, answer.cast()),
            Operation::Clip(ts) => c::mw_list_clip(list, stamps, lent, ts, answer),
        }
    }
}

/// The wrapper's memory has 512 places, and its version is right.
fn by_wrapper(seed: u64, lists: u64) -> Row {
    let mut row = Row::by_rules("list operations through the Rust wrapper");
    for script in scripts(Random(seed), lists) {
        let mut list = CutList::new(0);
        operations::run(&script, |given, _, operation| {
            one(&mut row, None, given, PLACES, operation, |held, _, operation| wrapped(&mut list, held, operation))
        });
    }
    row
}

/// One operation by the methods of the wrapper. Its list goes on where it is what the operation is handed; else one is
/// made of the words and the memory, or refused. A number that no operation has stands for readers that do not agree.
fn wrapped(list: &mut CutList, held: &mut Held, operation: Operation) -> u32 {
    if list.words() != held.record() || list.memory()[..] != held.places[..PLACES] {
        let record = held.record().try_into().expect("three words");
        match CutList::from_words(record, held.places[..PLACES].try_into().expect("512 places")) {
            Ok(made) => *list = made,
            Err(refusal) => return refusal.0,
        }
    }
    let (mut number, mut answer) = (0, held.answer().to_vec());
    match operation {
        Operation::Add(ts) => number = list.add(ts).map_or_else(|refusal| refusal.0, |()| 0),
        Operation::Remove(ts) => number = list.remove(ts).map_or_else(|refusal| refusal.0, |()| 0),
        Operation::Empty => list.empty(),
        Operation::Nearest(ts) => answer = list.nearest(ts).map_or(vec![0, 0], |x| vec![1, x as u64]),
        Operation::Span(from, to) => {
            let span = list.span(from, to);
            answer = vec![span.start as u64, span.len() as u64];
        }
        Operation::Clip(ts) => answer[0] = list.clip(ts) as u64,
    }
    held.words[GUARD..GUARD + 3].copy_from_slice(list.words());
    held.places[..PLACES].copy_from_slice(&list.memory()[..]);
    held.answer[GUARD..GUARD + 2].copy_from_slice(&answer);
    let count = held.count() as usize;
    let agree = (list.len(), list.is_empty(), list.min_duration()) == (count, count == 0, held.min_duration())
        && count <= PLACES
        && list.stamps() == &held.places[..count];
    if agree { number } else { u32::MAX }
}

/// One operation on both sides: the number, the record, all places, the answer, and what is about these. The list of
/// operations goes on by the rules.
fn one(
    row: &mut Row,
    met: Option<&mut Met>,
    given: &Held,
    lent: usize,
    operation: Operation,
    mut operate: impl FnMut(&mut Held, usize, Operation) -> u32,
) -> (u32, Held) {
    let stamps = rules::stamps(given, lent);
    let mut after = given.clone();
    let number = rules::operate(&mut after, &stamps, operation);
    if let Some(met) = met {
        met.count(&Case { given, lent, operation, stamps: &stamps, number, after: &after });
    }
    let mut left = given.clone();
    let found = operate(&mut left, lent, operation);
    let input = || {
        let shown = &given.places[..given.places.len().min(given.count() as usize).min(16)];
        format!("{operation:?}, record {:?}, {lent} places, the first of them {shown:?}", given.record())
    };
    if (number, &after) == (found, &left) {
        row.compare(given.count(), input, (), ());
    } else {
        row.compare(given.count(), input, Shown::of(number, &after, &left), Shown::of(found, &left, &after));
    }
    (number, after)
}

/// What is shown of a result that differs from the other side's: of the places the first that differs.
#[derive(Debug, PartialEq)]
struct Shown {
    number: u32,
    record: Vec<u64>,
    answer: Vec<u64>,
    place: Option<(usize, i64)>,
    guarded: bool,
}

impl Shown {
    fn of(number: u32, held: &Held, other: &Held) -> Self {
        let place = (0..held.places.len()).find(|&i| held.places[i] != other.places[i]).map(|i| (i, held.places[i]));
        let (record, answer) = (held.record().to_vec(), held.answer().to_vec());
        Shown { number, record, answer, place, guarded: held.guarded() }
    }
}

/// The sizes, and the record of a new list, for some minima.
fn new_lists() -> Row {
    let mut row = Row::by_rules("new lists, words and places");
    let sizes = unsafe { [c::mw_list_words(), c::mw_list_places()] };
    row.compare(0, || "words and places".to_string(), [3, PLACES as u64], sizes);
    row.compare(0, || "of the wrapper".to_string(), [3, PLACES], [c::LIST_WORDS, c::LIST_PLACES]);
    for minimum in MINIMA.into_iter().chain((0..64).map(|bit| 1 << bit)) {
        let expected = Held::new(minimum, 0, [0; PLACES].into_iter());
        let mut found = Held::new(!minimum, u64::MAX, [0; PLACES].into_iter());
        *found.version() = 0;
        unsafe { c::mw_list_new(found.words[GUARD..].as_mut_ptr().cast(), minimum) };
        row.compare(minimum, || format!("minimum {minimum}"), &expected, &found);
        let list = CutList::new(minimum);
        let shown = (&list.words()[..], &list.memory()[..]);
        let input = || format!("minimum {minimum}, by the wrapper");
        row.compare(minimum, input, (expected.record(), &expected.places[..PLACES]), shown);
    }
    row
}
