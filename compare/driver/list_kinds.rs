//! Which kinds of operations on the list of a sitting a comparison has met, so that none is left out unseen.
use crate::list_rules::{Foreign, Held, Operation, PLACES, past};
use crate::table::Row;

/// An operation as the rules see it: what it is handed, its number, and what it leaves.
pub struct Case<'a> {
    pub given: &'a Held,
    pub lent: usize,
    pub operation: Operation,
    pub stamps: &'a Result<Vec<i64>, Foreign>,
    pub number: u32,
    pub after: &'a Held,
}

impl Case<'_> {
    fn minimum(&self) -> u64 {
        self.given.min_duration()
    }

    fn accepted(&self, like: impl Fn(&[i64]) -> bool) -> bool {
        self.number == 0 && self.stamps.as_ref().is_ok_and(|stamps| like(stamps))
    }

    fn foreign(&self, like: impl Fn(Foreign) -> bool) -> bool {
        self.stamps.as_ref().is_err_and(|&why| like(why))
    }

    /// A list that two neighbours make foreign, by how far the second is past the first and by the minimum.
    fn neighbours(&self, like: impl Fn(i128, i128) -> bool) -> bool {
        self.foreign(|why| matches!(why, Foreign::Neighbours(d) if like(d, self.minimum() as i128)))
    }

    /// A stamp to be added, with this number, by how far it is past the stamp before it (which may equal it) and before
    /// the one after it.
    fn addition(&self, number: u32, like: impl Fn(Option<i128>, Option<i128>) -> bool) -> bool {
        let (Operation::Add(ts), Ok(stamps)) = (self.operation, self.stamps) else { return false };
        let before = stamps.iter().rev().find(|&&x| x <= ts).map(|&x| past(ts, x));
        let after = stamps.iter().find(|&&x| x > ts).map(|&x| past(x, ts));
        self.number == number && like(before, after)
    }

    /// Whether a stamp so far away is too close, and at exactly the minimum.
    fn close(&self, distance: Option<i128>) -> bool {
        distance.is_some_and(|d| d == 0 || d < self.minimum() as i128)
    }

    fn exactly(&self, distance: Option<i128>) -> bool {
        self.minimum() > 0 && distance == Some(self.minimum() as i128)
    }

    /// A stamp that is removed, by its place and the count before.
    fn removal(&self, like: impl Fn(usize, usize) -> bool) -> bool {
        let Operation::Remove(ts) = self.operation else { return false };
        self.accepted(|stamps| stamps.iter().position(|&x| x == ts).is_some_and(|place| like(place, stamps.len())))
    }

    /// The nearest stamp and the one that is asked for, by what the list has.
    fn nearest(&self, like: impl Fn(i64, Option<i64>, &[i64]) -> bool) -> bool {
        let Operation::Nearest(ts) = self.operation else { return false };
        let answer = self.after.answer();
        self.accepted(|stamps| like(ts, (answer[0] == 1).then_some(answer[1] as i64), stamps))
    }

    /// A span by its ends, the number of its stamps and what the list has.
    fn span(&self, like: impl Fn(i64, i64, u64, &[i64]) -> bool) -> bool {
        let Operation::Span(from, to) = self.operation else { return false };
        self.accepted(|stamps| like(from, to, self.after.answer()[1], stamps))
    }

    fn clip(&self, like: impl Fn(i64, u64, &[i64]) -> bool) -> bool {
        let Operation::Clip(ts) = self.operation else { return false };
        self.accepted(|stamps| like(ts, self.after.answer()[0], stamps))
    }
}

/// A kind by its name.
type Kind = (&'static str, fn(&Case) -> bool);

const KINDS: [Kind; 48] = [
    ("another version", |c| c.foreign(|why| why == Foreign::Version)),
    ("count 513", |c| c.foreign(|why| why == Foreign::Count(513))),
    ("a count over 2^32", |c| c.foreign(|why| matches!(why, Foreign::Count(count) if count > 1 << 32))),
    ("memory of 511 places", |c| c.foreign(|why| why == Foreign::Memory(511))),
    ("memory of fewer places", |c| c.foreign(|why| matches!(why, Foreign::Memory(lent) if lent < 511))),
    ("equal neighbours", |c| c.neighbours(|d, _| d == 0)),
    ("falling neighbours", |c| c.neighbours(|d, _| d < 0)),
    ("neighbours too close by one", |c| c.neighbours(|d, minimum| 0 < d && d == minimum - 1)),
    ("neighbours closer than that", |c| c.neighbours(|d, minimum| 0 < d && d < minimum - 1)),
    ("accepted in memory of 512 places", |c| c.accepted(|_| c.lent == 512)),
    ("in memory of 513", |c| c.accepted(|_| c.lent == 513)),
    ("in memory of 600", |c| c.accepted(|_| c.lent == 600)),
    ("with no stamps", |c| c.accepted(|stamps| stamps.is_empty())),
    ("with 512", |c| c.accepted(|stamps| stamps.len() == PLACES)),
    ("with two or more and minimum 0", |c| c.accepted(|stamps| stamps.len() > 1 && c.minimum() == 0)),
    ("and minimum 1", |c| c.accepted(|stamps| stamps.len() > 1 && c.minimum() == 1)),
    ("and minimum 2^63", |c| c.accepted(|stamps| stamps.len() > 1 && c.minimum() == 1 << 63)),
    ("and minimum 2^64 - 1", |c| c.accepted(|stamps| stamps.len() > 1 && c.minimum() == u64::MAX)),
    ("with the stamp -2^63", |c| c.accepted(|stamps| stamps.first() == Some(&i64::MIN))),
    ("with the stamp 2^63 - 1", |c| c.accepted(|stamps| stamps.last() == Some(&i64::MAX))),
    ("with both", |c| c.accepted(|stamps| stamps.first() == Some(&i64::MIN) && stamps.last() == Some(&i64::MAX))),
    ("added to no stamps", |c| c.addition(0, |before, after| before.is_none() && after.is_none())),
    ("added before all", |c| c.addition(0, |before, after| before.is_none() && after.is_some())),
    ("added between two", |c| c.addition(0, |before, after| before.is_some() && after.is_some())),
    ("added after all", |c| c.addition(0, |before, after| before.is_some() && after.is_none())),
    ("added at the minimum past one", |c| c.addition(0, |before, _| c.exactly(before))),
    ("added at the minimum before one", |c| c.addition(0, |_, after| c.exactly(after))),
    ("added as the 512th", |c| c.addition(0, |_, _| c.after.count() == 512)),
    ("17 for an equal stamp", |c| c.addition(17, |before, _| before == Some(0))),
    ("17 for the one before alone", |c| c.addition(17, |before, after| c.close(before) && !c.close(after))),
    ("17 for the one after alone", |c| c.addition(17, |before, after| !c.close(before) && c.close(after))),
    ("17 by one for the one before", |c| c.addition(17, |d, _| d.is_some_and(|d| d > 0 && c.exactly(Some(d + 1))))),
    ("17 by one for the one after", |c| c.addition(17, |_, d| d.is_some_and(|d| c.exactly(Some(d + 1))))),
    ("17 with 512 held", |c| c.addition(17, |_, _| c.given.count() == 512)),
    ("18 between two", |c| c.addition(18, |before, after| before.is_some() && after.is_some())),
    ("the first removed", |c| c.removal(|place, count| place == 0 && count > 1)),
    ("the last removed", |c| c.removal(|place, count| place == count - 1)),
    ("one of 512 removed", |c| c.removal(|_, count| count == 512)),
    ("none nearest", |c| c.nearest(|_, nearest, _| nearest.is_none())),
    ("nearest on a tie", |c| c.nearest(tied)),
    ("nearest over 2^63 away", |c| c.nearest(|ts, nearest, _| nearest.is_some_and(|x| past(x, ts).abs() > 1 << 63))),
    ("span between two stamps", |c| c.span(|a, b, n, stamps| n > 1 && stamps.contains(&a) && stamps.contains(&b))),
    ("span of one stamp", |c| c.span(|from, to, n, _| from == to && n == 1)),
    ("span with none", |c| c.span(|from, to, n, _| from <= to && n == 0)),
    ("span with its first end the later", |c| c.span(|from, to, _, _| from > to)),
    ("clip of a stamp of the list", |c| c.clip(|ts, _, stamps| stamps.contains(&ts))),
    ("clip before all", |c| c.clip(|_, clip, stamps| clip == 0 && !stamps.is_empty())),
    ("clip 512", |c| c.clip(|_, clip, _| clip == 512)),
];

/// Whether a later stamp is as near as the nearest.
fn tied(ts: i64, nearest: Option<i64>, stamps: &[i64]) -> bool {
    nearest.is_some_and(|near| stamps.iter().any(|&x| x > near && past(x, ts) == past(ts, near)))
}

const NUMBERS: [u32; 5] = [0, 15, 17, 18, 19];

/// The operations by name, with the numbers that each gives.
const OPERATIONS: [(&str, &[u32]); 6] = [
    ("add", &[0, 15, 17, 18]),
    ("remove", &[0, 15, 19]),
    ("empty", &[0, 15]),
    ("nearest", &[0, 15]),
    ("span", &[0, 15]),
    ("clip", &[0, 15]),
];

fn place(operation: Operation) -> usize {
    match operation {
        Operation::Add(_) => 0,
        Operation::Remove(_) => 1,
        Operation::Empty => 2,
        Operation::Nearest(_) => 3,
        Operation::Span(..) => 4,
        Operation::Clip(_) => 5,
    }
}

/// How often each number of each operation was met, and each kind.
pub struct Met {
    numbers: [[u64; NUMBERS.len()]; OPERATIONS.len()],
    kinds: [u64; KINDS.len()],
}

impl Met {
    pub fn new() -> Self {
        Met { numbers: [[0; NUMBERS.len()]; OPERATIONS.len()], kinds: [0; KINDS.len()] }
    }

    pub fn count(&mut self, case: &Case) {
        let number = NUMBERS.iter().position(|&number| number == case.number).expect("a number of the rules");
        self.numbers[place(case.operation)][number] += 1;
        KINDS.iter().zip(&mut self.kinds).for_each(|((_, is), met)| *met += is(case) as u64);
    }

    fn all(&self) -> Vec<(String, u64)> {
        let numbers = OPERATIONS.iter().zip(&self.numbers).flat_map(|((name, numbers), met)| {
            let of = move |number: &u32| NUMBERS.iter().position(|n| n == number).expect("a number of the rules");
            numbers.iter().map(move |number| (format!("{name} {number}"), met[of(number)]))
        });
        numbers.chain(KINDS.iter().zip(self.kinds).map(|((name, _), met)| (name.to_string(), met))).collect()
    }

    /// Prints how often each was met. A row of what was not met `least` times shows it as a difference.
    pub fn hold(&self, row: &mut Row, least: u64) {
        let all = self.all();
        let shown: Vec<String> = all.iter().map(|(name, met)| format!("{name}: {met}")).collect();
        println!("operations on lists of a sitting by kind: {}", shown.join(", "));
        for (name, met) in all {
            row.compare(0, || format!("{name}: met {met} times, {least} at least"), true, met >= least);
        }
    }
}
