//! The list of a sitting by its rules: a second model, on a sorted `Vec` of stamps whose differences are taken in 128
//! bits. It follows the rules' text and include/mawerodu.h, and is not made from the proved code.

/// The first word of a record.
pub const VERSION: u64 = 0x4d57_4c49_5354_3031;
/// The places of a list, and so the most stamps that it holds.
pub const PLACES: usize = 512;

#[derive(Clone, Copy, Debug, PartialEq)]
pub enum Operation {
    Add(i64),
    Remove(i64),
    Empty,
    Nearest(i64),
    Span(i64, i64),
    Clip(i64),
}

/// Words on both sides of a record and of an answer, and places behind the memory, which no operation may touch.
pub const GUARD: usize = 2;
const SENTINEL: u64 = 0x5151_5151_5151_5151;

/// A list as its caller holds it: its record, the memory for its stamps, and the memory for an answer.
#[derive(Clone, Debug, PartialEq)]
pub struct Held {
    pub words: [u64; 3 + 2 * GUARD],
    pub places: Vec<i64>,
    pub answer: [u64; 2 + 2 * GUARD],
}

impl Held {
    /// A record on memory with these contents; guards follow them.
    pub fn new(min_duration: u64, count: u64, contents: impl Iterator<Item = i64>) -> Self {
        let mut held = Held {
            words: [SENTINEL; 3 + 2 * GUARD],
            places: contents.chain([SENTINEL as i64; GUARD]).collect(),
            answer: [SENTINEL; 2 + 2 * GUARD],
        };
        held.words[GUARD..GUARD + 3].copy_from_slice(&[VERSION, min_duration, count]);
        held
    }

    /// The version, the minimum and the count.
    pub fn record(&self) -> &[u64] {
        &self.words[GUARD..GUARD + 3]
    }

    /// Whether what is about record, memory and answer is as it was.
    #[cfg(rattle)]
    pub fn guarded(&self) -> bool {
        let about = |words: &[u64]| [&words[..GUARD], &words[words.len() - GUARD..]].concat();
        let behind = self.places[self.places.len() - GUARD..].iter().map(|&place| place as u64);
        about(&self.words).into_iter().chain(about(&self.answer)).chain(behind).all(|word| word == SENTINEL)
    }

    #[cfg(rattle)]
    pub fn version(&mut self) -> &mut u64 {
        &mut self.words[GUARD]
    }

    pub fn min_duration(&self) -> u64 {
        self.words[GUARD + 1]
    }

    pub fn set_min_duration(&mut self, min_duration: u64) {
        self.words[GUARD + 1] = min_duration;
    }

    pub fn count(&self) -> u64 {
        self.words[GUARD + 2]
    }

    pub fn set_count(&mut self, count: u64) {
        self.words[GUARD + 2] = count;
    }

    pub fn answer(&self) -> &[u64] {
        &self.answer[GUARD..GUARD + 2]
    }

    fn answer_mut(&mut self) -> &mut [u64] {
        &mut self.answer[GUARD..GUARD + 2]
    }
}

/// Why a list is refused by 15, the first reason in the order of the rules.
#[derive(Clone, Copy, Debug, PartialEq)]
pub enum Foreign {
    Version,
    /// A count over 512.
    Count(u64),
    /// Memory of fewer places.
    Memory(usize),
    /// Two neighbours: how far the second is past the first.
    Neighbours(i128),
}

/// How far a stamp is past another.
pub fn past(ts: i64, earlier: i64) -> i128 {
    ts as i128 - earlier as i128
}

/// The stamps of a list whose memory is the first `lent` places.
pub fn stamps(held: &Held, lent: usize) -> Result<Vec<i64>, Foreign> {
    let [version, min_duration, count] = *held.record() else { panic!("a record has three words") };
    if version != VERSION {
        return Err(Foreign::Version);
    }
    if count > PLACES as u64 {
        return Err(Foreign::Count(count));
    }
    if lent < PLACES {
        return Err(Foreign::Memory(lent));
    }
    let stamps = held.places[..count as usize].to_vec();
    let mut differences = stamps.windows(2).map(|pair| past(pair[1], pair[0]));
    match differences.find(|&d| d <= 0 || d < min_duration as i128) {
        Some(difference) => Err(Foreign::Neighbours(difference)),
        None => Ok(stamps),
    }
}

/// One operation on a list with these stamps, or with none that are valid: its number, and what it leaves.
pub fn operate(held: &mut Held, stamps: &Result<Vec<i64>, Foreign>, operation: Operation) -> u32 {
    let Ok(stamps) = stamps else { return 15 };
    match operation {
        Operation::Add(ts) => add(held, stamps.clone(), ts),
        Operation::Remove(ts) => remove(held, stamps.clone(), ts),
        Operation::Empty => {
            held.places[..stamps.len()].fill(0);
            held.set_count(0);
            0
        }
        Operation::Nearest(ts) => {
            // the least distance, and of equally near stamps the least
            let nearest = stamps.iter().min_by_key(|&&x| (past(x, ts).abs(), x));
            let words = nearest.map_or([0, 0], |&x| [1, x as u64]);
            held.answer_mut().copy_from_slice(&words);
            0
        }
        Operation::Span(from, to) => {
            let within: Vec<usize> = (0..stamps.len()).filter(|&i| from <= stamps[i] && stamps[i] <= to).collect();
            let words = [within.first().map_or(0, |&first| first as u64), within.len() as u64];
            held.answer_mut().copy_from_slice(&words);
            0
        }
        Operation::Clip(ts) => {
            held.answer_mut()[0] = stamps.iter().filter(|&&x| x <= ts).count() as u64;
            0
        }
    }
}

fn add(held: &mut Held, mut stamps: Vec<i64>, ts: i64) -> u32 {
    let near = |x: i64| x == ts || past(x, ts).abs() < held.min_duration() as i128;
    if stamps.iter().any(|&x| near(x)) {
        return 17;
    }
    if stamps.len() == PLACES {
        return 18;
    }
    stamps.push(ts);
    stamps.sort();
    held.places[..stamps.len()].copy_from_slice(&stamps);
    held.set_count(stamps.len() as u64);
    0
}

fn remove(held: &mut Held, mut stamps: Vec<i64>, ts: i64) -> u32 {
    let Some(place) = stamps.iter().position(|&x| x == ts) else { return 19 };
    stamps.remove(place);
    held.places[..stamps.len()].copy_from_slice(&stamps);
    held.places[stamps.len()] = 0;
    held.set_count(stamps.len() as u64);
    0
}
