//! What `replay_list` must print: lists of operations on the list of a sitting, by its rules (list_rules.rs). README.md
//! states the lists in words.
use crate::generator::{Digest, Generator};
use crate::list_rules::{self as rules, Held, Operation};
use crate::operations::{self, MEMORY, RECORD};
use std::fmt::Write;

pub fn lines() -> String {
    let mut out = String::new();
    let mut generator = Generator(0);
    for batch in 0..16 {
        let mut digest = Digest::new();
        for c in 0..64 {
            let records = if c == 63 { 1000 } else { 24 };
            let script = generator.shades((records + 1) * RECORD, 0);
            operations::run(&script, |given, lent, operation| one(&mut digest, given, lent, operation));
        }
        writeln!(out, "list {batch} {}", digest.value()).unwrap();
    }
    out
}

fn one(digest: &mut Digest, given: &Held, lent: usize, operation: Operation) -> (u32, Held) {
    let mut after = given.clone();
    let number = rules::operate(&mut after, &rules::stamps(given, lent), operation);
    digest.word(number);
    // a refused reader answers none, 0 and 0, or 0
    let answer = if number == 0 { after.answer() } else { &[0, 0] };
    match operation {
        Operation::Nearest(_) => {
            digest.bytes(&[answer[0] as u8]);
            if answer[0] == 1 {
                digest.long(operations::raised(answer[1] as i64));
            }
        }
        Operation::Span(..) => answer.iter().for_each(|&word| digest.long(word)),
        Operation::Clip(_) => digest.long(answer[0]),
        _ => (),
    }
    digest.long(after.min_duration());
    digest.long(after.count());
    after.places[..MEMORY].iter().for_each(|&ts| digest.long(operations::raised(ts)));
    (number, after)
}
