//! What `replay_plan` must print: texts of light plans, by the second reading of them (plan_rules.rs). README.md states the
//! texts in words.
use crate::generator::{Digest, Generator};
use crate::plan_rules::{self, Row};
use std::fmt::Write;

/// Bytes of a record, by which a text is made.
const RECORD: usize = 16;

/// What is put into a text.
const ALPHABET: &[u8; 32] = b"0123456789012345,,,,\n\n\n\n -+.\r\0a\xff";

pub fn lines() -> String {
    let mut out = String::new();
    let mut generator = Generator(0);
    for batch in 0..16 {
        let mut digest = Digest::new();
        for _ in 0..256 {
            feed(&mut digest, &text(&generator.shades(RECORD, 0)));
        }
        writeln!(out, "plan {batch} {}", digest.value()).unwrap();
    }
    out
}

/// The rows of a plan that has each median once, turned round, with the last left out where r[3] % 8 is 0.
fn rows(r: &[u8]) -> Vec<Row> {
    let count = r[0] as usize % 16 + 1;
    let row = |i: usize| {
        let [from, end] = [i, i + 1].map(|i| 256 * i / count);
        Row::new(from as u8, (end - 1) as u8, (r[2] as usize + 17 * i) as u8)
    };
    let rows = (0..count).map(|place| row((place + r[1] as usize) % count));
    rows.take(if r[3] % 8 == 0 { count - 1 } else { count }).collect()
}

/// The text that a record describes.
fn text(r: &[u8]) -> Vec<u8> {
    let rows = rows(r);
    let mut text = plan_rules::text(&rows);
    if r[3] % 8 == 1 {
        text.extend(plan_rules::text(&rows[..1]));
    }
    for change in 0..r[4] as usize % 4 {
        let [kind, place, byte] = [0, 1, 2].map(|i| r[5 + 3 * change + i]);
        changed(&mut text, kind % 8, place as usize, ALPHABET[byte as usize % 32]);
    }
    text
}

/// A byte that is replaced, put in, or left out; or the text ends there. At the end of the text there is none to replace.
fn changed(text: &mut Vec<u8>, kind: u8, place: usize, byte: u8) {
    let place = place % (text.len() + 1);
    match kind {
        4 | 5 => text.insert(place, byte),
        7 => text.truncate(place),
        _ if place == text.len() => (),
        6 => _ = text.remove(place),
        _ => text[place] = byte,
    }
}

/// The text; its number; of its rows the count and the three arrays; where it is accepted their text, and the threshold of
/// each median, 0 where there is no plan.
fn feed(digest: &mut Digest, text: &[u8]) {
    feed_text(digest, text);
    let (number, rows) = match plan_rules::read(text) {
        Ok(rows) => (0, rows),
        Err(number) => (number, Vec::new()),
    };
    digest.word(number);
    digest.word(rows.len() as u32);
    for of in [|row: &Row| row.from, |row: &Row| row.to, |row: &Row| row.threshold] {
        let mut bytes = [0; plan_rules::MOST];
        bytes.iter_mut().zip(&rows).for_each(|(byte, row)| *byte = of(row));
        digest.bytes(&bytes);
    }
    if number == 0 {
        feed_text(digest, &plan_rules::text(&rows));
        let threshold = |median: u8| rows.iter().find(|row| row.has(median)).map_or(0, |row| row.threshold);
        digest.bytes(&(0..=255).map(threshold).collect::<Vec<u8>>());
    }
}

fn feed_text(digest: &mut Digest, text: &[u8]) {
    digest.word(text.len() as u32);
    digest.bytes(text);
}
