//! Whole sessions: the proved function and the proved program beside the oracle.
use crate::rattle;
use crate::session::{self, Seen};
use crate::session_inputs::Inputs;
use crate::table::Row;
use std::fmt;
use std::io::{Read, Write};
use std::path::Path;
use std::process::{Child, Command, Stdio};

const SHORT: u64 = 150_000;
const LONG: u64 = 400;
const PIPED: u64 = 200;
/// Bytes of a long input, and of the longest that the program gets.
const LONG_BYTES: usize = 100_000;
const PIPED_BYTES: usize = 6_000_000;
/// How many differing inputs are shrunk.
const SHRUNK: u64 = 10;
/// A byte that no output has: the memory before a call.
const BLANK: u8 = 0xA5;
/// How far more than the output always is room.
const SPARE: usize = 64;
const CHUNKS: [usize; 7] = [0, 1, 2, 3, 7, 64, 1000];

/// Bytes that a difference shows as text.
#[derive(PartialEq)]
struct Text(Vec<u8>);

impl fmt::Debug for Text {
    fn fmt(&self, f: &mut fmt::Formatter<'_>) -> fmt::Result {
        write!(f, "\"{}\"", self.0.escape_ascii())
    }
}

pub fn rows(root: &Path) -> Vec<Row> {
    let mut inputs = Inputs::new(7);
    let mut seen = Seen::default();
    let mut whole = Row::new("whole sessions");
    let mut narrow = Row::new("whole sessions with little room");
    for i in 0..SHORT + LONG {
        let input = random(&mut inputs, i);
        let chunk = chunk(&mut inputs);
        let expected = session::output(&input, &mut seen);
        compare(&mut whole, input, chunk, expected.clone());
        if i % 8 == 0 {
            let room = inputs.below((expected.len() + SPARE) as u64) as usize;
            little_room(&mut narrow, &mut inputs, room);
        }
    }
    let Seen { lines, frames, sides, others, cuts } = seen;
    println!(
        "{} sessions: {lines} lines, {frames} frames taken, {cuts} cuts, {sides} answers 1, {others} answers 16",
        SHORT + LONG
    );
    vec![whole, narrow, piped(root)]
}

/// Mostly short inputs, the empty one among them.
fn random(inputs: &mut Inputs, i: u64) -> Vec<u8> {
    if i >= SHORT {
        return inputs.input(u64::MAX, LONG_BYTES);
    }
    let lines = inputs.below(13);
    inputs.input(lines, usize::MAX)
}

fn chunk(inputs: &mut Inputs) -> usize {
    match inputs.below(8) {
        7 => inputs.below(9000) as usize + 1,
        kind => CHUNKS[kind as usize],
    }
}

/// What the proved session leaves in memory that has room for the output: its text, and whether the rest stayed.
fn proved(input: &[u8], chunk: usize, room: usize) -> (Text, bool) {
    let mut out = vec![BLANK; room];
    let count = rattle::session(input, chunk, &mut out);
    let stayed = out[count..].iter().all(|&b| b == BLANK);
    out.truncate(count);
    (Text(out), stayed)
}

fn differs(input: &[u8], chunk: usize) -> bool {
    let expected = session::output(input, &mut Seen::default());
    let room = expected.len() + SPARE;
    proved(input, chunk, room) != (Text(expected), true)
}

fn compare(row: &mut Row, input: Vec<u8>, chunk: usize, expected: Vec<u8>) {
    let room = expected.len() + SPARE;
    let found = proved(&input, chunk, room);
    let right = (Text(expected), true);
    if found == right || row.differ() >= SHRUNK {
        let shown = || format!("\"{}\" in chunks of {chunk}", input.escape_ascii());
        return row.compare(input.len() as u64, shown, right, found);
    }
    let least = shrunk(input, chunk);
    let expected = session::output(&least, &mut Seen::default());
    let found = proved(&least, chunk, expected.len() + SPARE);
    let shown = || format!("\"{}\" in chunks of {chunk}", least.escape_ascii());
    row.compare(least.len() as u64, shown, (Text(expected), true), found);
}

/// A differing input with parts left out for as long as it still differs: halves first, single bytes last.
fn shrunk(mut input: Vec<u8>, chunk: usize) -> Vec<u8> {
    let mut part = input.len() / 2;
    while part > 0 {
        let mut at = 0;
        while at < input.len() {
            let end = (at + part).min(input.len());
            let without = [&input[..at], &input[end..]].concat();
            if differs(&without, chunk) {
                input = without;
            } else {
                at = end;
            }
        }
        part /= 2;
    }
    input
}

/// Memory that may be too small: the whole output, or 0, which only memory without the spare bytes may give.
fn little_room(row: &mut Row, inputs: &mut Inputs, room: usize) {
    let lines = inputs.below(13);
    let input = inputs.input(lines, usize::MAX);
    let chunk = chunk(inputs);
    let expected = session::output(&input, &mut Seen::default());
    let need = expected.len();
    let found = proved(&input, chunk, room).0;
    let shown = || format!("\"{}\" in chunks of {chunk}, room for {room} bytes", input.escape_ascii());
    let none = found.0.is_empty() && room < need + SPARE;
    let right = if none { Text(Vec::new()) } else { Text(expected) };
    row.compare(input.len() as u64, shown, right, found);
}

/// The program, fed by a pipe in pieces; the last input is long, and the script at the root gets it.
fn piped(root: &Path) -> Row {
    let mut row = Row::new("sessions by the program cuts, piped");
    let mut inputs = Inputs::new(8);
    for i in 0..=PIPED {
        let (lines, bytes) = match i {
            PIPED => (u64::MAX, PIPED_BYTES),
            _ if i % 10 == 9 => (u64::MAX, LONG_BYTES),
            _ => (inputs.below(13), usize::MAX),
        };
        let program = if i == PIPED { root.join("cuts") } else { root.join("target/bin/cuts") };
        let input = inputs.input(lines, bytes);
        let most = inputs.pick(&[1, 20, 5000, 70_000]).max(input.len() as u64 / 5000);
        let expected = session::output(&input, &mut Seen::default());
        let found = run(&program, &input, most, &mut inputs);
        let shown = || format!("\"{}\" in pieces of at most {most}", input.escape_ascii());
        row.compare(input.len() as u64, shown, Text(expected), found);
    }
    row
}

/// What a program writes on an input that comes in pieces of 1 to `most` bytes.
fn run(program: &Path, input: &[u8], most: u64, inputs: &mut Inputs) -> Text {
    let spawned = Command::new(program).stdin(Stdio::piped()).stdout(Stdio::piped()).spawn();
    let mut child: Child = spawned.unwrap_or_else(|e| panic!("{}: {e}", program.display()));
    let (mut to, mut from) = (child.stdin.take().expect("piped"), child.stdout.take().expect("piped"));
    let reader = std::thread::spawn(move || {
        let mut out = Vec::new();
        from.read_to_end(&mut out).map(|_| out)
    });
    let mut rest = input;
    while !rest.is_empty() {
        let (piece, after) = rest.split_at(rest.len().min(1 + inputs.below(most) as usize));
        to.write_all(piece).expect("the program reads to the end");
        rest = after;
    }
    drop(to);
    let out = reader.join().expect("the reader ends").expect("a pipe");
    assert!(child.wait().expect("it was started").success());
    Text(out)
}
