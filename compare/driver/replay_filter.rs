//! What `replay_filter` must print: lists of calls of the content detector with 1 x 1 luma frames that score high or 0.
//! README.md states the lists in words.
use crate::generator::{Digest, Generator};
use crate::rust;
use core::time::Duration;
use mediatime::Timestamp;
use scenesdetect::content::{Components, DEFAULT_WEIGHTS, Detector, FilterMode, LUMA_ONLY_WEIGHTS, Options};
use scenesdetect::frame::LumaFrame;
use std::fmt::Write;

const MINIMA: [u64; 8] = [0, 1, 2, 400000, 1000000, 1 << 63, u64::MAX - 1, u64::MAX];

const STAMPS: [i64; 16] = [
    i64::MIN,
    i64::MIN + 1,
    i64::MIN + 1000000,
    -1000000,
    -1,
    0,
    1,
    2,
    3,
    400000,
    1000000,
    1000001,
    2000000,
    2400000,
    i64::MAX - 1,
    i64::MAX,
];

pub fn lines() -> String {
    let mut out = String::new();
    for batch in 0..16 {
        let mut digest = Digest::new();
        (batch * 256..(batch + 1) * 256).for_each(|x| list(&mut digest, x));
        writeln!(out, "filter {batch} {}", digest.value()).unwrap();
    }
    // minimum 0, initial_cut on; minimum 1, initial_cut off
    writeln!(out, "near 4 {}", falling(merge(0, true), (0, 0), &[1, 0])).unwrap();
    writeln!(out, "early 4 {}", falling(merge(1, false), (200, 1), &[1])).unwrap();
    out
}

fn options(generator: &mut Generator) -> Options {
    let modes = [FilterMode::Suppress, FilterMode::Merge];
    let weights: [Components; 2] = [DEFAULT_WEIGHTS, LUMA_ONLY_WEIGHTS];
    let draws: [usize; 4] = [0; 4].map(|_| generator.byte() as usize);
    Options::new()
        .with_filter_mode(modes[draws[0] % 2])
        .with_initial_cut(draws[1] % 2 == 1)
        .with_weights(weights[draws[2] % 2])
        .with_min_duration(Duration::from_micros(MINIMA[draws[3] % 8]))
        .with_simd(false)
}

/// 24 calls on one detector.
fn list(digest: &mut Digest, x: u32) {
    let mut generator = Generator(x);
    let mut detector = Detector::new(options(&mut generator));
    digest.word(0);
    let spread = if x % 2 == 1 { 16 } else { 4 };
    let mut place = generator.byte() as usize % 16;
    for _ in 0..24 {
        let action = generator.byte() % 16;
        place = (place + generator.byte() as usize % spread) % 16;
        let luma = generator.byte() % 2 * 200;
        call(digest, &mut detector, action, luma, STAMPS[place]);
    }
}

/// Action 0 is `clear`, 1 a frame that is refused, its stride being 0.
fn call(digest: &mut Digest, detector: &mut Detector, action: u8, luma: u8, micros: i64) {
    let stride = if action == 1 { 0 } else { 1 };
    if action == 0 {
        detector.clear();
        return answer(digest, 0, None, None);
    }
    match LumaFrame::try_new(&[luma], 1, 1, stride, Timestamp::from_micros(micros)) {
        Err(_) => answer(digest, rust::check_luma(&[luma], 1, 1, stride), None, None),
        Ok(frame) => {
            let cut = detector.process_luma(frame);
            answer(digest, 0, cut, detector.last_score());
        }
    }
}

fn answer(digest: &mut Digest, number: u32, cut: Option<Timestamp>, score: Option<f64>) {
    digest.word(number);
    digest.bytes(&[cut.is_some() as u8]);
    if let Some(ts) = cut {
        digest.bytes(&ts.micros().to_le_bytes());
    }
    digest.bytes(&[score.is_some() as u8]);
    if let Some(score) = score {
        digest.double(score);
    }
}

fn merge(minimum: u64, initial_cut: bool) -> Options {
    Options::new()
        .with_filter_mode(FilterMode::Merge)
        .with_initial_cut(initial_cut)
        .with_weights(LUMA_ONLY_WEIGHTS)
        .with_min_duration(Duration::from_micros(minimum))
        .with_simd(false)
}

/// Merge with falling stamps: frames at 0, 1, 0 and a last one, of luma 0, 200, 0 and the last's. docs/DIFFERENCES.md
/// states the cuts.
fn falling(options: Options, last: (u8, i64), cuts: &[i64]) -> u32 {
    let (mut digest, mut detector) = (Digest::new(), Detector::new(options));
    digest.word(0);
    let mut found = Vec::new();
    for (luma, micros) in [(0, 0), (200, 1), (0, 0), last] {
        let data = [luma];
        let frame = LumaFrame::try_new(&data, 1, 1, 1, Timestamp::from_micros(micros)).expect("a whole frame");
        let cut = detector.process_luma(frame);
        found.extend(cut.map(|ts| ts.micros()));
        answer(&mut digest, 0, cut, detector.last_score());
    }
    assert_eq!(found, cuts, "the cuts that docs/DIFFERENCES.md states");
    digest.value()
}
