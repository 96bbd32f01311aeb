//! A luma frame of one pixel on the words of any state that calls accept, also of one that no run reaches: the words of
//! state and answer after it, and the store. For states that the Rust can't be handed; it follows docs/RULES.md and the
//! Rust's `push_and_check` that it names, with the filter of filter_rules.rs, and is not made from the proved code.
use crate::filter_rules::{Filter, past};
use crate::rules::{self, Layout, Own, Settings};

/// An optional value, as two words.
fn option(words: &[u64], place: usize) -> Option<u64> {
    (words[place] == 1).then(|| words[place + 1])
}

fn put(words: &mut [u64], place: usize, value: Option<u64>) {
    (words[place], words[place + 1]) = (value.is_some() as u64, value.unwrap_or(0));
}

/// What a call leaves: the words of the state and of the answer, and the store.
#[derive(Debug, PartialEq)]
pub struct After {
    pub state: Vec<u64>,
    pub answer: Vec<u64>,
    pub store: [u8; 4],
}

pub fn luma(layout: &Layout, words: &[u64], luma: u8, stamp: i64, store: [u8; 4]) -> After {
    let settings = layout.settings(words);
    let [wh, ws, wl, we] = settings.weights;
    let stream = layout.stream;
    let scored = words[stream] == 1 && words[layout.width()] == 1 && words[layout.width() + 1] == 1;
    // settings and size are written as they are, with the stream and what comes after it as at the start
    let mut state = settings.fresh(1, 1);
    state[stream] = 1;
    let mut answer = vec![0; rules::ANSWER];
    // a side below 3: the edge plane is 0; with edges off it is not touched
    let edges = if we == 0.0 { store[3] } else { 0 };
    let after = [0, 0, luma, edges];
    let sums = [0, 1, 2, 3].map(|i| after[i].abs_diff(store[i]));
    // the count is 1, so a mean is its sum
    let deltas = sums.map(f64::from);
    let sum = wh.abs() + ws.abs() + wl.abs() + we.abs();
    let score = (deltas[0] * wh + deltas[1] * ws + deltas[2] * wl + deltas[3] * we) / sum;
    if scored {
        put(&mut state, stream + 1, Some(score.to_bits()));
        state[stream + 3] = 1;
        put(&mut answer, 2, Some(score.to_bits()));
        for i in 0..4 {
            state[stream + 4 + i] = deltas[i].to_bits();
            answer[4 + i] = deltas[i].to_bits();
            answer[8 + i] = sums[i] as u64;
        }
        answer[12] = 1;
    }
    let scored = scored.then_some(score);
    let cut = match settings.own {
        Own::Content { plan, .. } => {
            let threshold = plan.threshold(settings.threshold, luma);
            filtered(&settings, words, &mut state, scored.map(|score| score >= threshold), stamp)
        }
        Own::Adaptive { window_width, min_content_val } => {
            pushed(&settings, window_width as usize, min_content_val, words, &mut state, scored, stamp)
        }
    };
    put(&mut answer, 0, cut.map(|stamp| stamp as u64));
    After { state, answer, store: after }
}

/// The filter of the content detector: words 21 to 26. The first frame of a stretch leaves it as at the start.
fn filtered(settings: &Settings, words: &[u64], state: &mut [u64], above: Option<bool>, stamp: i64) -> Option<i64> {
    let above = above?;
    let mut filter = Filter {
        last: option(words, 21).map(|word| word as i64),
        enabled: words[23] == 1,
        triggered: words[24] == 1,
        start: option(words, 25).map(|word| word as i64),
    };
    let cut = filter.step(settings.filter(), above, stamp);
    put(state, 21, filter.last.map(|stamp| stamp as u64));
    (state[23], state[24]) = (filter.enabled as u64, filter.triggered as u64);
    put(state, 25, filter.start.map(|stamp| stamp as u64));
    cut
}

/// The window of the adaptive detector: words 22 to 287. A frame without a score leaves it.
fn pushed(
    settings: &Settings,
    width: usize,
    least: f64,
    words: &[u64],
    state: &mut [u64],
    score: Option<f64>,
    stamp: i64,
) -> Option<i64> {
    const STAMPS: usize = 30;
    const SCORES: usize = 159;
    let double = |word: u64| f64::from_bits(word);
    state[22..].copy_from_slice(&words[22..]);
    for place in [24, 26, 28] {
        put(state, place, option(words, place));
    }
    let score = score?;
    let full = 2 * width + 1;
    let count = words[22] as usize;
    let mut sum = double(words[23]) + score;
    if count == full {
        sum -= double(words[SCORES]);
        state.copy_within(STAMPS + 1..STAMPS + full, STAMPS);
        state.copy_within(SCORES + 1..SCORES + full, SCORES);
    }
    let place = count.min(full - 1);
    state[STAMPS + place] = stamp as u64;
    state[SCORES + place] = score.to_bits();
    (state[22], state[23]) = (place as u64 + 1, sum.to_bits());
    if place + 1 < full {
        return None;
    }
    let (target_stamp, target) = (state[STAMPS + width] as i64, double(state[SCORES + width]));
    let average = (sum - target) / (2 * width) as f64;
    let ratio = if average.abs() < 1e-5 {
        if target >= least { 255.0 } else { 0.0 }
    } else {
        let quotient = target / average;
        if quotient < 255.0 { quotient } else { 255.0 }
    };
    let last = option(words, 24).map_or(settings.filter().seed(target_stamp), |word| word as i64);
    let cut = ratio >= settings.threshold && target >= least && past(target_stamp, last, settings.min_duration);
    put(state, 24, Some(if cut { target_stamp } else { last } as u64));
    put(state, 26, Some(ratio.to_bits()));
    put(state, 28, Some(target.to_bits()));
    cut.then_some(target_stamp)
}
