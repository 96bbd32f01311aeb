//! Lists of content or adaptive calls from bytes, as README.md states them, run by the oracle. The Rust takes no store,
//! scratch or magnitudes, no state record and no light plan: the refusals of those, and of settings that it takes, are
//! answered here by number.
use crate::generator::Generator;
use crate::rust;
use crate::sums::{Scored, Sums};
use core::time::Duration;
use mediatime::Timestamp;
use scenesdetect::content::{self, Components, DEFAULT_WEIGHTS, LUMA_ONLY_WEIGHTS, reach};
use scenesdetect::frame::{HsvFrame, LumaFrame, RgbFrame};

/// Bytes of a record, and of the store that the lists lend.
pub const RECORD: usize = 16;
pub const STORE: usize = 6528;
/// Bytes of the store that are shown behind the planes.
pub const BEHIND: usize = 16;

/// A detector as the lists call it.
pub trait Listed: Sized {
    /// The settings call, by record 0: its number, and the detector that the calls go on from.
    fn settled(r: &[u8]) -> (u32, Self);
    /// Whether a call is a `clear`.
    fn is_clear(r: &[u8]) -> bool;
    fn clear(&mut self);
    fn luma(&mut self, frame: LumaFrame<'_>) -> Option<Timestamp>;
    fn bgr(&mut self, frame: RgbFrame<'_>) -> Option<Timestamp>;
    fn hsv(&mut self, frame: HsvFrame<'_>) -> Option<Timestamp>;
    /// The detector that scores the frames.
    fn scorer(&self) -> &content::Detector;
    /// What is shown of its state besides the scorer's.
    fn show(&self, out: &mut Output);
}

/// The results of the calls, as bytes.
#[derive(Default)]
pub struct Output(pub Vec<u8>);

impl Output {
    pub fn word(&mut self, number: u32) {
        self.0.extend(number.to_le_bytes());
    }

    pub fn long(&mut self, number: u64) {
        self.0.extend(number.to_le_bytes());
    }

    pub fn double(&mut self, x: f64) {
        self.long(x.to_bits());
    }

    /// 0, or 1 and the stamp plus 2^63.
    pub fn stamp(&mut self, stamp: Option<Timestamp>) {
        self.0.push(stamp.is_some() as u8);
        if let Some(ts) = stamp {
            self.long((ts.micros() as i128 - i64::MIN as i128) as u64);
        }
    }

    /// 0, or 1 and the score.
    pub fn score(&mut self, score: Option<f64>) {
        self.0.push(score.is_some() as u8);
        if let Some(x) = score {
            self.double(x);
        }
    }

    fn components(&mut self, c: Components) {
        for x in [c.delta_hue(), c.delta_sat(), c.delta_lum(), c.delta_edges()] {
            self.double(x);
        }
    }

    /// The four sums and the count.
    fn sums(&mut self, sums: Sums) {
        sums.numbers().into_iter().for_each(|number| self.word(number));
    }
}

const WEIGHTS: [f64; 14] = [0.0, -0.0, 1.0, -1.0, 0.5, 0.1, 0.2, 0.3, 0.7, 2.0, -3.25, 1048576.0, -1048576.0, 1e-300];

fn weight(b: u8) -> f64 {
    match b {
        252 => f64::NAN,
        253 => f64::INFINITY,
        254 => f64::NEG_INFINITY,
        255 => 1048577.0,
        _ => WEIGHTS[b as usize % 14],
    }
}

pub fn weights(r: &[u8]) -> Components {
    match r[2] % 8 {
        0 => DEFAULT_WEIGHTS,
        1 => LUMA_ONLY_WEIGHTS,
        2 => Components::new(1.0, 1.0, 1.0, weight(r[6])),
        3 => Components::new(0.0, -0.0, 0.0, weight(r[6])),
        _ => Components::new(weight(r[3]), weight(r[4]), weight(r[5]), weight(r[6])),
    }
}

/// Row 6 is added, so the Rust takes other weights.
pub fn weights_fit(w: Components) -> bool {
    [w.delta_hue(), w.delta_sat(), w.delta_lum(), w.delta_edges()].into_iter().all(|w| w.abs() <= 1048576.0)
}

/// A threshold by its kind: one of the odd ones, or the other.
pub fn threshold(kind: u8, other: f64) -> f64 {
    match kind % 32 {
        0 => f64::NAN,
        1 => f64::INFINITY,
        2 => f64::NEG_INFINITY,
        3 => -0.0,
        4 => 27.0,
        _ => other,
    }
}

pub fn kernel(r: &[u8]) -> Option<u32> {
    match r[8] % 8 {
        0..=3 => None,
        4 => Some(u32::MAX),
        5 => Some(r[9] as u32),
        _ => Some(2 * (r[9] as u32 % 32) + 1),
    }
}

pub fn minimum(r: &[u8]) -> Duration {
    Duration::from_micros(match r[10] % 16 {
        0 => 0,
        1 => 1,
        2 => 1_000_000,
        3 => u64::MAX,
        _ => r[11] as u64 * 1000,
    })
}

pub fn initial_cut(r: &[u8]) -> bool {
    r[7] / 2 % 2 == 0
}

fn side(b: u8) -> u32 {
    if b < 192 { b as u32 % 13 } else { b as u32 % 41 }
}

/// How far the next stamp is before 2^63 - 1.
fn turned(clock: u64, r: &[u8]) -> u64 {
    let step = r[2] as u64 * 1000;
    match r[1] % 32 {
        0 => u64::MAX,
        1 => 0,
        2 => i64::MAX as u64,
        3..=6 => clock.checked_add(step).unwrap_or(clock),
        _ => clock.checked_sub(step).unwrap_or(clock),
    }
}

/// What a frame call is lent.
pub struct Frame {
    pub width: u32,
    pub height: u32,
    pub stride: u32,
    need: usize,
    /// Bytes of the three planes, of store and scratch, and magnitudes.
    pub lent: [usize; 6],
}

fn frame((width, height): (u32, u32), r: &[u8]) -> Frame {
    let faults = if r[13] % 4 == 0 { r[14] & r[15] } else { 0 };
    let faulty = |bit: u32| faults >> bit & 1 == 1;
    let least = if (11..=20).contains(&(r[0] % 32)) { 3 * width } else { width };
    let stride = least + if r[6] < 128 { 0 } else { r[6] as u32 % 4 };
    let need = (height * stride) as usize;
    let n = (width * height) as usize;
    let lent = |need: usize, more: u8, bit| {
        if faulty(bit) { need.saturating_sub(1) } else { need + more as usize % 4 }
    };
    Frame {
        width: if faulty(0) { 4097 } else { width },
        height,
        stride: if faulty(1) { least.saturating_sub(1) } else { stride },
        need,
        lent: [
            lent(need, r[7], 2),
            lent(need, r[7] / 4, 3),
            lent(need, r[7] / 16, 4),
            lent(4 * n, r[7] / 64, 5),
            lent(7 * n + 2 * width.max(height) as usize, r[7] / 2, 6),
            lent(n, r[7] / 8, 7),
        ],
    }
}

/// Refusals 12 to 14.
fn memory_refusal(f: &Frame) -> u32 {
    let n = f.width as usize * f.height as usize;
    let needs = [4 * n, 7 * n + 2 * f.width.max(f.height) as usize, n];
    let short = (0..3).find(|&i| f.lent[3 + i] < needs[i]);
    short.map_or(0, |i| 12 + i as u32)
}

/// The film of a list: the planes that its frames are taken from, their size, and the clock.
pub struct Film {
    pub planes: [Vec<u8>; 3],
    size: (u32, u32),
    clock: u64,
}

impl Film {
    pub fn new(r: &[u8]) -> Self {
        Film { planes: [(); 3].map(|_| vec![0; 5120]), size: (side(r[12]), side(r[13])), clock: i64::MAX as u64 }
    }

    /// The size and the clock of the call that a record describes.
    pub fn turn(&mut self, r: &[u8]) {
        if r[3] % 16 == 0 {
            self.size = (side(r[4]), side(r[5]));
        }
        self.clock = turned(self.clock, r);
    }

    pub fn stamp(&self) -> i64 {
        (i64::MAX as i128 - self.clock as i128) as i64
    }

    /// What its frame call is lent, once the planes' first bytes are renewed.
    pub fn frame(&mut self, r: &[u8]) -> Frame {
        let f = frame(self.size, r);
        let count = match r[9] % 4 {
            0 => 0,
            1 => f.need.min(r[10] as usize),
            _ => f.need,
        };
        let mut generator = Generator(r[11] as u32 * 256 + r[12] as u32);
        for plane in &mut self.planes {
            match r[8] % 8 {
                kind @ 0..=3 => plane[..count].copy_from_slice(&generator.shades(count, kind as u32)),
                _ => plane[..count].fill(generator.byte()),
            }
        }
        f
    }
}

/// Whether a call is handed a bad record.
pub fn is_bad(r: &[u8]) -> bool {
    r[13] % 32 == 1
}

/// A list while it runs: the detector, the film, the store as it is to be, the results of the calls, and the frames that
/// were scored.
struct Run<D> {
    detector: D,
    film: Film,
    store: Vec<u8>,
    out: Output,
    scored: Vec<Scored>,
}

impl<D: Listed> Run<D> {
    /// The settings call, by record 0.
    fn new(r: &[u8]) -> Self {
        let (number, detector) = D::settled(r);
        let mut out = Output::default();
        out.word(number);
        Run { detector, film: Film::new(r), store: vec![0; STORE], out, scored: Vec::new() }
    }

    fn call(&mut self, r: &[u8]) {
        self.film.turn(r);
        let bad = is_bad(r);
        if !D::is_clear(r) {
            self.frame_call(r, bad);
        } else if bad {
            self.answer(15, None, None);
        } else {
            self.detector.clear();
            self.answer(0, None, None);
        }
    }

    fn frame_call(&mut self, r: &[u8], bad: bool) {
        let f = self.film.frame(r);
        let (w, h, stride) = (f.width, f.height, f.stride);
        let [a, b, c] = [0, 1, 2].map(|i| &self.film.planes[i][..f.lent[i]]);
        let frame = match r[0] % 32 {
            0..=10 => rust::check_luma(a, w, h, stride),
            11..=20 => rust::check_bgr(a, w, h, stride),
            _ => rust::check_hsv(a, b, c, w, h, stride),
        };
        let number = if bad {
            15
        } else if frame != 0 {
            frame
        } else {
            memory_refusal(&f)
        };
        if number != 0 {
            return self.answer(number, None, None);
        }
        let ts = Timestamp::from_micros(self.film.stamp());
        let detector = &mut self.detector;
        let before = reach::held(detector.scorer());
        let cut = match r[0] % 32 {
            0..=10 => detector.luma(LumaFrame::try_new(a, w, h, stride, ts).unwrap()),
            11..=20 => detector.bgr(RgbFrame::try_new(a, w, h, stride, ts).unwrap()),
            _ => detector.hsv(HsvFrame::try_new(a, b, c, w, h, stride, ts).unwrap()),
        };
        let scorer = detector.scorer();
        reach::store_into(scorer, &mut self.store);
        let sums = Sums::of(before.as_ref(), &reach::held(scorer).expect("the planes of this frame"));
        self.scored.extend(scorer.last_components().map(|components| Scored { sums, components }));
        self.answer(0, cut, Some(sums));
    }

    /// The result of a call: the number; the cut; score, components and sums, which only an accepted frame has; what the
    /// readers show; the store.
    fn answer(&mut self, number: u32, cut: Option<Timestamp>, accepted: Option<Sums>) {
        let (out, scorer) = (&mut self.out, self.detector.scorer());
        let (score, components) = (scorer.last_score(), scorer.last_components());
        let zeros = Components::new(0.0, 0.0, 0.0, 0.0);
        out.word(number);
        out.stamp(cut);
        out.score(score.filter(|_| accepted.is_some()));
        out.components(components.filter(|_| accepted.is_some()).unwrap_or(zeros));
        out.sums(accepted.unwrap_or_default());
        out.score(score);
        out.0.push(components.is_some() as u8);
        if let Some(c) = components {
            out.components(c);
        }
        self.detector.show(out);
        let (w, h) = reach::size(scorer);
        out.0.extend(&self.store[..4 * (w * h) as usize + BEHIND]);
    }
}

/// The results of a list, the detector after it, and the frames that were scored.
pub fn run<D: Listed>(script: &[u8]) -> (Vec<u8>, D, Vec<Scored>) {
    let mut records = script.chunks_exact(RECORD);
    let mut run = Run::new(records.next().expect("a record of settings"));
    for record in records {
        run.call(record);
    }
    (run.out.0, run.detector, run.scored)
}
