//! The station library beside its own rules (rules.rs): sizes and version, settings by numbers, and the order in which a
//! frame call refuses.
use crate::plan_rules;
use crate::rules::{self, ADAPTIVE_DEFAULTS, CONTENT_DEFAULTS, Judged, Own, Settings};
use crate::station::{ADAPTIVE, CONTENT, Frame, Functions, Planes, Station};
use crate::table::Row;
use mawerodu::sys::{self as c, ADAPTIVE_WORDS, ANSWER_WORDS, CONTENT_WORDS};

pub fn rows() -> Vec<Row> {
    let mut content = Row::by_rules("settings by numbers, content");
    let mut adaptive = Row::by_rules("settings by numbers, adaptive");
    content_settings(&mut content);
    adaptive_settings(&mut adaptive);
    let mut order = Row::by_rules("frame calls, every set of faults");
    every_fault(&mut order, "content", &CONTENT);
    every_fault(&mut order, "adaptive", &ADAPTIVE);
    let mut sides = Row::by_rules("frame calls, sides to 2^32 - 1");
    every_side(&mut sides, "content", &CONTENT);
    every_side(&mut sides, "adaptive", &ADAPTIVE);
    vec![sizes(), content, adaptive, order, sides]
}

/// The version in the file VERSION, as one number: major << 16 | minor << 8 | patch.
fn version() -> u64 {
    let parts = include_str!("../../VERSION").trim().split('.').map(|part| part.parse::<u64>().expect("a number"));
    parts.fold(0, |number, part| number << 8 | part)
}

fn sizes() -> Row {
    let mut row = Row::by_rules("version, words and sizes");
    let mut constant = |name: &str, expected: u64, found: u64| row.compare(0, || name.to_string(), expected, found);
    let one = |(major, minor, patch): (u32, u32, u32)| (major << 16 | minor << 8 | patch) as u64;
    unsafe {
        constant("version", version(), c::mw_version() as u64);
        constant("version by the wrapper", version(), one(mawerodu::version()));
        constant("version of the wrapper", version(), one(mawerodu::VERSION));
        constant("words of a content state", CONTENT_WORDS as u64, c::mw_content_words());
        constant("words of an adaptive state", ADAPTIVE_WORDS as u64, c::mw_adaptive_words());
        constant("words of an answer", rules::ANSWER as u64, c::mw_answer_words());
        constant("words of an answer by the wrapper", rules::ANSWER as u64, ANSWER_WORDS as u64);
        constant("bytes of a plan's text by the wrapper", plan_rules::TEXT as u64, c::PLAN_TEXT as u64);
        constant("rows of a plan by the wrapper", plan_rules::MOST as u64, c::PLAN_ROWS as u64);
    }
    let sides = || (0..=40).chain([640, 1080, 1920, 4095, 4096, 4097, 65536, 1 << 31, u32::MAX]);
    for width in sides() {
        for height in sides() {
            let found = unsafe {
                [c::mw_store_bytes(width, height), c::mw_scratch_bytes(width, height), c::mw_magnitudes(width, height)]
            };
            let input = || format!("{width} x {height}, store, scratch and magnitudes");
            row.compare(width as u64 + height as u64, input, rules::memory(width, height), found);
        }
    }
    row
}

/// The least weight that is too large.
const OVER: f64 = f64::from_bits(1048576f64.to_bits() + 1);
const WEIGHTS: [f64; 14] = [
    0.0,
    -0.0,
    1.0,
    -1.0,
    5e-324,
    -5e-324,
    1e-300,
    1048576.0,
    -1048576.0,
    OVER,
    -OVER,
    f64::INFINITY,
    f64::NEG_INFINITY,
    f64::NAN,
];
/// Weights that are accepted, refused by 7, and refused by 6 also where the others are zero.
const SETS: [[f64; 4]; 12] = [
    [1.0, 1.0, 1.0, 0.0],
    [0.0, 0.0, 1.0, 0.0],
    [0.0, -0.0, 0.0, 5e-324],
    [-1048576.0, 1048576.0, -1048576.0, 1048576.0],
    [-0.0, -0.0, -0.0, -5e-324],
    [0.0, 0.0, 0.0, 0.0],
    [-0.0, 0.0, -0.0, 0.0],
    [OVER, 1.0, 1.0, 1.0],
    [0.0, 0.0, 0.0, -OVER],
    [0.0, f64::NAN, 0.0, 0.0],
    [f64::INFINITY, 0.0, 0.0, 0.0],
    [1.0, 1.0, f64::NEG_INFINITY, 1.0],
];
const THRESHOLDS: [f64; 6] = [27.0, f64::NAN, -f64::NAN, f64::INFINITY, f64::NEG_INFINITY, -0.0];
const MINIMA: [u64; 3] = [1_000_000, 0, u64::MAX];
const FLAGS: [u32; 4] = [0, 1, 2, u32::MAX];
const MODES: [u32; 4] = [0, 1, 2, u32::MAX];
const KERNELS: [u32; 13] = [0, 1, 2, 3, 4, 5, 6, 7, 101, 1 << 31, (1 << 31) + 1, u32::MAX - 1, u32::MAX];
const WINDOWS: [u32; 6] = [2, 1, 64, 0, 65, u32::MAX];

/// One settings call: its number, and all words that it leaves. Refused settings leave the words of the defaults, as the
/// other settings call writes them. The words before the call are not a state.
fn settled<const N: usize>(row: &mut Row, functions: &Functions<N>, defaults: &Station<N>, settings: Settings) {
    let number = settings.refusal();
    let mut station = Station::blank([0; 3]);
    let found = station.settle(functions, &settings);
    let expected = if number == 0 { settings.fresh(0, 0) } else { defaults.words().to_vec() };
    row.compare(
        0,
        || format!("{settings:?}"),
        (number, &expected[..], true),
        (found, station.words(), station.guarded()),
    );
}

/// The words that the call without settings writes.
fn defaults<const N: usize>(row: &mut Row, functions: &Functions<N>, settings: Settings) -> Station<N> {
    let mut station = Station::blank([0; 3]);
    let number = station.default(functions);
    let found = (number, station.words(), station.guarded());
    row.compare(0, || "the defaults".to_string(), (0, &settings.fresh(0, 0)[..], true), found);
    station
}

/// Calls with each of the weights at each of the four places.
fn every_weight(mut visit: impl FnMut([f64; 4])) {
    let n = WEIGHTS.len();
    for i in 0..n.pow(4) {
        visit([i / (n * n * n), i / (n * n) % n, i / n % n, i % n].map(|place| WEIGHTS[place]));
    }
}

/// Calls with every choice of what both detectors have.
fn every_setting(base: Settings, mut visit: impl FnMut(Settings)) {
    for weights in SETS {
        for threshold in THRESHOLDS {
            for min_duration in MINIMA {
                for has_kernel in FLAGS {
                    for kernel_size in KERNELS {
                        for initial_cut in FLAGS {
                            visit(Settings {
                                threshold,
                                min_duration,
                                weights,
                                has_kernel,
                                kernel_size,
                                initial_cut,
                                ..base
                            });
                        }
                    }
                }
            }
        }
    }
}

fn content_settings(row: &mut Row) {
    let base = CONTENT_DEFAULTS;
    let fresh = defaults(row, &CONTENT, base);
    for filter_mode in MODES {
        let base = Settings { own: Own::content(filter_mode), ..base };
        every_setting(base, |settings| settled(row, &CONTENT, &fresh, settings));
        for (threshold, kernel_size) in [(27.0, 3), (27.0, 4), (f64::NAN, 3), (f64::NAN, 0)] {
            let base = Settings { threshold, has_kernel: 1, kernel_size, ..base };
            every_weight(|weights| settled(row, &CONTENT, &fresh, Settings { weights, ..base }));
        }
    }
}

fn adaptive_settings(row: &mut Row) {
    let base = ADAPTIVE_DEFAULTS;
    let fresh = defaults(row, &ADAPTIVE, base);
    for window_width in WINDOWS {
        for min_content_val in THRESHOLDS {
            let base = Settings { own: Own::Adaptive { window_width, min_content_val }, ..base };
            every_setting(base, |settings| settled(row, &ADAPTIVE, &fresh, settings));
        }
        let base = Settings { own: Own::Adaptive { window_width, min_content_val: 15.0 }, ..base };
        for (threshold, kernel_size) in [(3.0, 3), (f64::NAN, 4)] {
            let base = Settings { threshold, has_kernel: 2, kernel_size, ..base };
            every_weight(|weights| settled(row, &ADAPTIVE, &fresh, Settings { weights, ..base }));
        }
    }
}

/// One frame call on a fresh state, or on words that are refused. A refused call leaves state, answer and memory as they
/// were; an accepted one, being the first, has no score, no cut and no sums, which is an answer of zeros, and writes
/// neither past what it is lent nor, in the store, past 4n.
fn called<const N: usize>(
    row: &mut Row,
    input: impl Fn() -> String,
    functions: &Functions<N>,
    station: &Station<N>,
    judged: Judged,
    (frame, lent): (Frame, [usize; 3]),
) {
    let number = rules::frame_refusal(judged, &frame, lent);
    let mut given = station.clone();
    let found = given.call(functions, frame, lent);
    let planes = rules::memory(frame.width, frame.height)[0].min(lent[0] as u64) as usize;
    let kept = match found {
        0 => given.behind_kept(station, [planes, lent[1], lent[2]]) && given.answer() == [0; rules::ANSWER],
        _ => given == *station,
    };
    let size = frame.width as u64 + frame.height as u64 + frame.stride as u64;
    row.compare(size, input, (number, true), (found, kept && given.guarded()));
}

static BYTES: [u8; 3 * 4096 * 4] = [7; 3 * 4096 * 4];

/// Frames of some sizes with every set of faults: a bad state, a side too large, the stride one short, each plane, the
/// store, the scratch and the magnitudes one short. Memory is as long as is needed, or one place longer.
fn every_fault<const N: usize>(row: &mut Row, name: &str, functions: &Functions<N>) {
    for (width, height) in [(0, 0), (1, 1), (3, 2), (4, 5), (0, 7), (7, 0), (4096, 1), (2, 4096)] {
        let mut fresh = Station::<N>::blank(rules::memory(width, height).map(|count| count as usize + 3));
        assert_eq!(fresh.default(functions), 0);
        let mut bad = fresh.clone();
        bad.words_mut()[0] += 1;
        for kind in 0..3 {
            for faults in 0..512usize {
                for more in 0..2 {
                    let faulty = |bit: usize| faults >> bit & 1;
                    let least = if kind == 1 { 3 * width } else { width };
                    let stride = (least + more as u32).saturating_sub((more + 1) as u32 * faulty(2) as u32);
                    let need = height as usize * stride as usize;
                    let plane = |bit| &BYTES[..(need + more).saturating_sub((more + 1) * faulty(bit))];
                    let planes = match kind {
                        0 => Planes::Luma(plane(3)),
                        1 => Planes::Bgr(plane(3)),
                        _ => Planes::Hsv([plane(3), plane(4), plane(5)]),
                    };
                    let large = faulty(1) as u32 * (4097 - if more == 0 { width } else { height });
                    let (wide, high) = if more == 0 { (width + large, height) } else { (width, height + large) };
                    let [store, scratch, magnitudes] = rules::memory(width, height).map(|count| count as usize + more);
                    let lent = [(store, 6), (scratch, 7), (magnitudes, 8)]
                        .map(|(count, bit)| count.saturating_sub((more + 1) * faulty(bit)));
                    let (station, judged) =
                        if faulty(0) == 1 { (&bad, Judged::NoRecord) } else { (&fresh, Judged::Good) };
                    let frame = Frame { planes, width: wide, height: high, stride, ts: 0 };
                    let input = || {
                        format!(
                            "{name}, kind {kind}, {wide} x {high}, stride {stride}, faults {faults:#b}, {more} more"
                        )
                    };
                    called(row, input, functions, station, judged, (frame, lent));
                }
            }
        }
    }
}

/// Sides and strides up to 2^32 - 1, with no bytes and with a few, and no memory.
fn every_side<const N: usize>(row: &mut Row, name: &str, functions: &Functions<N>) {
    let third = u32::MAX / 3;
    let numbers = [0, 1, 2, 4095, 4096, 4097, 12288, 65536, third, third + 1, 1 << 31, u32::MAX - 1, u32::MAX];
    let mut station = Station::<N>::blank([0; 3]);
    assert_eq!(station.default(functions), 0);
    for width in numbers {
        for height in numbers {
            for stride in numbers {
                for count in [0, 1, 4097] {
                    let of = &BYTES[..count];
                    for (kind, planes) in
                        [Planes::Luma(of), Planes::Bgr(of), Planes::Hsv([of; 3])].into_iter().enumerate()
                    {
                        let input =
                            || format!("{name}, kind {kind}, {width} x {height}, stride {stride}, {count} bytes");
                        let frame = Frame { planes, width, height, stride, ts: 0 };
                        called(row, input, functions, &station, Judged::Good, (frame, [0; 3]));
                    }
                }
            }
        }
    }
}
