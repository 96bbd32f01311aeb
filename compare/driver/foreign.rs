//! States that no run reaches: words of a state set to others, then a `clear`, a luma frame of one pixel, and the
//! readers, beside the rules (rules.rs, pixel.rs).
use crate::generator::Random;
use crate::pixel::{self, After};
use crate::plan_rules::{Plan, Row as PlanRow};
use crate::rules::{self, ADAPTIVE_DEFAULTS, CONTENT_DEFAULTS, Judged, Layout, Own, Settings};
use crate::station::{ADAPTIVE, CONTENT, Frame, Functions, Planes, Station};
use crate::table::Row;

/// What a word is set to: small numbers, the bounds of rules, the ends of 32 and 64 bits, odd doubles.
const WORDS: [u64; 28] = [
    0,
    1,
    2,
    3,
    4,
    5,
    6,
    64,
    65,
    128,
    129,
    130,
    4096,
    4097,
    (1 << 32) - 1,
    1 << 32,
    (1 << 32) + 1,
    1 << 63,
    (1 << 63) - 1,
    u64::MAX,
    0x3ff0_0000_0000_0000, // 1.0
    0x4130_0000_0000_0000, // 2^20
    0x4130_0000_0000_0001,
    0xc130_0000_0000_0001,
    0x7ff0_0000_0000_0000, // infinity
    0xfff0_0000_0000_0000,
    0x7ff8_0000_0000_0000, // NaN
    0x7ff0_0000_0000_0001,
];

/// The rows of both detectors.
struct Rows {
    clear: Row,
    frame: Row,
    readers: Row,
}

pub fn rows(seed: u64) -> Vec<Row> {
    let mut rows = Rows {
        clear: Row::by_rules("foreign states, clear"),
        frame: Row::by_rules("foreign states, a luma frame"),
        readers: Row::by_rules("foreign states, readers"),
    };
    let mut random = Random(seed);
    for station in content_states() {
        foreign(&mut rows, &CONTENT, &rules::CONTENT, &station, &mut random);
    }
    for station in adaptive_states() {
        foreign(&mut rows, &ADAPTIVE, &rules::ADAPTIVE, &station, &mut random);
    }
    vec![rows.clear, rows.frame, rows.readers]
}

/// How many states have two to four of their words set at random, for each state that the rows start from.
const SHUFFLED: u64 = 5000;

fn foreign<const N: usize>(
    rows: &mut Rows,
    functions: &Functions<N>,
    layout: &Layout,
    station: &Station<N>,
    random: &mut Random,
) {
    for place in 0..N {
        let own = station.words()[place];
        for word in WORDS.into_iter().chain([own, own.wrapping_add(1), own.wrapping_sub(1)]) {
            one(rows, functions, layout, station, &[(place, word)]);
        }
    }
    for _ in 0..SHUFFLED {
        let changes: Vec<(usize, u64)> = (0..2 + random.next() % 3)
            .map(|_| {
                // mostly flags and numbers, seldom the stamps and scores of a window; 0 and 1 most often
                let place = random.next() as usize % if random.next() % 4 == 0 { N } else { N.min(34) };
                let word = if random.next() % 2 == 0 { random.next() % 2 } else { pick(random) };
                (place, word)
            })
            .filter(|&(place, _)| place != 0)
            .collect();
        one(rows, functions, layout, station, &changes);
    }
}

fn pick(random: &mut Random) -> u64 {
    WORDS[random.next() as usize % WORDS.len()]
}

const LUMA: u8 = 200;
const STAMP: i64 = 5_000_000;

fn one<const N: usize>(
    rows: &mut Rows,
    functions: &Functions<N>,
    layout: &Layout,
    station: &Station<N>,
    changes: &[(usize, u64)],
) {
    let mut given = station.clone();
    changes.iter().for_each(|&(place, word)| given.words_mut()[place] = word);
    let words = given.words().to_vec();
    let judged = layout.judged(&words);
    let input = || format!("{N} words {words:?}, of which {changes:?} set");
    cleared(&mut rows.clear, functions, layout, &given, judged, input);
    called(&mut rows.frame, functions, layout, &given, judged, input);
    read(&mut rows.readers, functions, layout, &given, judged, input);
}

fn cleared<const N: usize>(
    row: &mut Row,
    functions: &Functions<N>,
    layout: &Layout,
    given: &Station<N>,
    judged: Judged,
    input: impl Fn() -> String,
) {
    let (number, words) = match judged {
        Judged::Good => (0, layout.cleared(given.words())),
        _ => (15, given.words().to_vec()),
    };
    let mut after = given.clone();
    let found = after.clear(functions);
    let kept = after.memory_kept(given) && after.guarded();
    row.compare(0, input, (number, &words[..], true), (found, after.words(), kept));
}

/// The words after an accepted frame have one pattern for every NaN, also for one that was in the state with another.
fn called<const N: usize>(
    row: &mut Row,
    functions: &Functions<N>,
    layout: &Layout,
    given: &Station<N>,
    judged: Judged,
    input: impl Fn() -> String,
) {
    let mut after = given.clone();
    let frame = Frame { planes: Planes::Luma(&[LUMA]), width: 1, height: 1, stride: 1, ts: STAMP };
    let lent = [4, 9, 1];
    let found = after.call(functions, frame, lent);
    let store = |station: &Station<N>| [0, 1, 2, 3].map(|i| station.store[i]);
    let expected = match judged {
        Judged::Good => {
            let after = pixel::luma(layout, given.words(), LUMA, STAMP, store(given));
            (0, After { state: layout.written(&after.state), ..after }, true)
        }
        _ => {
            let (state, answer) = (given.words().to_vec(), given.answer().to_vec());
            (15, After { state, answer, store: store(given) }, true)
        }
    };
    let kept = if found == 0 { after.behind_kept(given, lent) } else { after == *given };
    let shown = After { state: after.words().to_vec(), answer: after.answer().to_vec(), store: store(&after) };
    row.compare(0, input, expected, (found, shown, kept && after.guarded()));
}

/// The bits of a double, with one pattern for NaN: a reader returns a double and not a word, and which NaN it returns
/// is left open.
fn bits(x: f64) -> u64 {
    if x.is_nan() { rules::NAN } else { x.to_bits() }
}

fn read<const N: usize>(
    row: &mut Row,
    functions: &Functions<N>,
    layout: &Layout,
    given: &Station<N>,
    judged: Judged,
    input: impl Fn() -> String,
) {
    let words = given.words();
    // of words that are not a record nothing is shown
    let shown = |has: usize, value: usize| match judged != Judged::NoRecord && words[has] == 1 {
        true => (1, bits(f64::from_bits(words[value]))),
        false => (0, 0),
    };
    let stream = layout.stream;
    let mut expected = vec![shown(stream + 1, stream + 2)];
    if N == rules::ADAPTIVE.words {
        expected.extend([shown(26, 27), shown(28, 29)]);
    }
    expected.push((shown(stream + 3, stream + 4).0, 0));
    expected.extend((0..4).map(|i| (i, shown(stream + 3, stream + 4 + i as usize).1)));
    // a place over 3
    expected.extend([4, u32::MAX].map(|place| (place, 0)));
    let mut found: Vec<(u32, u64)> = given.read(functions).iter().map(|&(has, x)| (has, bits(x))).collect();
    found.push((given.has_components(functions), 0));
    let places = (0..5).chain([u32::MAX]);
    found.extend(places.map(|place| (place, bits(given.component(functions, place)))));
    row.compare(0, &input, expected, found);
    if let Some(text) = given.plan_text(functions) {
        row.compare(0, input, layout.plan_text(words), text);
    }
}

/// A state after luma frames of one colour, each of this side, by its stamp.
fn after<const N: usize>(
    functions: &Functions<N>,
    settings: Settings,
    side: u32,
    film: impl IntoIterator<Item = (u8, i64)>,
) -> Station<N> {
    let mut station = Station::sized(side, side);
    assert_eq!(station.settle(functions, &settings), 0);
    for (luma, ts) in film {
        let plane = vec![luma; (side * side) as usize];
        let frame = Frame { planes: Planes::Luma(&plane), width: side, height: side, stride: side, ts };
        let memory = station.memory();
        assert_eq!(station.call(functions, frame, memory), 0);
    }
    station
}

/// Fresh; after a first frame; in a merge; in Suppress after a cut, with edges; after frames of another size; in a merge
/// under plans of two and of sixteen rows.
fn content_states() -> Vec<Station<{ rules::CONTENT.words }>> {
    let merge = Settings { weights: [0.0, 0.0, 1.0, 0.0], min_duration: 1000, ..CONTENT_DEFAULTS };
    let suppress = Settings {
        weights: [1.0, 0.5, -2.0, 3.0],
        threshold: -60.0,
        has_kernel: 1,
        kernel_size: 5,
        initial_cut: 0,
        own: Own::content(1),
        ..CONTENT_DEFAULTS
    };
    // a frame of luma 200 after one of 100 scores 100
    let planned = |rows: &[PlanRow]| Settings {
        own: Own::Content { filter_mode: 0, plan: Plan::of(rows), by_text: true },
        ..merge
    };
    let two = [PlanRow::new(200, 255, 100), PlanRow::new(0, 199, 3)];
    let sixteen: Vec<PlanRow> = (0..16).map(|i| PlanRow::new(16 * i, 16 * i + 15, 8 * i + 4)).collect();
    let held = [(0, 0), (200, 1000), (0, 1200), (100, 1900), (100, 2500)];
    vec![
        after(&CONTENT, CONTENT_DEFAULTS, 1, []),
        after(&CONTENT, CONTENT_DEFAULTS, 1, [(9, 0)]),
        after(&CONTENT, merge, 1, held),
        after(&CONTENT, suppress, 1, [(0, -1), (5, 0), (9, 1_000_000), (9, 1_500_000)]),
        after(&CONTENT, merge, 3, [(0, 0), (200, 1000), (0, 1200)]),
        after(&CONTENT, planned(&two), 1, held),
        after(&CONTENT, planned(&sixteen), 1, held),
    ]
}

/// Fresh; in a window that is not full; in a full one of the least and of the greatest width; after frames of another
/// size.
fn adaptive_states() -> Vec<Station<{ rules::ADAPTIVE.words }>> {
    let luma = Settings { weights: [0.0, 0.0, 1.0, 0.0], ..ADAPTIVE_DEFAULTS };
    let of = |window_width| Settings {
        own: Own::Adaptive { window_width, min_content_val: 15.0 },
        has_kernel: 1,
        kernel_size: 7,
        ..luma
    };
    let film = |count: i64| (0..count).map(|i| ((i * i % 251) as u8, i * 30_000));
    vec![
        after(&ADAPTIVE, ADAPTIVE_DEFAULTS, 1, []),
        after(&ADAPTIVE, ADAPTIVE_DEFAULTS, 1, film(4)),
        after(&ADAPTIVE, of(1), 1, [(10, 0), (11, 30_000), (12, 60_000), (212, 90_000), (213, 120_000)]),
        after(&ADAPTIVE, of(64), 1, film(140)),
        after(&ADAPTIVE, luma, 2, film(9)),
    ]
}
