//! The Rust wrapper (rust/lib.rs) beside the oracle: lists of calls through its safe methods. It owns the state and the
//! memory that is lent, so what a list breaks of these is not broken here.
use crate::compare::{self, Lists};
use crate::content_lists::{self, Planned};
use crate::generator::Random;
use crate::lists::{self, Film, Listed};
use crate::plan_rules;
use crate::station::{Planes, frame_of};
use crate::sums::Sums;
use crate::table::Row;
use crate::{adaptive_lists, rust};
use mawerodu::{AdaptiveDetector, AdaptiveOptions, Answer, ContentDetector, ContentOptions, FilterMode, Refusal};
use mediatime::Timestamp;
use scenesdetect::content::reach;
use scenesdetect::frame::{HsvFrame, LumaFrame, RgbFrame};
use scenesdetect::{adaptive, content};

/// A detector of the wrapper beside the one of the oracle that it is compared with.
trait Wrapped: Sized {
    type Oracle: Listed;
    fn settled(script: &[u8]) -> Result<Self, Refusal>;
    fn new() -> Self;
    fn call(&mut self, planes: Planes, size: (u32, u32, u32), ts: i64) -> Result<Answer, Refusal>;
    fn clear(&mut self);
    /// What the readers show.
    fn shown(&self) -> Shown;
    fn oracle_shown(oracle: &Self::Oracle) -> Shown;
    /// Whether the state can be read back, and is then as after a `clear`.
    fn reads_back(&self) -> bool;
}

/// Score, components, ratio and target, by their bits; the luma median of the last frame; the plan's text.
type Shown = [Option<Vec<u64>>; 6];

fn one(x: Option<f64>) -> Option<Vec<u64>> {
    x.map(|x| vec![x.to_bits()])
}

fn median(luma: Option<u8>) -> Option<Vec<u64>> {
    luma.map(|median| vec![median as u64])
}

/// The same by the luma plane that the oracle's scorer holds.
fn oracle_median(scorer: &content::Detector) -> Option<Vec<u64>> {
    median(reach::held(scorer).map(|held| plan_rules::median(&held.value)))
}

fn text(plan: &[u8]) -> Option<Vec<u64>> {
    Some(plan.iter().map(|&byte| byte as u64).collect())
}

fn four(c: mawerodu::Components) -> Vec<u64> {
    [c.hue, c.saturation, c.luma, c.edges].map(f64::to_bits).to_vec()
}

fn oracle_four(c: content::Components) -> Vec<u64> {
    [c.delta_hue(), c.delta_sat(), c.delta_lum(), c.delta_edges()].map(f64::to_bits).to_vec()
}

fn weights(w: content::Components) -> mawerodu::Components {
    mawerodu::Components { hue: w.delta_hue(), saturation: w.delta_sat(), luma: w.delta_lum(), edges: w.delta_edges() }
}

macro_rules! wrapped {
    () => {
        fn new() -> Self {
            Self::new()
        }

        fn call(&mut self, planes: Planes, (w, h, stride): (u32, u32, u32), ts: i64) -> Result<Answer, Refusal> {
            match planes {
                Planes::Luma(plane) => self.process_luma(plane, w, h, stride, ts),
                Planes::Bgr(pixels) => self.process_bgr(pixels, w, h, stride, ts),
                Planes::Hsv([a, b, c]) => self.process_hsv(a, b, c, w, h, stride, ts),
            }
        }

        fn clear(&mut self) {
            self.clear();
        }

        fn reads_back(&self) -> bool {
            let mut cleared = self.clone();
            cleared.clear();
            Self::from_state(self.state()).is_ok_and(|read| read.state() == cleared.state())
        }
    };
}

impl Wrapped for ContentDetector {
    type Oracle = Planned;

    /// A plan goes by its text, and where there is none, in one list of two, by the empty text.
    fn settled(script: &[u8]) -> Result<Self, Refusal> {
        let (o, plan) = (content_lists::options(script), content_lists::plan(script));
        let options = ContentOptions {
            threshold: o.threshold(),
            min_duration: o.min_duration().as_micros() as u64,
            weights: weights(o.weights()),
            filter_mode: match o.filter_mode() {
                content::FilterMode::Suppress => FilterMode::Suppress,
                _ => FilterMode::Merge,
            },
            kernel_size: o.kernel_size(),
            initial_cut: o.initial_cut(),
        };
        if plan.is_given() || script[15] % 2 == 1 {
            return ContentDetector::with_plan(options, plan.text());
        }
        ContentDetector::with_options(options)
    }

    wrapped!();

    fn shown(&self) -> Shown {
        let components = self.last_components().map(four);
        let plan = text(self.plan().as_bytes());
        [one(self.last_score()), components, None, None, median(self.last_luma_median()), plan]
    }

    fn oracle_shown(oracle: &Planned) -> Shown {
        let scorer = oracle.scorer();
        let components = scorer.last_components().map(oracle_four);
        let plan = text(&oracle.plan().text());
        [one(scorer.last_score()), components, None, None, oracle_median(scorer), plan]
    }
}

impl Wrapped for AdaptiveDetector {
    type Oracle = adaptive::Detector;

    fn settled(script: &[u8]) -> Result<Self, Refusal> {
        let o = adaptive_lists::options(script);
        AdaptiveDetector::with_options(AdaptiveOptions {
            threshold: o.adaptive_threshold(),
            min_duration: o.min_duration().as_micros() as u64,
            window_width: o.window_width(),
            min_content_val: o.min_content_val(),
            weights: weights(*o.weights()),
            kernel_size: o.kernel_size(),
            initial_cut: o.initial_cut(),
        })
    }

    wrapped!();

    fn shown(&self) -> Shown {
        [
            one(self.last_score()),
            self.last_components().map(four),
            one(self.last_adaptive_ratio()),
            one(self.last_target_score()),
            median(self.last_luma_median()),
            None,
        ]
    }

    fn oracle_shown(oracle: &adaptive::Detector) -> Shown {
        let scorer = oracle.scorer();
        [
            one(scorer.last_score()),
            scorer.last_components().map(oracle_four),
            one(oracle.last_adaptive_ratio()),
            one(oracle.last_target_score()),
            oracle_median(scorer),
            None,
        ]
    }
}

fn five(s: mawerodu::Sums) -> [u32; 5] {
    [s.hue, s.saturation, s.luma, s.edges, s.count]
}

/// The result of a frame: the number, or the cut, and score, components and sums as the answer has them.
type Brought = Result<(Option<i64>, Option<Vec<u64>>, Vec<u64>, [u32; 5]), u32>;

fn brought(result: Result<Answer, Refusal>) -> Brought {
    result.map(|a| (a.cut, one(a.score), four(a.components), five(a.sums))).map_err(|refusal| refusal.0)
}

/// The same of the oracle. The added rows 12 to 15 can't occur.
fn oracle_brought<D: Listed>(oracle: &mut D, planes: Planes, size: (u32, u32, u32), ts: i64) -> Brought {
    let (w, h, stride) = size;
    let number = match planes {
        Planes::Luma(a) => rust::check_luma(a, w, h, stride),
        Planes::Bgr(a) => rust::check_bgr(a, w, h, stride),
        Planes::Hsv([a, b, c]) => rust::check_hsv(a, b, c, w, h, stride),
    };
    if number != 0 {
        return Err(number);
    }
    let ts = Timestamp::from_micros(ts);
    let before = reach::held(oracle.scorer());
    let cut = match planes {
        Planes::Luma(a) => oracle.luma(LumaFrame::try_new(a, w, h, stride, ts).unwrap()),
        Planes::Bgr(a) => oracle.bgr(RgbFrame::try_new(a, w, h, stride, ts).unwrap()),
        Planes::Hsv([a, b, c]) => oracle.hsv(HsvFrame::try_new(a, b, c, w, h, stride, ts).unwrap()),
    };
    let scorer = oracle.scorer();
    let components = scorer.last_components().map_or(vec![0; 4], oracle_four);
    let sums = Sums::of(before.as_ref(), &reach::held(scorer).expect("the planes of this frame"));
    Ok((cut.map(|ts| ts.micros()), one(scorer.last_score()), components, sums.numbers()))
}

fn list<W: Wrapped>(row: &mut Row, script: &[u8]) {
    let (number, mut oracle) = W::Oracle::settled(script);
    let settled = W::settled(script);
    let input = |call: usize| format!("records of 16 bytes {script:?}, call {call}");
    row.compare(script.len() as u64, || input(0), number, settled.as_ref().err().map_or(0, |refusal| refusal.0));
    let mut detector = settled.unwrap_or_else(|_| W::new());
    let mut film = Film::new(script);
    for (i, r) in script.chunks_exact(lists::RECORD).enumerate().skip(1) {
        film.turn(r);
        let size = script.len() as u64;
        if W::Oracle::is_clear(r) {
            oracle.clear();
            detector.clear();
        } else {
            let f = film.frame(r);
            let frame = frame_of(r, &film, &f);
            let dimensions = (frame.width, frame.height, frame.stride);
            let expected = oracle_brought(&mut oracle, frame.planes, dimensions, frame.ts);
            let found = brought(detector.call(frame.planes, dimensions, frame.ts));
            row.compare(size, || input(i), expected, found);
        }
        row.compare(size, || input(i), (W::oracle_shown(&oracle), true), (detector.shown(), detector.reads_back()));
    }
}

/// There is one list for so many that go through the C functions; their bytes are others.
const PART: u64 = 10;

fn row<W: Wrapped>(name: &'static str, seed: u64, count: u64, long: u64) -> Row {
    let mut row = Row::new(name);
    let mut random = Random(!seed);
    for i in 0..count.div_ceil(PART) {
        let calls = if i % 16 == 15 { long } else { i % 24 + 1 };
        let script: Vec<u8> = (0..=calls).flat_map(|_| compare::record(&mut random)).collect();
        list::<W>(&mut row, &script);
    }
    row
}

pub fn rows(which: Lists) -> [Row; 2] {
    [
        row::<ContentDetector>("content calls through the Rust wrapper", which.seed, which.content, 24),
        row::<AdaptiveDetector>("adaptive calls through the Rust wrapper", which.seed, which.adaptive, compare::LONG),
    ]
}
