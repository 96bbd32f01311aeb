//! The content detector in lists of its calls, with the light plan that the Rust does not have. Under a plan of one row it is
//! the Rust at the row's threshold. Under a longer one the cuts are those of a filter of its own (filter_rules.rs), by the
//! Rust's scores and its luma planes.
use crate::filter_rules::{Filter, Rules};
use crate::lists::{self, Listed, Output};
use crate::plan_rules::{self, Plan, Row};
use mediatime::Timestamp;
use scenesdetect::content::{Detector, Error, FilterMode, Options, reach};
use scenesdetect::frame::{HsvFrame, LumaFrame, RgbFrame};

/// The settings but for the plan.
pub fn options(r: &[u8]) -> Options {
    Options::new()
        .with_threshold(lists::threshold(r[0], r[1] as f64 / 4.0))
        .with_min_duration(lists::minimum(r))
        .with_weights(lists::weights(r))
        .with_filter_mode(if r[7] % 2 == 0 { FilterMode::Suppress } else { FilterMode::Merge })
        .with_kernel_size(lists::kernel(r))
        .with_initial_cut(lists::initial_cut(r))
        .with_simd(false)
}

/// Sixteen rows of sixteen medians each.
fn sixteen(b: u8) -> Plan {
    let rows: Vec<Row> = (0..16).map(|i| Row::new(16 * i, 16 * i + 15, b.wrapping_add(17 * i) % 128)).collect();
    Plan::of(&rows)
}

/// The plan of the settings.
pub fn plan(r: &[u8]) -> Plan {
    let (a, b) = (r[1], r[15]);
    let (low, high) = (a / 4, a / 2);
    let (s, u) = (b % 255, b % 254);
    match r[14] % 128 {
        // more than 16 rows; a reversed row; the same with both other faults; one median twice; that and one missing; a
        // median missing, and one at the ends
        8 => sixteen(b).counted(17 + b as u32),
        16 => Plan::of(&[Row::new(0, 255, b), Row::new(b / 2 + 1, b / 2, low)]),
        24 => Plan::of(&[Row::new(b / 2 + 1, b / 2, low), Row::new(0, 200, b), Row::new(100, 254, high)]),
        32 => Plan::of(&[Row::new(0, b, high), Row::new(b, 255, low)]),
        40 => Plan::of(&[Row::new(0, b / 2, high), Row::new(b / 2, 254, low)]),
        48 => Plan::of(&[Row::new(0, u, high), Row::new(u + 2, 255, low)]),
        56 => Plan::of(&[Row::new(b % 2, 254 + b % 2, low)]),
        kind => match kind % 8 {
            0..=3 => Plan::NONE,
            4 => Plan::of(&[Row::new(0, 255, b)]),
            5 => Plan::of(&[Row::new(0, 255, b / 4)]),
            6 => Plan::of(&[Row::new(s + 1, 255, low), Row::new(0, s, high)]),
            _ => sixteen(b),
        },
    }
}

/// What was seen of the filter of its own in a list.
#[derive(Clone, Copy, Default)]
pub struct Seen {
    /// Frames that were scored, where the filter gives the cuts, and the cuts.
    pub scored: u64,
    pub cuts: u64,
    /// Frames that the set threshold or another row would have judged otherwise.
    pub otherwise: u64,
    /// Of frames where the Rust gives the cuts: how many had another cut by the filter.
    pub beside: u64,
    pub differ: u64,
}

/// The Rust's detector with a plan.
pub struct Planned {
    detector: Detector,
    plan: Plan,
    filter: Filter,
    pub seen: Seen,
}

impl Planned {
    fn new(options: Options, plan: Plan) -> Self {
        let options = match plan.rows() {
            [row] => options.with_threshold(row.threshold as f64),
            _ => options,
        };
        Planned { detector: Detector::new(options), plan, filter: Filter::default(), seen: Seen::default() }
    }

    #[cfg(rattle)]
    pub fn plan(&self) -> Plan {
        self.plan
    }

    /// Whether the cuts are those of the Rust.
    pub fn is_rust(&self) -> bool {
        self.plan.rows().len() < 2
    }

    fn rules(&self) -> Rules {
        let options = self.detector.options();
        Rules {
            suppress: matches!(options.filter_mode(), FilterMode::Suppress),
            least: options.min_duration().as_micros() as u64,
            initial_cut: options.initial_cut(),
        }
    }

    /// Whether the last frame is above, by its score and the luma plane that the Rust now holds. A frame without a score
    /// starts a stretch.
    fn above(&mut self) -> Option<bool> {
        let score = self.detector.last_score()?;
        let set = self.detector.options().threshold();
        if self.is_rust() {
            return Some(score >= set);
        }
        let median = plan_rules::median(&reach::held(&self.detector).expect("the planes of this frame").value);
        let above = score >= self.plan.threshold(set, median);
        let others = self.plan.rows().iter().map(|row| row.threshold as f64).chain([set]);
        self.seen.otherwise += others.map(|threshold| score >= threshold).any(|other| other != above) as u64;
        Some(above)
    }

    /// The cut of a frame, for which the Rust gave this one.
    fn cut(&mut self, ts: Timestamp, rust: Option<Timestamp>) -> Option<Timestamp> {
        let Some(above) = self.above() else {
            self.filter = Filter::default();
            return rust;
        };
        let cut = self.filter.step(self.rules(), above, ts.micros()).map(Timestamp::from_micros);
        if self.is_rust() {
            self.seen.beside += 1;
            self.seen.differ += (cut != rust) as u64;
            return rust;
        }
        self.seen.scored += 1;
        self.seen.cuts += cut.is_some() as u64;
        cut
    }
}

impl Listed for Planned {
    /// Rows 6, 9 and those of the plan are added, so the Rust takes such settings.
    fn settled(r: &[u8]) -> (u32, Self) {
        let (options, plan) = (options(r), plan(r));
        let refusal = match Detector::try_new(options.clone()) {
            _ if !lists::weights_fit(options.weights()) => 6,
            Err(Error::ZeroWeights) => 7,
            Err(Error::InvalidKernelSize(_)) => 8,
            Err(e) => panic!("{e:?} is not in the table of refusals"),
            Ok(_) if options.threshold().is_nan() => 9,
            Ok(_) => plan.refusal(),
        };
        if refusal == 0 {
            return (0, Planned::new(options, plan));
        }
        (refusal, Planned::new(Options::new().with_simd(false), Plan::NONE))
    }

    fn is_clear(r: &[u8]) -> bool {
        r[0] % 32 == 0
    }

    fn clear(&mut self) {
        self.detector.clear();
        self.filter = Filter::default();
    }

    fn luma(&mut self, frame: LumaFrame<'_>) -> Option<Timestamp> {
        let ts = frame.timestamp();
        let cut = self.detector.process_luma(frame);
        self.cut(ts, cut)
    }

    fn bgr(&mut self, frame: RgbFrame<'_>) -> Option<Timestamp> {
        let ts = frame.timestamp();
        let cut = self.detector.process_bgr(frame);
        self.cut(ts, cut)
    }

    fn hsv(&mut self, frame: HsvFrame<'_>) -> Option<Timestamp> {
        let ts = frame.timestamp();
        let cut = self.detector.process_hsv(frame);
        self.cut(ts, cut)
    }

    fn scorer(&self) -> &Detector {
        &self.detector
    }

    fn show(&self, _: &mut Output) {}
}
