//! Whole frame calls, timed: through the station library, with memory that was written before; by a detector of the
//! Rust, on its scalar path; and by OpenCV.
use crate::plan_rules::Plan;
use crate::rattle;
use crate::rules::Settings;
use crate::station::{self, ADAPTIVE, CONTENT, Functions, Station};
use crate::time::{Table, in_turn};
use crate::time_film::{Film, Kind, stamp};
use crate::time_opencv::Times;
use mawerodu::sys::{ADAPTIVE_WORDS, CONTENT_WORDS};
use scenesdetect::content::{Components, DEFAULT_WEIGHTS};
use scenesdetect::frame::{HsvFrame, LumaFrame, RgbFrame};
use scenesdetect::{adaptive, content};
use std::hint::black_box;

/// A detector of the station library, with its memory for frames of one size.
pub struct Detector<const N: usize> {
    pub station: Station<N>,
    pub functions: Functions<N>,
}

impl<const N: usize> Detector<N> {
    fn new(film: &Film, functions: Functions<N>, settings: &Settings) -> Self {
        let mut station = Station::sized(film.width, film.height);
        assert_eq!(station.settle(&functions, settings), 0);
        Detector { station, functions }
    }

    pub fn call(&mut self, kind: Kind, film: &Film, i: usize) {
        let memory = self.station.memory();
        assert_eq!(self.station.call(&self.functions, film.frame(kind, i), memory), 0);
    }
}

fn weights(edges: bool) -> Components {
    if edges { Components::new(1.0, 1.0, 1.0, 1.0) } else { DEFAULT_WEIGHTS }
}

fn content_options(edges: bool, k: Option<u32>) -> content::Options {
    content::Options::new().with_weights(weights(edges)).with_kernel_size(k).with_simd(false)
}

fn adaptive_options(edges: bool) -> adaptive::Options {
    adaptive::Options::new().with_weights(weights(edges)).with_simd(false)
}

/// A content detector for frames as the film's. Where k is not given, it is by the frame's size.
pub fn content_detector(film: &Film, edges: bool, k: Option<u32>) -> Detector<CONTENT_WORDS> {
    Detector::new(film, CONTENT, &station::content_settings(&content_options(edges, k), Plan::NONE, &[0; 16]))
}

/// The same under a light plan.
pub fn planned_detector(film: &Film, edges: bool, plan: Plan) -> Detector<CONTENT_WORDS> {
    Detector::new(film, CONTENT, &station::content_settings(&content_options(edges, None), plan, &[0; 16]))
}

pub fn adaptive_detector(film: &Film, edges: bool) -> Detector<ADAPTIVE_WORDS> {
    Detector::new(film, ADAPTIVE, &station::adaptive_settings(&adaptive_options(edges), &[0; 16]))
}

/// A detector of the Rust.
enum Rust {
    Content(content::Detector),
    Adaptive(adaptive::Detector),
}

macro_rules! either {
    ($self:expr, $call:ident, $frame:expr) => {
        match $self {
            Rust::Content(detector) => detector.$call($frame.unwrap()),
            Rust::Adaptive(detector) => detector.$call($frame.unwrap()),
        }
    };
}

impl Rust {
    fn call(&mut self, kind: Kind, film: &Film, i: usize) {
        let (w, h) = (film.width, film.height);
        let [a, b, c] = film.planes(i);
        black_box(match kind {
            Kind::Luma => either!(self, process_luma, LumaFrame::try_new(a, w, h, w, stamp(i))),
            Kind::Bgr => either!(self, process_bgr, RgbFrame::try_new(&film.frames[i % 2], w, h, 3 * w, stamp(i))),
            Kind::Hsv => either!(self, process_hsv, HsvFrame::try_new(a, b, c, w, h, w, stamp(i))),
        });
    }
}

/// The sides of kernels that are timed: that by the frame's size is the first.
pub fn kernels(film: &Film) -> [u32; 4] {
    [rattle::mw_auto_kernel_size(film.width, film.height), 3, 13, 101]
}

/// The name that OpenCV's time of a call has.
fn name(kind: Kind, edges: Option<u32>) -> String {
    let kind = match kind {
        Kind::Luma => "luma",
        Kind::Bgr => "BGR",
        Kind::Hsv => "HSV",
    };
    edges.map_or(kind.into(), |k| format!("{kind}, edges, k {k}"))
}

/// One kind of call on one film, by each.
fn calls<const N: usize>(
    table: &Table,
    film: &Film,
    title: &str,
    (kind, edges): (Kind, Option<u32>),
    mut rust: Rust,
    mut detector: Detector<N>,
) {
    let [rust, rattle] = in_turn(film.n(), |i| rust.call(kind, film, i), |i| detector.call(kind, film, i));
    table.row(title, &name(kind, edges), rust, rattle);
}

/// The table of whole frame calls on one film.
pub fn print(film: &Film, times: Option<&Times>) {
    let table = Table::new(&film.title(), times);
    let [k, ..] = kernels(film);
    let content = |title: &str, kind: Kind, edges: bool, side: Option<u32>| {
        let rust = Rust::Content(content::Detector::new(content_options(edges, side)));
        let k = edges.then_some(side.unwrap_or(k));
        calls(&table, film, title, (kind, k), rust, content_detector(film, edges, side));
    };
    content("BGR, default weights", Kind::Bgr, false, None);
    content("BGR, edges", Kind::Bgr, true, None);
    content("HSV, default weights", Kind::Hsv, false, None);
    content("luma", Kind::Luma, false, None);
    content("luma, edges", Kind::Luma, true, None);
    for side in [3, 13, 101] {
        content(&format!("luma, edges, k {side}"), Kind::Luma, true, Some(side));
    }
    let rust = Rust::Adaptive(adaptive::Detector::new(adaptive_options(false)));
    let detector = adaptive_detector(film, false);
    calls(&table, film, "adaptive, BGR, default weights", (Kind::Bgr, None), rust, detector);
}
