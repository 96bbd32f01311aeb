//! Finds the cuts in the video stream of one camera: a safe wrapper of the station library (`include/mawerodu.h`).
//!
//! Give a detector the frames of a stream in order, each with its timestamp in microseconds. It scores how much each
//! frame differs from the one before and reports the timestamps of the cuts. The timestamp of a cut is that of the
//! first frame of the new clip.
//!
//! ```text
//! let mut detector = ContentDetector::with_options(ContentOptions::luma_only())?; // BGR or HSV frames: ::new()
//! for (ts, luma) in frames {
//!     let answer = detector.process_luma(&luma, width, height, width, ts)?;
//!     if let Some(cut) = answer.cut {
//!         println!("cut at {cut}");
//!     }
//! }
//! ```
//!
//! [`ContentDetector`] compares each score with a fixed threshold, or by a light plan with one that goes by how bright
//! the frame is. [`AdaptiveDetector`] compares it with the scores of the frames around it and reports the cut some
//! frames later. [`CutList`] keeps the cuts at hand while the film runs.
//!
//! A detector and a list own their state and the memory that the library works on, so no call is refused for short
//! memory. A call that is refused returns a [`Refusal`] and changes nothing: the stream goes on as if the call had not
//! been made. Different threads may use different detectors and lists at the same time. A frame call takes up to 24 KB
//! of stack, and one that makes a detector up to 26 KB (measured of a release build, and not proved).
//!
//! No other crate is needed, only the archive `libstation.a`, of the same version up to the patch number (see
//! [`VERSION`]). With cargo, `build.rs` finds it and has it linked; it says where it looks. With `rustc` alone, hand it
//! to the linker: `-C link-arg=target/staticlib/libstation.a`, which is where `.ci/built station` puts it.
//!
//! The library assumes the floating-point environment that Rust assumes: rounding to nearest, exceptions masked, no
//! flush to zero. It is proved; this wrapper is plain Rust, and no proof speaks of it.
//!
//! # Scores
//!
//! A frame has four planes: hue, saturation, luma (for a BGR or HSV frame the value) and edges. A component is the mean
//! absolute difference of a plane from the same plane of the frame before, 0.0 to 255.0. The score is their weighted
//! sum, divided by the sum of the absolute weights, all in `f64` and from left to right:
//!
//! ```text
//! (hue * w.hue + saturation * w.saturation + luma * w.luma + edges * w.edges)
//!     / (|w.hue| + |w.saturation| + |w.luma| + |w.edges|)
//! ```
//!
//! A luma frame has hue and saturation 0. With the default weights 1, 1, 1, 0 its score is therefore a third of the
//! luma difference, and a threshold of 27 is reached at a luma difference of 81: next to no cut is found.
//! [`Components::LUMA_ONLY_WEIGHTS`] make the score the luma difference itself. So luma frames want these weights and a
//! threshold for them: [`ContentOptions::luma_only`] and [`AdaptiveOptions::luma_only`] have them.
//!
//! The edge plane is computed only if the weight of edges is not zero. It has no edges if a side of the frame is below
//! 3.
//!
//! # Sums
//!
//! An answer also has the whole numbers that its components come from, [`Sums`]: for each plane the sum of the absolute
//! differences of all pixels, and for all four planes one count, the number of pixels. A component is its sum divided
//! by the count, once, in `f64`, or 0.0 if the count is 0. So the five numbers and the weights give the components and
//! the score again, to the last bit. This makes two stations comparable: where their five numbers for a frame are
//! equal, equal weights give equal components, and equal scores if both have one; where a number differs, that is not
//! rounding: the frame differs, or the frame before it (or whether there was one of this size), or the settings for
//! edges.
//!
//! # The light plan
//!
//! Rooms differ: with less light all differences are smaller, so a dim room needs a lower threshold. A light plan gives
//! the content detector a threshold for each brightness of a frame ([`ContentDetector::with_plan`]). It is a text of
//! rows
//!
//! ```text
//! from,to,threshold
//! ```
//!
//! of whole numbers from 0 to 255, in decimal digits without leading zeros, with a line feed after each row, the last
//! one too, and nothing else: no blank, no carriage return, no empty row, no heading. A frame whose luma median is from
//! `from` to `to`, both counted, is above if its score is at least this threshold. There are at most 16 rows, in any
//! order, and each median from 0 to 255 has to have exactly one. The empty text is no plan.
//!
//! The luma median of a frame is the value in the middle of its luma plane, that at place n / 2, rounded down and
//! counted from 0, when the n pixels are sorted; 255 if there are none. For a BGR or HSV frame it is that of the value
//! plane. The frame's own median counts and not that of the frame before.
//!
//! To write a plan, take a film of the room in each light that it has, and look at the score and the median of its
//! frames, which a detector has after each: [`Answer::score`] and [`ContentDetector::last_luma_median`]; of a luma
//! plane alone [`luma_median`] has it. Then write a row for each light, whose threshold lies above the scores of frames
//! that are not a cut and below those of a new scene. Let rows meet where no light has its median.
//!
//! ```text
//! let mut detector = ContentDetector::with_plan(ContentOptions::luma_only(), "0,99,8\n100,255,27\n")?;
//! ```
//!
//! The one row `0,255,t` is the same as the threshold t without a plan.
//!
//! # Frames without a score
//!
//! The first frame of a detector has no score, because there is no frame before it. It is never a cut. The same holds
//! for the first frame after `clear` and for each frame whose width or height differs from the frame before.
//!
//! # A change of size
//!
//! After a change of width or height the content detector starts afresh: it forgets the last cut and a merge that is
//! pending, so that the next cut can be less than `min_duration` after the last one. The adaptive detector keeps its
//! window, last cut, ratio and target, so that scores from before and after the change are judged together; only
//! `clear` drops them.
//!
//! # Where cuts are `min_duration` apart
//!
//! A stretch is a run of frames of one size, up to the next `clear`. Within each stretch [`FilterMode::Suppress`] keeps
//! cuts `min_duration` apart. The adaptive detector does so from one `clear` to the next, over changes of size too.
//! Both do it whatever the timestamps are: if these fall, a frame earlier than the last cut is not a cut.
//! [`FilterMode::Merge`] does it within each stretch in which the timestamps of the frames with a score never fall; if
//! they do, a cut can be closer to the one before, or even earlier. So after a clock was set back, `clear`.
#![warn(missing_docs)]

use std::fmt;
use std::ops::Range;

/// The C functions of the library. `include/mawerodu.h` says what each does and what it asks of its caller. The states,
/// the answer and the record of a list have a fixed number of words and are passed as pointers to arrays, the results
/// of list calls as pointers; every other piece of memory is a pointer and the number of its elements.
#[allow(missing_docs, clippy::missing_safety_doc)]
pub mod sys {
    pub const CONTENT_WORDS: usize = 34;
    pub const ADAPTIVE_WORDS: usize = 288;
    pub const ANSWER_WORDS: usize = 13;
    pub const LIST_WORDS: usize = 3;
    pub const LIST_PLACES: usize = 512;
    pub const PLAN_TEXT: usize = 192;
    pub const PLAN_ROWS: usize = 16;

    /// The state of a content detector.
    pub type ContentState = [u64; CONTENT_WORDS];
    /// The state of an adaptive detector.
    pub type AdaptiveState = [u64; ADAPTIVE_WORDS];
    /// The result of an accepted frame.
    pub type Answer = [u64; ANSWER_WORDS];
    /// The record of a list; its stamps are in memory beside it.
    pub type List = [u64; LIST_WORDS];

    /// The stamp of a list that is nearest to another.
    #[repr(C)]
    #[derive(Clone, Copy, Debug, Default, PartialEq, Eq)]
    pub struct Nearest {
        pub has: u64,
        pub ts: i64,
    }

    /// The stamps of a list within a span: the place of the first, and their number.
    #[repr(C)]
    #[derive(Clone, Copy, Debug, Default, PartialEq, Eq)]
    pub struct Span {
        pub first: u64,
        pub count: u64,
    }

    extern "C" {
        pub fn mw_version() -> u32;
        pub fn mw_content_words() -> u64;
        pub fn mw_adaptive_words() -> u64;
        pub fn mw_answer_words() -> u64;
        pub fn mw_store_bytes(width: u32, height: u32) -> u64;
        pub fn mw_scratch_bytes(width: u32, height: u32) -> u64;
        pub fn mw_magnitudes(width: u32, height: u32) -> u64;
        pub fn mw_content_default(state: *mut ContentState) -> u32;
        pub fn mw_content_new(
            state: *mut ContentState,
            threshold: f64,
            min_duration: u64,
            hue: f64,
            saturation: f64,
            luma: f64,
            edges: f64,
            filter_mode: u32,
            has_kernel: u32,
            kernel_size: u32,
            initial_cut: u32,
        ) -> u32;
        pub fn mw_content_new_with_plan(
            state: *mut ContentState,
            threshold: f64,
            min_duration: u64,
            hue: f64,
            saturation: f64,
            luma: f64,
            edges: f64,
            filter_mode: u32,
            has_kernel: u32,
            kernel_size: u32,
            initial_cut: u32,
            plan: *const u8,
            plan_len: usize,
        ) -> u32;
        pub fn mw_content_plan(state: *const ContentState, text: *mut [u8; PLAN_TEXT]) -> u32;
        pub fn mw_luma_median(
            plane: *const u8,
            plane_len: usize,
            width: u32,
            height: u32,
            stride: u32,
            median: *mut u8,
        ) -> u32;
        pub fn mw_adaptive_default(state: *mut AdaptiveState) -> u32;
        pub fn mw_adaptive_new(
            state: *mut AdaptiveState,
            threshold: f64,
            min_duration: u64,
            window_width: u32,
            min_content_val: f64,
            hue: f64,
            saturation: f64,
            luma: f64,
            edges: f64,
            has_kernel: u32,
            kernel_size: u32,
            initial_cut: u32,
        ) -> u32;
    }

    macro_rules! detector {
        ($state:ident, $luma:ident, $bgr:ident, $hsv:ident, $clear:ident) => {
            extern "C" {
                pub fn $luma(
                    state: *mut $state,
                    answer: *mut Answer,
                    plane: *const u8,
                    plane_len: usize,
                    width: u32,
                    height: u32,
                    stride: u32,
                    ts: i64,
                    store: *mut u8,
                    store_len: usize,
                    scratch: *mut u8,
                    scratch_len: usize,
                    magnitudes: *mut i32,
                    magnitudes_len: usize,
                ) -> u32;
                pub fn $bgr(
                    state: *mut $state,
                    answer: *mut Answer,
                    pixels: *const u8,
                    pixels_len: usize,
                    width: u32,
                    height: u32,
                    stride: u32,
                    ts: i64,
                    store: *mut u8,
                    store_len: usize,
                    scratch: *mut u8,
                    scratch_len: usize,
                    magnitudes: *mut i32,
                    magnitudes_len: usize,
                ) -> u32;
                pub fn $hsv(
                    state: *mut $state,
                    answer: *mut Answer,
                    hue: *const u8,
                    hue_len: usize,
                    saturation: *const u8,
                    saturation_len: usize,
                    value: *const u8,
                    value_len: usize,
                    width: u32,
                    height: u32,
                    stride: u32,
                    ts: i64,
                    store: *mut u8,
                    store_len: usize,
                    scratch: *mut u8,
                    scratch_len: usize,
                    magnitudes: *mut i32,
                    magnitudes_len: usize,
                ) -> u32;
                pub fn $clear(state: *mut $state) -> u32;
            }
        };
    }
    detector!(ContentState, mw_content_luma, mw_content_bgr, mw_content_hsv, mw_content_clear);
    detector!(AdaptiveState, mw_adaptive_luma, mw_adaptive_bgr, mw_adaptive_hsv, mw_adaptive_clear);

    macro_rules! readers {
        ($($state:ident, $has:ident, $value:ident;)*) => {
            extern "C" {
                $(pub fn $has(state: *const $state) -> u32;
                pub fn $value(state: *const $state) -> f64;)*
            }
        };
    }
    readers! {
        ContentState, mw_content_has_score, mw_content_score;
        AdaptiveState, mw_adaptive_has_score, mw_adaptive_score;
        AdaptiveState, mw_adaptive_has_ratio, mw_adaptive_ratio;
        AdaptiveState, mw_adaptive_has_target, mw_adaptive_target;
    }
    extern "C" {
        pub fn mw_content_has_components(state: *const ContentState) -> u32;
        pub fn mw_content_component(state: *const ContentState, place: u32) -> f64;
        pub fn mw_adaptive_has_components(state: *const AdaptiveState) -> u32;
        pub fn mw_adaptive_component(state: *const AdaptiveState, place: u32) -> f64;
    }

    extern "C" {
        pub fn mw_list_words() -> u64;
        pub fn mw_list_places() -> u64;
        pub fn mw_list_new(list: *mut List, min_duration: u64);
        pub fn mw_list_add(list: *mut List, stamps: *mut i64, stamps_len: usize, ts: i64) -> u32;
        pub fn mw_list_remove(list: *mut List, stamps: *mut i64, stamps_len: usize, ts: i64) -> u32;
        pub fn mw_list_empty(list: *mut List, stamps: *mut i64, stamps_len: usize) -> u32;
        pub fn mw_list_nearest(
            list: *const List,
            stamps: *const i64,
            stamps_len: usize,
            ts: i64,
            nearest: *mut Nearest,
        ) -> u32;
        pub fn mw_list_span(
            list: *const List,
            stamps: *const i64,
            stamps_len: usize,
            from: i64,
            to: i64,
            span: *mut Span,
        ) -> u32;
        pub fn mw_list_clip(list: *const List, stamps: *const i64, stamps_len: usize, ts: i64, clip: *mut u64) -> u32;
    }
}

/// The version of this wrapper: major, minor, patch. A library whose major and minor number are these has the functions
/// that `sys` declares. Each constructor of a detector or a list checks that, as does [`luma_median`], and panics if
/// the linked library is another.
pub const VERSION: (u32, u32, u32) = (0, 5, 0);

/// The version of the library that is linked: major, minor, patch.
pub fn version() -> (u32, u32, u32) {
    // SAFETY: it takes nothing and returns a number.
    let number = unsafe { sys::mw_version() };
    (number >> 16, number >> 8 & 255, number & 255)
}

/// The number of a refusal, 1 to 15 or 17 to 22; `Display` says what it means. The refused call changed nothing. (16 is
/// a line that the session program refuses, and no call here returns it.)
#[derive(Clone, Copy, Debug, PartialEq, Eq)]
pub struct Refusal(pub u32);

impl fmt::Display for Refusal {
    fn fmt(&self, f: &mut fmt::Formatter<'_>) -> fmt::Result {
        let what = match self.0 {
            1 => "width or height is over 4,096",
            2 => "stride is shorter than a row",
            3 => "luma, BGR or hue data is too short",
            4 => "saturation plane is too short",
            5 => "value plane is too short",
            6 => "a weight is not finite, or beyond 2^20 in size",
            7 => "all weights are zero",
            8 => "a set kernel size is below 3 or even",
            9 => "threshold or min_content_val is NaN",
            10 => "window_width is 0",
            11 => "window_width is over 64",
            12 => "store is too short",
            13 => "scratch is too short",
            14 => "magnitudes are too short",
            15 => "not a valid state or list",
            17 => "the stamp equals one of the list, or is closer to one than min_duration",
            18 => "the list holds 512 stamps",
            19 => "the stamp is not in the list",
            20 => "a row of the plan has another shape or starts past its end, or there are more than 16 rows",
            21 => "two rows of the plan have the same median",
            22 => "a median has no row in the plan",
            _ => "unknown refusal",
        };
        write!(f, "{}: {what}", self.0)
    }
}

impl std::error::Error for Refusal {}

fn passed(number: u32) -> Result<(), Refusal> {
    if number == 0 {
        Ok(())
    } else {
        Err(Refusal(number))
    }
}

/// The luma median of a luma frame: the value in the middle of its sorted pixels, or 255 if it has none. Row r starts
/// at byte r * `stride` of `plane`; height * `stride` bytes are needed, the padding of the last row included. Refused
/// by 1, 2 or 3. A row of a light plan is found by it; of a frame that a detector has taken, of any kind,
/// [`ContentDetector::last_luma_median`] has it.
pub fn luma_median(plane: &[u8], width: u32, height: u32, stride: u32) -> Result<u8, Refusal> {
    fitting();
    let mut median = 0;
    // SAFETY: `fitting` checked that the library has this function; pointer and length are those of a slice; the median
    // is a variable of this function.
    passed(unsafe { sys::mw_luma_median(plane.as_ptr(), plane.len(), width, height, stride, &mut median) })?;
    Ok(median)
}

/// One number for each plane: the components of a frame (0.0 to 255.0), or the weights that they have in the score.
#[derive(Clone, Copy, Debug, PartialEq)]
pub struct Components {
    /// Of the hue plane.
    pub hue: f64,
    /// Of the saturation plane.
    pub saturation: f64,
    /// Of the luma plane.
    pub luma: f64,
    /// Of the edge plane.
    pub edges: f64,
}

impl Components {
    /// Hue, saturation and luma count alike; edges are off. Luma frames, which have no hue and no saturation, score a
    /// third of their luma difference, and want `LUMA_ONLY_WEIGHTS`.
    pub const DEFAULT_WEIGHTS: Components = Components { hue: 1.0, saturation: 1.0, luma: 1.0, edges: 0.0 };

    /// Only luma counts: the score is the luma difference itself. For luma frames; [`ContentOptions::luma_only`] and
    /// [`AdaptiveOptions::luma_only`] have them.
    pub const LUMA_ONLY_WEIGHTS: Components = Components { hue: 0.0, saturation: 0.0, luma: 1.0, edges: 0.0 };
}

impl Default for Components {
    /// The default weights.
    fn default() -> Self {
        Components::DEFAULT_WEIGHTS
    }
}

/// The whole numbers that the components of a frame come from. All five are 0 if the frame has no score or no pixels.
#[derive(Clone, Copy, Debug, Default, PartialEq, Eq)]
pub struct Sums {
    /// The sum of the absolute differences of the hue plane.
    pub hue: u32,
    /// That of the saturation plane.
    pub saturation: u32,
    /// That of the luma plane.
    pub luma: u32,
    /// That of the edge plane; 0 if edges are off.
    pub edges: u32,
    /// The number of pixels, width * height.
    pub count: u32,
}

/// The result of an accepted frame.
#[derive(Clone, Copy, Debug, PartialEq)]
pub struct Answer {
    /// The timestamp of a cut that this frame reports. It can be that of an earlier frame: in
    /// [`FilterMode::Merge`], and always in the adaptive detector.
    pub cut: Option<i64>,
    /// The frame's score. The first frame of a detector has none, nor has the first frame after `clear` or after a
    /// change of width or height.
    pub score: Option<f64>,
    /// The components that the score is computed from; four times 0.0 if there is no score.
    pub components: Components,
    /// The sums and the count that the components are computed from; five times 0 if there is no score.
    pub sums: Sums,
}

/// How the content detector keeps cuts `min_duration` apart. A frame is *above* if its score is at or over the
/// threshold, with a light plan over the one that the plan has for it.
#[derive(Clone, Copy, Debug, PartialEq, Eq)]
pub enum FilterMode {
    /// A run of frames above that follow each other closely brings a cut at its start, and if it lasts long enough one
    /// at its end.
    ///
    /// A frame above is a cut if it comes `min_duration` or more after the last frame above. Otherwise, once there was
    /// a cut since the last `clear` or change of size, it starts a merge. The merge takes in all frames above that
    /// follow. It ends at a frame that is not above, `min_duration` or more after the last frame above, if that one is
    /// `min_duration` or more after the frame that started the merge, or if `min_duration` is 0; the last frame above
    /// is then the cut.
    ///
    /// So this cut is reported late, with the timestamp of an earlier frame. A merge that is too short to end stays
    /// pending, and a frame above joins it however much later it comes. A merge that is pending at the end of the
    /// stream, at a `clear` or at a change of size is lost: its cut is never reported.
    ///
    /// As long as there was no frame above, `min_duration` is counted from where `initial_cut` says.
    Merge,
    /// A frame above is a cut if it comes `min_duration` or more after the last cut. Other frames above are dropped. A
    /// cut is reported with its own frame. As long as there was no cut, `min_duration` is counted from where
    /// `initial_cut` says.
    Suppress,
}

/// Settings of the content detector. `ContentOptions::default()` has the defaults, and `ContentOptions::luma_only()`
/// has what luma frames want. A light plan is given beside them: [`ContentDetector::with_plan`].
#[derive(Clone, Copy, Debug, PartialEq)]
pub struct ContentOptions {
    /// A frame with at least this score is above the threshold. Any number but NaN; 27 by default. With a light plan
    /// the threshold of the frame's row stands in its place.
    pub threshold: f64,
    /// The least time from one cut to the next, in microseconds; 1,000,000 by default. The crate's documentation says
    /// where it holds.
    pub min_duration: u64,
    /// How much each component counts in the score. Each weight is finite, at most 2^20 in size, and may be negative;
    /// not all are zero. [`Components::DEFAULT_WEIGHTS`] by default.
    pub weights: Components,
    /// How cuts are kept `min_duration` apart; [`FilterMode::Merge`] by default.
    pub filter_mode: FilterMode,
    /// The side of the square by which edges are widened: an odd number from 3 on, or `None` (the default) to choose it
    /// by the frame's size.
    pub kernel_size: Option<u32>,
    /// Whether the first frame that has a score may be a cut (the default). If not, `min_duration` is counted from that
    /// frame; if so, from a time `min_duration` before it. This applies anew after `clear` and after a change of size.
    pub initial_cut: bool,
}

impl ContentOptions {
    const DEFAULT: Self = ContentOptions {
        threshold: 27.0,
        min_duration: 1_000_000,
        weights: Components::DEFAULT_WEIGHTS,
        filter_mode: FilterMode::Merge,
        kernel_size: None,
        initial_cut: true,
    };

    /// For luma frames: luma-only weights and a threshold for them; the rest is as by default. The score is the luma
    /// difference itself, so the threshold of 27 is a luma difference of 27. With the default settings a luma frame
    /// reaches the threshold only at a luma difference of 81.
    pub const fn luma_only() -> Self {
        ContentOptions { threshold: 27.0, weights: Components::LUMA_ONLY_WEIGHTS, ..Self::DEFAULT }
    }
}

impl Default for ContentOptions {
    fn default() -> Self {
        Self::DEFAULT
    }
}

/// Settings of the adaptive detector. `AdaptiveOptions::default()` has the defaults, and `AdaptiveOptions::luma_only()`
/// has what luma frames want.
#[derive(Clone, Copy, Debug, PartialEq)]
pub struct AdaptiveOptions {
    /// A frame whose score has at least this ratio to the average of the scores around it may be a cut. Any number but
    /// NaN; 3 by default.
    pub threshold: f64,
    /// The least time from one cut to the next, in microseconds; 1,000,000 by default. The crate's documentation says
    /// where it holds.
    pub min_duration: u64,
    /// How many scores on each side a frame's score is compared with, 1 to 64; 2 by default.
    pub window_width: u32,
    /// The least score of a cut. Any number but NaN; 15 by default.
    pub min_content_val: f64,
    /// How much each component counts in the score. Each weight is finite, at most 2^20 in size, and may be negative;
    /// not all are zero. [`Components::DEFAULT_WEIGHTS`] by default.
    pub weights: Components,
    /// The side of the square by which edges are widened: an odd number from 3 on, or `None` (the default) to choose it
    /// by the frame's size.
    pub kernel_size: Option<u32>,
    /// Whether the first frame that is judged may be a cut (the default). If not, `min_duration` is counted from that
    /// frame; if so, from a time `min_duration` before it. This applies anew after `clear`.
    pub initial_cut: bool,
}

impl AdaptiveOptions {
    const DEFAULT: Self = AdaptiveOptions {
        threshold: 3.0,
        min_duration: 1_000_000,
        window_width: 2,
        min_content_val: 15.0,
        weights: Components::DEFAULT_WEIGHTS,
        kernel_size: None,
        initial_cut: true,
    };

    /// For luma frames: luma-only weights; the rest is as by default. The threshold is a ratio and stays 3. The score
    /// is the luma difference itself, so the `min_content_val` of 15 is a luma difference of 15. With the default
    /// settings a luma frame reaches it only at a luma difference of 45.
    pub const fn luma_only() -> Self {
        AdaptiveOptions { weights: Components::LUMA_ONLY_WEIGHTS, ..Self::DEFAULT }
    }
}

impl Default for AdaptiveOptions {
    fn default() -> Self {
        Self::DEFAULT
    }
}

/// The memory that a frame call is lent: the store, which holds the planes of the last frame, and two pieces whose
/// contents do not matter. It grows with the frames.
#[derive(Clone, Default)]
struct Lent {
    store: Vec<u8>,
    scratch: Vec<u8>,
    magnitudes: Vec<i32>,
}

impl Lent {
    fn fit(&mut self, width: u32, height: u32) {
        // SAFETY: they take and return numbers.
        let (store, scratch, magnitudes) = unsafe {
            (
                sys::mw_store_bytes(width, height),
                sys::mw_scratch_bytes(width, height),
                sys::mw_magnitudes(width, height),
            )
        };
        if self.store.len() < store as usize {
            self.store.resize(store as usize, 0);
        }
        if self.scratch.len() < scratch as usize {
            self.scratch.resize(scratch as usize, 0);
        }
        if self.magnitudes.len() < magnitudes as usize {
            self.magnitudes.resize(magnitudes as usize, 0);
        }
    }

    /// Calls, and if the memory is too short, lends enough and calls again. The memory grows only for a frame that is
    /// otherwise accepted, since short memory is the last reason to refuse one.
    fn answered(
        &mut self,
        width: u32,
        height: u32,
        mut call: impl FnMut(&mut Lent, &mut sys::Answer) -> u32,
    ) -> Result<Answer, Refusal> {
        let mut answer = [0; sys::ANSWER_WORDS];
        let mut number = call(self, &mut answer);
        if matches!(number, 12..=14) {
            self.fit(width, height);
            number = call(self, &mut answer);
        }
        passed(number)?;
        Ok(answer_of(&answer))
    }
}

fn answer_of(w: &sys::Answer) -> Answer {
    let float = |i: usize| f64::from_bits(w[i]);
    let whole = |i: usize| w[i] as u32;
    Answer {
        cut: (w[0] == 1).then_some(w[1] as i64),
        score: (w[2] == 1).then(|| float(3)),
        components: Components { hue: float(4), saturation: float(5), luma: float(6), edges: float(7) },
        sums: Sums { hue: whole(8), saturation: whole(9), luma: whole(10), edges: whole(11), count: whole(12) },
    }
}

/// Panics unless the library has the functions that `sys` declares: another one could take other arguments.
fn fitting() {
    let (major, minor, _) = version();
    assert_eq!((major, minor), (VERSION.0, VERSION.1), "the linked library has another version than this wrapper");
}

/// Words for a state or a list, once the library is known to have the functions that `sys` declares, and states, lists
/// and answers of as many words as here: another one would write past the words. The numbers of words alone do not
/// tell: they were the same in 0.1.0 and 0.2.0, whose functions differ.
fn blank<const N: usize>(library: u64) -> [u64; N] {
    fitting();
    // SAFETY: it takes nothing and returns a number.
    let answer = unsafe { sys::mw_answer_words() };
    let here = (N as u64, sys::ANSWER_WORDS as u64);
    assert_eq!((library, answer), here, "the linked library has records or answers of another size than this wrapper");
    [0; N]
}

// SAFETY of the calls in a detector: `blank` checked that the library has these functions, and that its states and
// answers have as many words as here; every other pointer and length are those of a slice, a vector or an array of the
// size that the function writes; each lives through the call, and what is written overlaps nothing else and is used by
// nobody else.
//
// $before and $width are words of the state (mawerodu.h, "Layout of the words"): 1 if there is a frame before, and its
// width, with its height behind that.
macro_rules! detector {
    ($name:ident, $state:ident, $words:ident, $default:ident, $luma:ident, $bgr:ident, $hsv:ident, $clear:ident, $has_score:ident, $score:ident, $has_components:ident, $component:ident, $before:literal, $width:literal) => {
        impl $name {
            /// A detector with the default settings. Luma frames want others: see `process_luma`. It panics if the
            /// linked library has another version than [`VERSION`], the patch number aside; so do the other
            /// constructors.
            pub fn new() -> Self {
                let mut state = blank(unsafe { sys::$words() });
                let number = unsafe { sys::$default(&mut state) };
                debug_assert_eq!(number, 0);
                $name { state, lent: Lent::default() }
            }

            /// The state as plain words, which can be stored and handed to `from_state` later. The planes of the last
            /// frame are not part of it.
            pub fn state(&self) -> &sys::$state {
                &self.state
            }

            /// A detector with the settings and the frame size of a stored state. The rest of that state is cleared,
            /// because the planes of the last frame are not part of it: the next frame has no score. Refused by 15 if
            /// the words are not a valid state.
            pub fn from_state(words: &sys::$state) -> Result<Self, Refusal> {
                let mut state: sys::$state = blank(unsafe { sys::$words() });
                state.copy_from_slice(words);
                passed(unsafe { sys::$clear(&mut state) })?;
                Ok($name { state, lent: Lent::default() })
            }

            /// Takes a luma frame with its timestamp in microseconds. Row r starts at byte r * `stride` of `plane`;
            /// height * `stride` bytes are needed, the padding of the last row included. Refused by 1, 2 or 3.
            ///
            /// Luma frames want luma-only weights and a threshold for them: [`ContentOptions::luma_only`] or
            /// [`AdaptiveOptions::luma_only`]. With the default weights the score is a third of the luma difference.
            pub fn process_luma(
                &mut self,
                plane: &[u8],
                width: u32,
                height: u32,
                stride: u32,
                ts: i64,
            ) -> Result<Answer, Refusal> {
                let state = &mut self.state;
                self.lent.answered(width, height, |m, answer| unsafe {
                    sys::$luma(
                        state,
                        answer,
                        plane.as_ptr(),
                        plane.len(),
                        width,
                        height,
                        stride,
                        ts,
                        m.store.as_mut_ptr(),
                        m.store.len(),
                        m.scratch.as_mut_ptr(),
                        m.scratch.len(),
                        m.magnitudes.as_mut_ptr(),
                        m.magnitudes.len(),
                    )
                })
            }

            /// Takes a BGR frame with its timestamp in microseconds: three bytes a pixel, in the order B, G, R. Row r
            /// starts at byte r * `stride` of `pixels`, and `stride` is at least 3 * `width`; height * `stride` bytes
            /// are needed, the padding of the last row included. Refused by 1, 2 or 3.
            pub fn process_bgr(
                &mut self,
                pixels: &[u8],
                width: u32,
                height: u32,
                stride: u32,
                ts: i64,
            ) -> Result<Answer, Refusal> {
                let state = &mut self.state;
                self.lent.answered(width, height, |m, answer| unsafe {
                    sys::$bgr(
                        state,
                        answer,
                        pixels.as_ptr(),
                        pixels.len(),
                        width,
                        height,
                        stride,
                        ts,
                        m.store.as_mut_ptr(),
                        m.store.len(),
                        m.scratch.as_mut_ptr(),
                        m.scratch.len(),
                        m.magnitudes.as_mut_ptr(),
                        m.magnitudes.len(),
                    )
                })
            }

            /// Takes an HSV frame with its timestamp in microseconds: three planes of one stride, with a hue of 0 to
            /// 179 (a larger one is taken as it is). Row r of a plane starts at byte r * `stride`; height * `stride`
            /// bytes are needed of each, the padding of the last row included. Refused by 1 to 5.
            #[allow(clippy::too_many_arguments)]
            pub fn process_hsv(
                &mut self,
                hue: &[u8],
                saturation: &[u8],
                value: &[u8],
                width: u32,
                height: u32,
                stride: u32,
                ts: i64,
            ) -> Result<Answer, Refusal> {
                let state = &mut self.state;
                self.lent.answered(width, height, |m, answer| unsafe {
                    sys::$hsv(
                        state,
                        answer,
                        hue.as_ptr(),
                        hue.len(),
                        saturation.as_ptr(),
                        saturation.len(),
                        value.as_ptr(),
                        value.len(),
                        width,
                        height,
                        stride,
                        ts,
                        m.store.as_mut_ptr(),
                        m.store.len(),
                        m.scratch.as_mut_ptr(),
                        m.scratch.len(),
                        m.magnitudes.as_mut_ptr(),
                        m.magnitudes.len(),
                    )
                })
            }

            /// Forgets the stream: the settings and the frame size stay, everything else is as at the start. The next
            /// frame has no score.
            pub fn clear(&mut self) {
                let number = unsafe { sys::$clear(&mut self.state) };
                debug_assert_eq!(number, 0);
            }

            /// The score of the last accepted frame, if it had one.
            pub fn last_score(&self) -> Option<f64> {
                let state = &self.state;
                unsafe { (sys::$has_score(state) == 1).then(|| sys::$score(state)) }
            }

            /// The components of the last accepted frame, if it had a score.
            pub fn last_components(&self) -> Option<Components> {
                let state = &self.state;
                let at = |place| unsafe { sys::$component(state, place) };
                (unsafe { sys::$has_components(state) } == 1).then(|| Components {
                    hue: at(0),
                    saturation: at(1),
                    luma: at(2),
                    edges: at(3),
                })
            }

            /// The luma median of the last accepted frame, of whatever kind: for a BGR or HSV frame that of its value
            /// plane, for one without pixels 255. `None` before the first frame and after `clear`. It is counted anew
            /// by each call, from the plane that the detector keeps. Whoever writes a light plan wants to know it.
            pub fn last_luma_median(&self) -> Option<u8> {
                let [width, height] = [self.state[$width] as u32, self.state[$width + 1] as u32];
                let n = width as usize * height as usize;
                let luma = self.lent.store.get(2 * n..3 * n).filter(|_| self.state[$before] == 1)?;
                luma_median(luma, width, height, width).ok()
            }
        }

        /// Shows the words of the state.
        impl fmt::Debug for $name {
            fn fmt(&self, f: &mut fmt::Formatter<'_>) -> fmt::Result {
                f.debug_struct(stringify!($name)).field("state", &self.state).finish_non_exhaustive()
            }
        }

        impl Default for $name {
            fn default() -> Self {
                Self::new()
            }
        }
    };
}

/// Reports cuts at frames whose score reaches the threshold, by a light plan that of the frame, kept `min_duration`
/// apart as [`FilterMode`] says: from one `clear` or change of size to the next, and with [`FilterMode::Merge`] only if
/// the timestamps of the frames with a score do not fall in between.
#[derive(Clone)]
pub struct ContentDetector {
    state: sys::ContentState,
    lent: Lent,
}

detector!(
    ContentDetector,
    ContentState,
    mw_content_words,
    mw_content_default,
    mw_content_luma,
    mw_content_bgr,
    mw_content_hsv,
    mw_content_clear,
    mw_content_has_score,
    mw_content_score,
    mw_content_has_components,
    mw_content_component,
    11,
    19
);

impl ContentDetector {
    /// A detector with these settings. Refused by 6 to 9.
    pub fn with_options(o: ContentOptions) -> Result<Self, Refusal> {
        Self::with_plan(o, "")
    }

    /// A detector with these settings and a light plan, as a text of rows `from,to,threshold` with a line feed after
    /// each (see [the crate's documentation](crate#the-light-plan)). The empty text is no plan. The text may be any
    /// bytes.
    ///
    /// ```text
    /// let plan = std::fs::read("room.plan")?;
    /// let mut detector = ContentDetector::with_plan(ContentOptions::default(), plan)?;
    /// ```
    ///
    /// Refused by 6 to 9; then by 20 if a row has another shape, a row's first number exceeds its second, or there are
    /// more than 16 rows; by 21 if two rows have the same median; by 22 if some median has no row.
    pub fn with_plan(o: ContentOptions, plan: impl AsRef<[u8]>) -> Result<Self, Refusal> {
        let (mut d, plan) = (Self::new(), plan.as_ref());
        passed(unsafe {
            sys::mw_content_new_with_plan(
                &mut d.state,
                o.threshold,
                o.min_duration,
                o.weights.hue,
                o.weights.saturation,
                o.weights.luma,
                o.weights.edges,
                match o.filter_mode {
                    FilterMode::Merge => 0,
                    FilterMode::Suppress => 1,
                },
                o.kernel_size.is_some() as u32,
                o.kernel_size.unwrap_or(0),
                o.initial_cut as u32,
                plan.as_ptr(),
                plan.len(),
            )
        })?;
        Ok(d)
    }

    /// The text of the light plan that the detector has, as it was given; empty if it has none.
    pub fn plan(&self) -> String {
        let mut text = [0; sys::PLAN_TEXT];
        let length = unsafe { sys::mw_content_plan(&self.state, &mut text) };
        text[..length as usize].iter().map(|&byte| char::from(byte)).collect()
    }
}

/// Reports a cut where a frame's score stands out from the scores around it.
///
/// The last 2 * `window_width` + 1 scores form a window. Whenever a score comes in and the window is full, the frame in
/// its middle, the target, is judged: `window_width` scored frames after it came. The ratio of the target is its score
/// divided by the average of the other scores in the window, at most 255; if that average is below 1e-5 in size, the
/// ratio is 255 if the score is at least `min_content_val`, and 0 if not. The target is a cut if its ratio is at least
/// the threshold, its score at least `min_content_val`, and its timestamp `min_duration` or more after the last cut.
///
/// Of the frames with a score, the first and the last `window_width` from one `clear` to the next are never judged, so
/// none of them is reported as a cut. Cuts are `min_duration` apart from one `clear` to the next.
#[derive(Clone)]
pub struct AdaptiveDetector {
    state: sys::AdaptiveState,
    lent: Lent,
}

detector!(
    AdaptiveDetector,
    AdaptiveState,
    mw_adaptive_words,
    mw_adaptive_default,
    mw_adaptive_luma,
    mw_adaptive_bgr,
    mw_adaptive_hsv,
    mw_adaptive_clear,
    mw_adaptive_has_score,
    mw_adaptive_score,
    mw_adaptive_has_components,
    mw_adaptive_component,
    12,
    20
);

impl AdaptiveDetector {
    /// A detector with these settings. Refused by 10, 11, or 6 to 9.
    pub fn with_options(o: AdaptiveOptions) -> Result<Self, Refusal> {
        let mut d = Self::new();
        passed(unsafe {
            sys::mw_adaptive_new(
                &mut d.state,
                o.threshold,
                o.min_duration,
                o.window_width,
                o.min_content_val,
                o.weights.hue,
                o.weights.saturation,
                o.weights.luma,
                o.weights.edges,
                o.kernel_size.is_some() as u32,
                o.kernel_size.unwrap_or(0),
                o.initial_cut as u32,
            )
        })?;
        Ok(d)
    }

    /// The ratio of the last target: its score divided by the average of the other scores in the window, at most 255.
    /// `None` until a window was full.
    pub fn last_adaptive_ratio(&self) -> Option<f64> {
        let state = &self.state;
        unsafe { (sys::mw_adaptive_has_ratio(state) == 1).then(|| sys::mw_adaptive_ratio(state)) }
    }

    /// The score of the last target, the frame that was judged last. `None` until a window was full.
    pub fn last_target_score(&self) -> Option<f64> {
        let state = &self.state;
        unsafe { (sys::mw_adaptive_has_target(state) == 1).then(|| sys::mw_adaptive_target(state)) }
    }
}

/// A list of cuts, to keep them at hand while the film runs: up to 512 stamps (timestamps in microseconds) in strictly
/// rising order, each at least `min_duration` after the one before. Stamps can be added and removed in any order.
///
/// ```text
/// let options = ContentOptions { filter_mode: FilterMode::Suppress, ..ContentOptions::luma_only() };
/// let mut detector = ContentDetector::with_options(options)?;
/// let mut cuts = CutList::new(options.min_duration);
/// for (ts, luma) in frames {
///     if let Some(cut) = detector.process_luma(&luma, width, height, width, ts)?.cut {
///         if let Err(refusal) = cuts.add(cut) {
///             eprintln!("cut not listed: {refusal}");
///         }
///     }
///     println!("clip {}", cuts.clip(ts));
/// }
/// println!("in the first minute: {:?}", &cuts.stamps()[cuts.span(0, 60_000_000)]);
/// ```
///
/// With [`FilterMode::Suppress`] and a `min_duration` of at least 1, the cuts of one stretch can be added, in the order
/// in which they are reported, to an empty list of the same `min_duration`: none is refused by 17, and by 18 only those
/// from the 513th on. The same holds of the cuts of an [`AdaptiveDetector`] from `clear` to `clear`. This is proved of
/// the library. Other cuts may be refused by 17: with a `min_duration` of 0 two cuts can be equal, and those of two
/// stretches, or with [`FilterMode::Merge`] of one whose timestamps fall, can be closer to each other than
/// `min_duration`. A list with a `min_duration` of 0 or 1 takes all stamps that differ, up to 512.
///
/// A `CutList` is always a valid list, so that only `add`, `remove` and `from_words` can be refused.
#[derive(Clone)]
pub struct CutList {
    words: sys::List,
    memory: Box<[i64; sys::LIST_PLACES]>,
}

// SAFETY of the calls in a list: `blank` and `with_memory` checked that the library has these functions, and that its
// lists have as many words and places as here; words and memory are the list's own, and a result is a variable of the
// method; each lives through the call, none overlaps another, and what is written is used by nobody else.
impl CutList {
    /// A list without stamps. It panics if the linked library has another version than [`VERSION`], the patch number
    /// aside; so does `from_words`.
    pub fn new(min_duration: u64) -> Self {
        let mut list = Self::with_memory([0; sys::LIST_PLACES]);
        unsafe { sys::mw_list_new(&mut list.words, min_duration) };
        list
    }

    /// A list that `words` and `memory` of another one were stored from. Refused by 15 if they are not a valid list:
    /// words of another version, a count over 512, stamps that do not rise or are closer to each other than
    /// `min_duration`.
    pub fn from_words(words: &sys::List, memory: &[i64; sys::LIST_PLACES]) -> Result<Self, Refusal> {
        let mut list = Self::with_memory(*memory);
        list.words = *words;
        list.counted(0)?;
        Ok(list)
    }

    /// Words that are not a list yet, and this memory.
    fn with_memory(memory: [i64; sys::LIST_PLACES]) -> Self {
        let words = blank(unsafe { sys::mw_list_words() });
        let places = unsafe { sys::mw_list_places() };
        assert_eq!(places, sys::LIST_PLACES as u64, "the linked library has lists of another size than this wrapper");
        CutList { words, memory: Box::new(memory) }
    }

    /// The record as plain words, which can be stored together with `memory` and handed to `from_words` later.
    pub fn words(&self) -> &sys::List {
        &self.words
    }

    /// The memory of the list: its stamps, then the places that are free.
    pub fn memory(&self) -> &[i64; sys::LIST_PLACES] {
        &self.memory
    }

    /// The stamps, the earliest first.
    pub fn stamps(&self) -> &[i64] {
        &self.memory[..self.len()]
    }

    /// How many stamps the list holds, at most 512.
    pub fn len(&self) -> usize {
        self.words[2] as usize
    }

    /// Whether the list holds no stamp.
    pub fn is_empty(&self) -> bool {
        self.len() == 0
    }

    /// The least time from one stamp to the next, in microseconds.
    pub fn min_duration(&self) -> u64 {
        self.words[1]
    }

    /// Adds a stamp. Refused by 17 if it equals a stamp of the list, or is closer to one than `min_duration`, before or
    /// after it; then by 18 if the list holds 512.
    pub fn add(&mut self, ts: i64) -> Result<(), Refusal> {
        let (memory, places) = (self.memory.as_mut_ptr(), self.memory.len());
        passed(unsafe { sys::mw_list_add(&mut self.words, memory, places, ts) })
    }

    /// Removes a stamp. Refused by 19 if it is not in the list.
    pub fn remove(&mut self, ts: i64) -> Result<(), Refusal> {
        let (memory, places) = (self.memory.as_mut_ptr(), self.memory.len());
        passed(unsafe { sys::mw_list_remove(&mut self.words, memory, places, ts) })
    }

    /// Removes all stamps; `min_duration` stays.
    pub fn empty(&mut self) {
        let (memory, places) = (self.memory.as_mut_ptr(), self.memory.len());
        let number = unsafe { sys::mw_list_empty(&mut self.words, memory, places) };
        debug_assert_eq!(number, 0);
    }

    /// The stamp nearest to `ts`, the earlier one of two that are as near; `None` in a list without stamps.
    pub fn nearest(&self, ts: i64) -> Option<i64> {
        let mut nearest = sys::Nearest::default();
        let (memory, places) = (self.memory.as_ptr(), self.memory.len());
        let number = unsafe { sys::mw_list_nearest(&self.words, memory, places, ts, &mut nearest) };
        debug_assert_eq!(number, 0);
        (nearest.has == 1).then_some(nearest.ts)
    }

    /// The stamps that are not before `from` and not after `to`, as a range of places: `&stamps()[span(from, to)]` has
    /// them. It is `0..0` if there is none, as when `from` is later than `to`.
    pub fn span(&self, from: i64, to: i64) -> Range<usize> {
        let mut span = sys::Span::default();
        let (memory, places) = (self.memory.as_ptr(), self.memory.len());
        let number = unsafe { sys::mw_list_span(&self.words, memory, places, from, to, &mut span) };
        debug_assert_eq!(number, 0);
        span.first as usize..(span.first + span.count) as usize
    }

    /// The clip that `ts` is in: how many stamps are at or before it. Clip 0 is what comes before the first cut, and a
    /// later clip `n` starts at `stamps()[n - 1]`.
    pub fn clip(&self, ts: i64) -> usize {
        let clip = self.counted(ts);
        debug_assert!(clip.is_ok());
        clip.unwrap_or(0)
    }

    /// The clip of a stamp; 15 if this is not a valid list.
    fn counted(&self, ts: i64) -> Result<usize, Refusal> {
        let mut clip = 0;
        let (memory, places) = (self.memory.as_ptr(), self.memory.len());
        passed(unsafe { sys::mw_list_clip(&self.words, memory, places, ts, &mut clip) })?;
        Ok(clip as usize)
    }
}

/// Shows `min_duration` and the stamps.
impl fmt::Debug for CutList {
    fn fmt(&self, f: &mut fmt::Formatter<'_>) -> fmt::Result {
        let (min_duration, stamps) = (self.min_duration(), self.stamps());
        f.debug_struct("CutList").field("min_duration", &min_duration).field("stamps", &stamps).finish()
    }
}
