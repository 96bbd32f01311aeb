//! The station library as a station holds it: its C functions, as rust/lib.rs declares them, on words and lent memory.
//! Whole lists of calls are run through them.
use crate::adaptive_lists;
use crate::content_lists::{self, Planned};
use crate::lists::{self, Film, Listed, Output};
use crate::plan_rules::{self, Plan};
use crate::rules::{self, Own, Settings};
use mawerodu::sys::{self as c, ADAPTIVE_WORDS, ANSWER_WORDS, CONTENT_WORDS};
use scenesdetect::adaptive;
use scenesdetect::content::{self, Components, FilterMode};

type Luma<const N: usize> = unsafe extern "C" fn(
    *mut [u64; N],
    *mut c::Answer,
    *const u8,
    usize,
    u32,
    u32,
    u32,
    i64,
    *mut u8,
    usize,
    *mut u8,
    usize,
    *mut i32,
    usize,
) -> u32;
type Hsv<const N: usize> = unsafe extern "C" fn(
    *mut [u64; N],
    *mut c::Answer,
    *const u8,
    usize,
    *const u8,
    usize,
    *const u8,
    usize,
    u32,
    u32,
    u32,
    i64,
    *mut u8,
    usize,
    *mut u8,
    usize,
    *mut i32,
    usize,
) -> u32;

/// A reader: whether there is a value, and the value.
type Reader<const N: usize> =
    (unsafe extern "C" fn(*const [u64; N]) -> u32, unsafe extern "C" fn(*const [u64; N]) -> f64);

/// The functions of a detector whose state has N words.
pub struct Functions<const N: usize> {
    pub default: unsafe extern "C" fn(*mut [u64; N]) -> u32,
    new: unsafe fn(*mut [u64; N], &Settings) -> u32,
    pub luma: Luma<N>,
    pub bgr: Luma<N>,
    pub hsv: Hsv<N>,
    clear: unsafe extern "C" fn(*mut [u64; N]) -> u32,
    /// The score, and what the adaptive detector has besides: the ratio and the target.
    readers: &'static [Reader<N>],
    components: (unsafe extern "C" fn(*const [u64; N]) -> u32, unsafe extern "C" fn(*const [u64; N], u32) -> f64),
    /// The reader of the plan's text, which the content detector has.
    plan: Option<unsafe fn(*const [u64; N], *mut u8) -> u32>,
    /// The words of the settings; those of the stream follow, width and height the last of them.
    options: usize,
}

pub const CONTENT: Functions<CONTENT_WORDS> = Functions {
    default: c::mw_content_default,
    new: content_new,
    luma: c::mw_content_luma,
    bgr: c::mw_content_bgr,
    hsv: c::mw_content_hsv,
    clear: c::mw_content_clear,
    readers: &[(c::mw_content_has_score, c::mw_content_score)],
    components: (c::mw_content_has_components, c::mw_content_component),
    plan: Some(content_plan),
    options: 11,
};

pub const ADAPTIVE: Functions<ADAPTIVE_WORDS> = Functions {
    default: c::mw_adaptive_default,
    new: adaptive_new,
    luma: c::mw_adaptive_luma,
    bgr: c::mw_adaptive_bgr,
    hsv: c::mw_adaptive_hsv,
    clear: c::mw_adaptive_clear,
    readers: &[
        (c::mw_adaptive_has_score, c::mw_adaptive_score),
        (c::mw_adaptive_has_ratio, c::mw_adaptive_ratio),
        (c::mw_adaptive_has_target, c::mw_adaptive_target),
    ],
    components: (c::mw_adaptive_has_components, c::mw_adaptive_component),
    plan: None,
    options: 12,
};

/// By the call that takes a plan's text, or by the one without where the settings say so: then there is no plan.
unsafe fn content_new(state: *mut c::ContentState, s: &Settings) -> u32 {
    let Own::Content { filter_mode, plan, by_text } = s.own else { panic!("settings of the adaptive detector") };
    if by_text {
        return unsafe { content_new_with_plan(state, s, &plan.text()) };
    }
    assert!(!plan.is_given());
    let [hue, saturation, luma, edges] = s.weights;
    unsafe {
        c::mw_content_new(
            state,
            s.threshold,
            s.min_duration,
            hue,
            saturation,
            luma,
            edges,
            filter_mode,
            s.has_kernel,
            s.kernel_size,
            s.initial_cut,
        )
    }
}

/// With this text, and not with the plan of the settings.
unsafe fn content_new_with_plan(state: *mut c::ContentState, s: &Settings, text: &[u8]) -> u32 {
    let Own::Content { filter_mode, .. } = s.own else { panic!("settings of the adaptive detector") };
    let [hue, saturation, luma, edges] = s.weights;
    unsafe {
        c::mw_content_new_with_plan(
            state,
            s.threshold,
            s.min_duration,
            hue,
            saturation,
            luma,
            edges,
            filter_mode,
            s.has_kernel,
            s.kernel_size,
            s.initial_cut,
            text.as_ptr(),
            text.len(),
        )
    }
}

unsafe fn content_plan(state: *const c::ContentState, text: *mut u8) -> u32 {
    unsafe { c::mw_content_plan(state, text.cast()) }
}

/// The number of a frame's luma median, and the median that is written: a byte that held 77 before.
pub fn luma_median(plane: &[u8], width: u32, height: u32, stride: u32) -> (u32, [u8; 3]) {
    let mut median = [77; 3];
    // SAFETY: the address and the length are those of a slice, and the median lies between guards.
    let number =
        unsafe { c::mw_luma_median(plane.as_ptr(), plane.len(), width, height, stride, median[1..].as_mut_ptr()) };
    (number, median)
}

unsafe fn adaptive_new(state: *mut c::AdaptiveState, s: &Settings) -> u32 {
    let Own::Adaptive { window_width, min_content_val } = s.own else { panic!("settings of the content detector") };
    let [hue, saturation, luma, edges] = s.weights;
    unsafe {
        c::mw_adaptive_new(
            state,
            s.threshold,
            s.min_duration,
            window_width,
            min_content_val,
            hue,
            saturation,
            luma,
            edges,
            s.has_kernel,
            s.kernel_size,
            s.initial_cut,
        )
    }
}

/// The planes of a frame, by its kind.
#[derive(Clone, Copy)]
pub enum Planes<'a> {
    Luma(&'a [u8]),
    Bgr(&'a [u8]),
    Hsv([&'a [u8]; 3]),
}

/// A frame as a call gets it.
#[derive(Clone, Copy)]
pub struct Frame<'a> {
    pub planes: Planes<'a>,
    pub width: u32,
    pub height: u32,
    pub stride: u32,
    pub ts: i64,
}

/// Words on both sides of a state and of an answer, which no call may touch.
const GUARD: usize = 2;
const SENTINEL: u64 = 0x5151_5151_5151_5151;

/// A detector as a station holds it: its words, the last answer's, and the lent memory.
#[derive(Clone, PartialEq)]
pub struct Station<const N: usize> {
    state: Vec<u64>,
    answer: Vec<u64>,
    pub store: Vec<u8>,
    pub scratch: Vec<u8>,
    pub magnitudes: Vec<i32>,
}

impl<const N: usize> Station<N> {
    /// Words that no call has written, and memory of these lengths.
    pub fn blank(memory: [usize; 3]) -> Self {
        Station {
            state: vec![SENTINEL; N + 2 * GUARD],
            answer: vec![SENTINEL; ANSWER_WORDS + 2 * GUARD],
            store: vec![0; memory[0]],
            scratch: vec![0; memory[1]],
            magnitudes: vec![0; memory[2]],
        }
    }

    /// Memory for frames of this size.
    pub fn sized(width: u32, height: u32) -> Self {
        let memory = unsafe {
            [c::mw_store_bytes(width, height), c::mw_scratch_bytes(width, height), c::mw_magnitudes(width, height)]
        };
        Station::blank(memory.map(|count| count as usize))
    }

    pub fn words(&self) -> &[u64] {
        &self.state[GUARD..GUARD + N]
    }

    pub fn words_mut(&mut self) -> &mut [u64] {
        &mut self.state[GUARD..GUARD + N]
    }

    pub fn answer(&self) -> &[u64] {
        &self.answer[GUARD..GUARD + ANSWER_WORDS]
    }

    /// How many places of each memory there are.
    pub fn memory(&self) -> [usize; 3] {
        [self.store.len(), self.scratch.len(), self.magnitudes.len()]
    }

    /// Whether the words about state and answer are as they were.
    pub fn guarded(&self) -> bool {
        let guards = |words: &[u64]| [&words[..GUARD], &words[words.len() - GUARD..]].concat();
        [guards(&self.state), guards(&self.answer)].concat().iter().all(|&word| word == SENTINEL)
    }

    /// Whether a call that was lent so much of the memory left the rest of it.
    pub fn behind_kept(&self, before: &Self, lent: [usize; 3]) -> bool {
        self.store[lent[0]..] == before.store[lent[0]..]
            && self.scratch[lent[1]..] == before.scratch[lent[1]..]
            && self.magnitudes[lent[2]..] == before.magnitudes[lent[2]..]
    }

    /// Whether nothing but the state differs.
    pub fn memory_kept(&self, before: &Self) -> bool {
        self.answer == before.answer && self.behind_kept(before, [0; 3])
    }

    // SAFETY of the calls: the words of state and answer lie between guards of their own memory, each other address and
    // length are those of a slice, what is written is not shared, and nothing more is asked.

    fn state_at(&mut self) -> *mut [u64; N] {
        unsafe { self.state.as_mut_ptr().add(GUARD).cast() }
    }

    fn state_seen(&self) -> *const [u64; N] {
        unsafe { self.state.as_ptr().add(GUARD).cast() }
    }

    pub fn default(&mut self, functions: &Functions<N>) -> u32 {
        unsafe { (functions.default)(self.state_at()) }
    }

    pub fn settle(&mut self, functions: &Functions<N>, settings: &Settings) -> u32 {
        unsafe { (functions.new)(self.state_at(), settings) }
    }

    /// The text of the plan, by the library's reader. A byte that is written behind it is put out too.
    pub fn plan_text(&self, functions: &Functions<N>) -> Option<Vec<u8>> {
        const BLANK: u8 = 0x51;
        let mut text = vec![BLANK; plan_rules::TEXT + 8];
        let length = unsafe { functions.plan?(self.state_seen(), text.as_mut_ptr()) } as usize;
        let end = text.iter().rposition(|&byte| byte != BLANK).map_or(0, |last| last + 1);
        text.truncate(length.max(end));
        Some(text)
    }

    pub fn clear(&mut self, functions: &Functions<N>) -> u32 {
        unsafe { (functions.clear)(self.state_at()) }
    }

    /// A frame call that is lent so much of each memory.
    pub fn call(&mut self, functions: &Functions<N>, frame: Frame, lent: [usize; 3]) -> u32 {
        let Frame { planes, width, height, stride, ts } = frame;
        assert!(lent.iter().zip(self.memory()).all(|(&lent, there)| lent <= there));
        let (state, answer) = (self.state_at(), unsafe { self.answer.as_mut_ptr().add(GUARD).cast() });
        let (store, scratch, magnitudes) =
            (self.store.as_mut_ptr(), self.scratch.as_mut_ptr(), self.magnitudes.as_mut_ptr());
        let plain = |call: Luma<N>, data: &[u8]| unsafe {
            call(
                state,
                answer,
                data.as_ptr(),
                data.len(),
                width,
                height,
                stride,
                ts,
                store,
                lent[0],
                scratch,
                lent[1],
                magnitudes,
                lent[2],
            )
        };
        match planes {
            Planes::Luma(plane) => plain(functions.luma, plane),
            Planes::Bgr(pixels) => plain(functions.bgr, pixels),
            Planes::Hsv([hue, saturation, value]) => unsafe {
                (functions.hsv)(
                    state,
                    answer,
                    hue.as_ptr(),
                    hue.len(),
                    saturation.as_ptr(),
                    saturation.len(),
                    value.as_ptr(),
                    value.len(),
                    width,
                    height,
                    stride,
                    ts,
                    store,
                    lent[0],
                    scratch,
                    lent[1],
                    magnitudes,
                    lent[2],
                )
            },
        }
    }

    /// What the readers show: of score, ratio and target whether there is one and the value.
    pub fn read(&self, functions: &Functions<N>) -> Vec<(u32, f64)> {
        let state = self.state_seen();
        functions.readers.iter().map(|(has, value)| unsafe { (has(state), value(state)) }).collect()
    }

    pub fn has_components(&self, functions: &Functions<N>) -> u32 {
        unsafe { (functions.components.0)(self.state_seen()) }
    }

    pub fn component(&self, functions: &Functions<N>, place: u32) -> f64 {
        unsafe { (functions.components.1)(self.state_seen(), place) }
    }

    /// The result of a call, as the lists of the other side write it.
    fn show(&self, functions: &Functions<N>, number: u32, accepted: bool, out: &mut Output) {
        let [cut, ts, score, bits, numbers @ ..] = self.answer() else { panic!("an answer has 13 words") };
        let (deltas, sums) = numbers.split_at(4);
        let maybe = |out: &mut Output, tag: u64, word: u64| {
            out.0.push(tag as u8);
            (tag != 0).then(|| out.long(word));
        };
        out.word(number);
        maybe(out, *cut * accepted as u64, ts.wrapping_add(1 << 63));
        maybe(out, *score * accepted as u64, *bits);
        deltas.iter().for_each(|&word| out.long(if accepted { word } else { 0 }));
        for &word in sums {
            // a word that 32 bits do not hold is put out whole, as no list has it
            match u32::try_from(if accepted { word } else { 0 }) {
                Ok(number) => out.word(number),
                Err(_) => out.long(word),
            }
        }
        let shown = self.read(functions);
        maybe(out, shown[0].0 as u64, shown[0].1.to_bits());
        let has = self.has_components(functions);
        out.0.push(has as u8);
        if has == 1 {
            (0..4).for_each(|place| out.double(self.component(functions, place)));
        }
        if let [_, ratio, target] = shown[..] {
            maybe(out, ratio.0 as u64, ratio.1.to_bits());
            maybe(out, target.0 as u64, target.1.to_bits());
            let window = &self.words()[22..26];
            out.long(window[0]);
            out.long(window[1]);
            maybe(out, window[2], window[3].wrapping_add(1 << 63));
        }
        let n = (self.words()[functions.options + 8] * self.words()[functions.options + 9]) as usize;
        out.0.extend(&self.store[..4 * n + lists::BEHIND]);
    }

    /// The same with a state that is refused: another version, a NaN threshold, a side of 4,097, a flag of 2, a kernel
    /// that is set to a size beyond 32 bits; of a content state also a plan of 17 rows, one without the median 255, and a
    /// count beyond 32 bits.
    fn broken(&self, functions: &Functions<N>, how: u8) -> Self {
        let mut bad = self.clone();
        let words = bad.words_mut();
        match how % if functions.plan.is_some() { 8 } else { 5 } {
            0 => words[0] += 1,
            1 => words[1] = f64::NAN.to_bits(),
            2 => words[functions.options + 8] = 4097,
            3 => words[functions.options] = 2,
            4 => (words[functions.options - 3], words[functions.options - 2]) = (1, 1 << 32),
            5 => words[rules::CONTENT_PLAN] = 17,
            6 => words[rules::CONTENT_PLAN..].copy_from_slice(&Plan::of(&[plan_rules::Row::new(0, 254, 0)]).words()),
            _ => words[rules::CONTENT_PLAN] += 1 << 32,
        }
        bad
    }
}

impl Station<CONTENT_WORDS> {
    /// A settings call with this text in place of the plan of the settings.
    pub fn settle_by_text(&mut self, settings: &Settings, text: &[u8]) -> u32 {
        unsafe { content_new_with_plan(self.state_at(), settings, text) }
    }
}

/// A flag by a number: any but 0 is on.
fn flag(on: bool, r: &[u8]) -> u32 {
    if on { [1, 2, u32::MAX][r[9] as usize % 3] } else { 0 }
}

/// The settings of a list as numbers. A kernel size that is not set is any number.
fn settings(
    r: &[u8],
    threshold: f64,
    min_duration: core::time::Duration,
    w: Components,
    kernel_size: Option<u32>,
    initial_cut: bool,
    own: Own,
) -> Settings {
    Settings {
        threshold,
        min_duration: min_duration.as_micros() as u64,
        weights: [w.delta_hue(), w.delta_sat(), w.delta_lum(), w.delta_edges()],
        has_kernel: flag(kernel_size.is_some(), r),
        kernel_size: kernel_size.unwrap_or(r[9] as u32),
        initial_cut: flag(initial_cut, r),
        own,
    }
}

/// Where there is no plan, one list in two has the empty text.
pub fn content_settings(o: &content::Options, plan: Plan, r: &[u8]) -> Settings {
    let filter_mode = matches!(o.filter_mode(), FilterMode::Suppress) as u32;
    let own = Own::Content { filter_mode, plan, by_text: plan.is_given() || r[15] % 2 == 1 };
    settings(r, o.threshold(), o.min_duration(), o.weights(), o.kernel_size(), o.initial_cut(), own)
}

pub fn adaptive_settings(o: &adaptive::Options, r: &[u8]) -> Settings {
    let own = Own::Adaptive { window_width: o.window_width(), min_content_val: o.min_content_val() };
    settings(r, o.adaptive_threshold(), o.min_duration(), *o.weights(), o.kernel_size(), o.initial_cut(), own)
}

/// The frame that a record of a list describes.
pub fn frame_of<'a>(r: &[u8], film: &'a Film, f: &lists::Frame) -> Frame<'a> {
    let [a, b, c] = [0, 1, 2].map(|i| &film.planes[i][..f.lent[i]]);
    let planes = match r[0] % 32 {
        0..=10 => Planes::Luma(a),
        11..=20 => Planes::Bgr(a),
        _ => Planes::Hsv([a, b, c]),
    };
    Frame { planes, width: f.width, height: f.height, stride: f.stride, ts: film.stamp() }
}

/// The results of a list through the library. A call that is refused must leave state, answer and lent memory as they
/// were, a `clear` all but the state, and no call may write past what it is lent: where one does, a byte that no list
/// has is put out.
fn run<D: Listed, const N: usize>(functions: &Functions<N>, settings: Settings, script: &[u8]) -> Vec<u8> {
    let mut station = Station::blank([lists::STORE, 11520, 1664]);
    let mut out = Output::default();
    out.word(station.settle(functions, &settings));
    let mut film = Film::new(script);
    for r in script.chunks_exact(lists::RECORD).skip(1) {
        film.turn(r);
        let frame = (!D::is_clear(r)).then(|| film.frame(r));
        let bad = lists::is_bad(r);
        let mut given = if bad { station.broken(functions, r[12]) } else { station.clone() };
        let before = given.clone();
        let (number, kept) = match &frame {
            Some(f) => {
                let lent = [f.lent[3], f.lent[4], f.lent[5]];
                (given.call(functions, frame_of(r, &film, f), lent), given.behind_kept(&before, lent))
            }
            None => (given.clear(functions), given.memory_kept(&before)),
        };
        if !(kept && given.guarded() && (number == 0 || given == before)) {
            out.0.push(255);
        }
        if !bad {
            station = given;
        }
        station.show(functions, number, number == 0 && frame.is_some(), &mut out);
    }
    out.0
}

pub fn content_list(script: &[u8]) -> Vec<u8> {
    let settings = content_settings(&content_lists::options(script), content_lists::plan(script), script);
    run::<Planned, _>(&CONTENT, settings, script)
}

pub fn adaptive_list(script: &[u8]) -> Vec<u8> {
    run::<adaptive::Detector, _>(&ADAPTIVE, adaptive_settings(&adaptive_lists::options(script), script), script)
}
