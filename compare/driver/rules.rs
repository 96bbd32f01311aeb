//! The rules of the station library that the Rust has no counterpart for: settings by numbers, the words of a state, the
//! numbers of refused calls. It follows docs/RULES.md and include/mawerodu.h, and is not made from the proved code.
use crate::filter_rules::Rules;
use crate::plan_rules::{self, Plan};
use crate::station::{Frame, Planes};

/// Settings as a settings call gets them. A flag is off for 0 and on for any other number.
#[derive(Clone, Copy, Debug)]
pub struct Settings {
    pub threshold: f64,
    pub min_duration: u64,
    pub weights: [f64; 4],
    pub has_kernel: u32,
    pub kernel_size: u32,
    pub initial_cut: u32,
    pub own: Own,
}

/// What one detector alone has among its settings. A plan is given by its text, or by the empty text, where `by_text` says
/// so; else by the settings call without one.
#[derive(Clone, Copy, Debug)]
pub enum Own {
    Content { filter_mode: u32, plan: Plan, by_text: bool },
    Adaptive { window_width: u32, min_content_val: f64 },
}

pub const CONTENT_DEFAULTS: Settings = Settings {
    threshold: 27.0,
    min_duration: 1_000_000,
    weights: [1.0, 1.0, 1.0, 0.0],
    has_kernel: 0,
    kernel_size: 0,
    initial_cut: 1,
    own: Own::content(0),
};

pub const ADAPTIVE_DEFAULTS: Settings =
    Settings { threshold: 3.0, own: Own::Adaptive { window_width: 2, min_content_val: 15.0 }, ..CONTENT_DEFAULTS };

impl Own {
    /// A filter mode, and no plan.
    pub const fn content(filter_mode: u32) -> Self {
        Own::Content { filter_mode, plan: Plan::NONE, by_text: false }
    }
}

impl Settings {
    /// The number that they are refused by: 10, 11, 6 to 9, 15 for a mode that is neither, and 20 to 22 for the plan; or 0.
    pub fn refusal(&self) -> u32 {
        let (window, least, mode, plan) = match self.own {
            Own::Content { filter_mode, plan, .. } => (1, 0.0, filter_mode, plan.refusal()),
            Own::Adaptive { window_width, min_content_val } => (window_width, min_content_val, 0, 0),
        };
        let k = self.kernel_size;
        first([
            (window == 0, 10),
            (window > 64, 11),
            (self.weights.iter().any(|w| !w.is_finite() || w.abs() > 1048576.0), 6),
            (self.weights.iter().all(|w| *w == 0.0), 7),
            (self.has_kernel != 0 && (k < 3 || k % 2 == 0), 8),
            (self.threshold.is_nan() || least.is_nan(), 9),
            (mode > 1, 15),
            (plan != 0, plan),
        ])
    }

    /// What a filter reads of them. The adaptive detector has the distance alone.
    pub fn filter(&self) -> Rules {
        let suppress = matches!(self.own, Own::Content { filter_mode: 1, .. });
        Rules { suppress, least: self.min_duration, initial_cut: self.initial_cut != 0 }
    }

    /// The words of a fresh state with them, frames of this size having been taken before a `clear`.
    pub fn fresh(&self, width: u64, height: u64) -> Vec<u64> {
        let layout = self.layout();
        let mut words = vec![0; layout.words];
        let shared = [layout.version, self.threshold.to_bits(), self.min_duration];
        let weights = self.weights.map(f64::to_bits);
        let has_kernel = (self.has_kernel != 0) as u64;
        let kernel = [has_kernel, has_kernel * self.kernel_size as u64, (self.initial_cut != 0) as u64];
        let settings = match self.own {
            Own::Content { filter_mode, plan, .. } => {
                words[CONTENT_PLAN..].copy_from_slice(&plan.words());
                [&shared[..], &weights, &[filter_mode as u64], &kernel].concat()
            }
            Own::Adaptive { window_width, min_content_val } => {
                [&shared[..], &[window_width as u64, min_content_val.to_bits()], &weights, &kernel].concat()
            }
        };
        words[..layout.stream].copy_from_slice(&settings);
        (words[layout.width()], words[layout.width() + 1]) = (width, height);
        words
    }

    fn layout(&self) -> &'static Layout {
        match self.own {
            Own::Content { .. } => &CONTENT,
            Own::Adaptive { .. } => &ADAPTIVE,
        }
    }
}

/// The number of the first row that holds, or 0.
fn first<const R: usize>(rows: [(bool, u32); R]) -> u32 {
    rows.into_iter().find(|(holds, _)| *holds).map_or(0, |(_, number)| number)
}

/// Where the words of a state are.
#[derive(Debug)]
pub struct Layout {
    pub version: u64,
    pub words: usize,
    /// The words of the stream come after those of the settings: whether there is a previous frame; has, last score;
    /// has the last components, and the four; width, height. Those of the filter or of the window follow.
    pub stream: usize,
    /// Words that are 0 or 1, and words of 32 bits. The kernel's size is one of these where it is set; else it is not
    /// looked at.
    flags: &'static [usize],
    halves: &'static [usize],
    /// Words that hold a double, those of the settings aside, which a call accepts only if they are not a NaN.
    doubles: fn(usize) -> bool,
}

/// The first word of a content state's plan: the count. The arrays follow.
pub const CONTENT_PLAN: usize = 27;

pub const CONTENT: Layout = Layout {
    version: 0x4d57_434f_4e54_3032,
    words: 34,
    stream: 11,
    flags: &[7, 8, 10, 11, 12, 14, 21, 23, 24, 25],
    halves: &[19, 20, CONTENT_PLAN],
    doubles: |place| matches!(place, 13 | 15..=18),
};

pub const ADAPTIVE: Layout = Layout {
    version: 0x4d57_4144_4150_3031,
    words: 288,
    stream: 12,
    flags: &[9, 11, 12, 13, 15, 24, 26, 28],
    halves: &[3, 20, 21],
    doubles: |place| matches!(place, 14 | 16..=19 | 23 | 27 | 29 | 159..=287),
};

/// What words are: not a record, a bad record, or a state that calls accept. Calls refuse the first two by 15, but
/// readers show a bad record as it is.
#[derive(Clone, Copy, Debug, PartialEq)]
pub enum Judged {
    NoRecord,
    Bad,
    Good,
}

impl Layout {
    pub fn width(&self) -> usize {
        self.stream + 8
    }

    /// Whether there is a kernel's size; the size follows.
    pub fn kernel(&self) -> usize {
        self.stream - 3
    }

    /// The settings in the words of a record.
    pub fn settings(&self, words: &[u64]) -> Settings {
        let double = |place: usize| f64::from_bits(words[place]);
        let (weights, own) = if self.words == CONTENT.words {
            let plan = Plan::of_words(&words[CONTENT_PLAN..]);
            (3, Own::Content { filter_mode: words[7] as u32, plan, by_text: true })
        } else {
            (5, Own::Adaptive { window_width: words[3] as u32, min_content_val: double(4) })
        };
        let kernel = self.kernel();
        Settings {
            threshold: double(1),
            min_duration: words[2],
            weights: [0, 1, 2, 3].map(|i| double(weights + i)),
            has_kernel: words[kernel] as u32,
            kernel_size: words[kernel + 1] as u32,
            initial_cut: words[kernel + 2] as u32,
            own,
        }
    }

    /// The text of the plan that the words hold. Of words that are not a record nothing is shown, of a bad record the rows
    /// that its arrays have.
    pub fn plan_text(&self, words: &[u64]) -> Vec<u8> {
        match self.settings(words).own {
            Own::Content { plan, .. } if self.judged(words) != Judged::NoRecord => plan_rules::text(plan.rows()),
            _ => Vec::new(),
        }
    }

    pub fn judged(&self, words: &[u64]) -> Judged {
        let over = |places: &[usize], most: u64| places.iter().any(|&place| words[place] > most);
        let long_kernel = words[self.kernel()] == 1 && words[self.kernel() + 1] > u32::MAX as u64;
        if words[0] != self.version || over(self.flags, 1) || over(self.halves, u32::MAX as u64) || long_kernel {
            return Judged::NoRecord;
        }
        let settings = self.settings(words);
        let inconsistent = match settings.own {
            // a merge is triggered without start or last stamp
            Own::Content { .. } => words[24] == 1 && !(words[21] == 1 && words[25] == 1),
            Own::Adaptive { window_width, .. } => words[22] > 2 * window_width as u64 + 1,
        };
        let large = words[self.width()] > 4096 || words[self.width() + 1] > 4096;
        if settings.refusal() != 0 || large || inconsistent { Judged::Bad } else { Judged::Good }
    }

    /// The words after a `clear` of a good state.
    pub fn cleared(&self, words: &[u64]) -> Vec<u64> {
        self.settings(words).fresh(words[self.width()], words[self.width() + 1])
    }

    /// The same words as a call writes them: every NaN has one pattern.
    pub fn written(&self, words: &[u64]) -> Vec<u64> {
        let written = |(place, &word): (usize, &u64)| match f64::from_bits(word).is_nan() && (self.doubles)(place) {
            true => NAN,
            false => word,
        };
        words.iter().enumerate().map(written).collect()
    }
}

/// The words of an answer: has, stamp of the cut; has, score; four components; four sums; the count (RULES 4.4).
pub const ANSWER: usize = 13;

/// The word of a NaN (RULES 15.2).
pub const NAN: u64 = 0x7ff8_0000_0000_0000;

/// The memory that a frame of this size needs: bytes of store and scratch, and magnitudes.
pub fn memory(width: u32, height: u32) -> [u64; 3] {
    if width > 4096 || height > 4096 {
        return [0; 3];
    }
    let n = width as u64 * height as u64;
    [4 * n, 7 * n + 2 * width.max(height) as u64, n]
}

/// The number of a frame call: 15, 1 to 5, 12 to 14; or 0.
pub fn frame_refusal(judged: Judged, frame: &Frame, lent: [usize; 3]) -> u32 {
    let Frame { planes, width, height, stride, .. } = *frame;
    let (row, data) = match planes {
        Planes::Luma(plane) => (width as u64, [Some(plane), None, None]),
        Planes::Bgr(pixels) => (3 * width as u64, [Some(pixels), None, None]),
        Planes::Hsv(planes) => (width as u64, planes.map(Some)),
    };
    let need = height as u64 * stride as u64;
    let short = |plane: usize| data[plane].is_some_and(|bytes| (bytes.len() as u64) < need);
    let [store, scratch, magnitudes] = memory(width, height);
    first([
        (judged != Judged::Good, 15),
        (width > 4096 || height > 4096, 1),
        ((stride as u64) < row, 2),
        (short(0), 3),
        (short(1), 4),
        (short(2), 5),
        ((lent[0] as u64) < store, 12),
        ((lent[1] as u64) < scratch, 13),
        ((lent[2] as u64) < magnitudes, 14),
    ])
}
