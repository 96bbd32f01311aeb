//! What a run finds out: a record for each frame, and the clips between the cuts.
use crate::frame::{Fault, Format, Size};
use crate::plan::Plan;
use mawerodu::{AdaptiveOptions, Components, ContentOptions};

/// A detector with its settings.
#[derive(Clone, Copy, Debug, PartialEq)]
pub enum Settings {
    Content(ContentOptions),
    Adaptive(AdaptiveOptions),
}

/// One frame, as it was judged.
#[derive(Clone, Copy, Debug, PartialEq)]
pub struct Frame {
    /// When it is shown, in microseconds.
    pub at: i64,
    /// `None` for the first frame.
    pub score: Option<f64>,
    /// Four times 0 where there is no score.
    pub components: Components,
    /// In the adaptive detector, of a frame that was judged: its score by the average of those around it.
    pub ratio: Option<f64>,
    /// The median of its luma, if that was asked for.
    pub median: Option<u8>,
    /// With a light plan: the threshold of the row that has this median.
    pub threshold: Option<f64>,
    /// Whether it is a cut: the first frame of a clip.
    pub cut: bool,
}

/// From one cut to the next.
#[derive(Clone, Copy, Debug, PartialEq, Eq)]
pub struct Clip {
    /// From 1 on.
    pub number: usize,
    /// The place of its first frame, from 0 on.
    pub first: usize,
    /// How many frames it has.
    pub frames: usize,
    /// When its first frame is shown, in microseconds.
    pub start: i64,
    /// When the next clip starts, or the film ends.
    pub end: i64,
}

/// A film that was read, to its end or to a fault.
#[derive(Clone, Debug)]
pub struct Film {
    /// As it was given on the command line, or `demo`.
    pub name: String,
    pub size: Size,
    pub format: Format,
    pub settings: Settings,
    /// The light plan, if there is one.
    pub plan: Option<Plan>,
    pub frames: Vec<Frame>,
    /// When the last frame ends, in microseconds.
    pub end: i64,
    /// Whether it was read to its end.
    pub ended: bool,
    /// Why it was not, or, if it was, what was wrong with it all the same.
    pub fault: Option<Fault>,
}

impl Film {
    /// A line for a film that was not read to its end, or is damaged.
    pub fn lacks(&self) -> Option<String> {
        let fault = self.fault.as_ref()?;
        Some(match (self.ended, self.frames.is_empty()) {
            (true, _) => format!("damaged: {fault}; frames may be missing or wrong"),
            (false, false) => format!("incomplete: {fault}; these are the clips up to there"),
            (false, true) => format!("incomplete: {fault}"),
        })
    }

    /// The clips, in order: the first starts with the film, each other one with a cut. A film without frames has none.
    pub fn clips(&self) -> Vec<Clip> {
        let mut starts: Vec<usize> =
            (0..self.frames.len()).filter(|&place| place == 0 || self.frames[place].cut).collect();
        starts.push(self.frames.len());
        let at = |place: usize| self.frames.get(place).map_or(self.end, |frame| frame.at);
        let clip = |(before, pair): (usize, &[usize])| Clip {
            number: before + 1,
            first: pair[0],
            frames: pair[1] - pair[0],
            start: at(pair[0]),
            end: at(pair[1]),
        };
        starts.windows(2).enumerate().map(clip).collect()
    }
}
