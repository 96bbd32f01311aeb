//! Frames into a detector, and what it says of each.
use crate::frame::{Fault, Format, Shown, Size};
use crate::plan::Plan;
use crate::record::{Frame, Settings};
use mawerodu::{AdaptiveDetector, Answer, ContentDetector, Refusal};

/// Words of a content detector's state in the mode Merge (`mawerodu.h`, "Layout of the words"): whether there is a last
/// frame above, and behind it its stamp; 1 if a merge is pending; whether a merge has started, and behind it when.
const LAST_ABOVE: usize = 21;
const MERGE_PENDING: usize = 24;
const MERGE_START: usize = 25;

enum Detector {
    Content(Box<ContentDetector>),
    Adaptive(Box<AdaptiveDetector>),
}

/// A detector, and a record of each frame that it has seen.
pub struct Judge {
    pub settings: Settings,
    pub plan: Option<Plan>,
    detector: Detector,
    /// Whether the luma median of each frame is asked for.
    medians: bool,
    pub frames: Vec<Frame>,
}

impl Judge {
    /// With the text of a light plan, which is empty if there is none, for the content detector. Refused if a setting
    /// or the plan is.
    pub fn new(settings: Settings, plan: &[u8]) -> Result<Judge, Refusal> {
        let (detector, plan) = match settings {
            Settings::Content(options) => {
                let detector = ContentDetector::with_plan(options, plan)?;
                let plan = Plan::of(&detector.plan());
                (Detector::Content(Box::new(detector)), plan)
            }
            Settings::Adaptive(options) => {
                (Detector::Adaptive(Box::new(AdaptiveDetector::with_options(options)?)), None)
            }
        };
        Ok(Judge { settings, medians: plan.is_some(), plan, detector, frames: Vec::new() })
    }

    /// The same with the luma median of each frame, which a light plan asks for by itself.
    pub fn with_medians(self) -> Judge {
        Judge { medians: true, ..self }
    }

    /// Judges the next frame.
    pub fn frame(&mut self, pixels: &[u8], size: Size, format: Format, shown: Shown) -> Result<(), Fault> {
        let answer = self
            .process(pixels, size, format, shown.at)
            .map_err(|refusal| Fault(format!("frame {} is refused by {refusal}", self.frames.len() + 1)))?;
        let Answer { score, components, .. } = answer;
        let median = self.median();
        let threshold = self.plan.as_ref().zip(median).map(|(plan, median)| plan.threshold(median));
        self.frames.push(Frame { at: shown.at, score, components, ratio: None, median, threshold, cut: false });
        self.judged();
        match answer.cut {
            Some(cut) => self.cut(cut),
            None => Ok(()),
        }
    }

    fn process(&mut self, pixels: &[u8], size: Size, format: Format, at: i64) -> Result<Answer, Refusal> {
        let Size { width, height } = size;
        let stride = width.saturating_mul(format.bytes());
        match (&mut self.detector, format) {
            (Detector::Content(detector), Format::Bgr24) => detector.process_bgr(pixels, width, height, stride, at),
            (Detector::Content(detector), Format::Gray) => detector.process_luma(pixels, width, height, stride, at),
            (Detector::Adaptive(detector), Format::Bgr24) => detector.process_bgr(pixels, width, height, stride, at),
            (Detector::Adaptive(detector), Format::Gray) => detector.process_luma(pixels, width, height, stride, at),
        }
    }

    /// The luma median of the last frame, if it is asked for.
    fn median(&self) -> Option<u8> {
        match &self.detector {
            _ if !self.medians => None,
            Detector::Content(detector) => detector.last_luma_median(),
            Detector::Adaptive(detector) => detector.last_luma_median(),
        }
    }

    /// The place of the frame that the adaptive detector has judged last, if its window is full.
    fn target(&self) -> Option<usize> {
        let Settings::Adaptive(options) = self.settings else { return None };
        let window = options.window_width as usize;
        // the first frame has no score
        (self.frames.len() > 2 * window + 1).then(|| self.frames.len() - 1 - window)
    }

    fn judged(&mut self) {
        if let (Some(place), Detector::Adaptive(detector)) = (self.target(), &self.detector) {
            self.frames[place].ratio = detector.last_adaptive_ratio();
        }
    }

    /// Marks the frame of a cut: the target, or the last frame above that has this stamp.
    fn cut(&mut self, cut: i64) -> Result<(), Fault> {
        let place = match self.settings {
            Settings::Adaptive(_) => self.target(),
            Settings::Content(options) => {
                let threshold = |frame: &Frame| frame.threshold.unwrap_or(options.threshold);
                let above = |frame: &Frame| frame.score.is_some_and(|score| score >= threshold(frame));
                self.frames.iter().rposition(|frame| frame.at == cut && above(frame))
            }
        };
        match place.and_then(|place| self.frames.get_mut(place)) {
            Some(frame) if frame.at == cut => {
                frame.cut = true;
                Ok(())
            }
            _ => Err(Fault(format!("a cut is reported at {cut}, where the film has no such frame"))),
        }
    }

    /// The stamp of the cut that is held back when the film ends: that of a merge that is pending and long enough.
    pub fn held_back(&self) -> Option<i64> {
        let (Detector::Content(detector), Settings::Content(options)) = (&self.detector, self.settings) else {
            return None;
        };
        let words = detector.state();
        let stamp = |has: usize| (words[has] == 1).then_some(words[has + 1] as i64);
        let (above, start) = (stamp(LAST_ABOVE)?, stamp(MERGE_START)?);
        let lasts = i128::from(above) - i128::from(start);
        let long = lasts >= i128::from(options.min_duration) || options.min_duration == 0;
        (words[MERGE_PENDING] == 1 && long).then_some(above)
    }
}

#[cfg(test)]
mod tests {
    use super::*;
    use mawerodu::{AdaptiveOptions, ContentOptions};

    /// With a minimum of 0 a merge can start only where stamps fall, and then its length does not matter: the next
    /// quiet frame that is not earlier ends it.
    #[test]
    fn a_cut_is_held_back_where_stamps_fall() {
        let options = ContentOptions { min_duration: 0, ..ContentOptions::luma_only() };
        let mut judge = Judge::new(Settings::Content(options), b"").unwrap();
        let size = Size { width: 1, height: 1 };
        let mut held = Vec::new();
        for (at, luma) in [(0, 0), (10, 200), (5, 0), (3, 200), (4, 200)] {
            judge.frame(&[luma], size, Format::Gray, Shown { at, until: None }).unwrap();
            held.push(judge.held_back());
        }
        assert_eq!(held, [None, None, Some(5), Some(3), None]);
        let cuts: Vec<i64> = judge.frames.iter().filter(|frame| frame.cut).map(|frame| frame.at).collect();
        assert_eq!(cuts, [10, 3]);
    }

    /// Frames of one stamp: the cut is the one that is above by its own row, and not the one after it, whose score is
    /// higher.
    #[test]
    fn a_cut_is_above_by_the_row_of_its_own_median() {
        let options = ContentOptions { min_duration: 0, ..ContentOptions::luma_only() };
        let mut judge = Judge::new(Settings::Content(options), b"0,99,8\n100,255,200\n").unwrap();
        let size = Size { width: 1, height: 1 };
        for luma in [40, 50, 150, 151] {
            judge.frame(&[luma], size, Format::Gray, Shown { at: 7, until: None }).unwrap();
        }
        let found: Vec<_> = judge.frames.iter().map(|frame| (frame.median, frame.threshold, frame.cut)).collect();
        let [dim, bright] = [Some(8.0), Some(200.0)];
        let known =
            [(Some(40), dim, false), (Some(50), dim, true), (Some(150), bright, false), (Some(151), bright, false)];
        assert_eq!(found, known);
    }

    #[test]
    fn medians_are_there_where_they_are_asked_for() {
        let size = Size { width: 2, height: 2 };
        let pixels = [[1, 2, 9], [7, 3, 0], [5, 5, 5], [0, 0, 8]].concat();
        for settings in [Settings::Content(ContentOptions::default()), Settings::Adaptive(AdaptiveOptions::default())] {
            for (asked, median) in [(false, None), (true, Some(8))] {
                let judge = Judge::new(settings, b"").unwrap();
                let mut judge = if asked { judge.with_medians() } else { judge };
                judge.frame(&pixels, size, Format::Bgr24, Shown { at: 0, until: None }).unwrap();
                assert_eq!(judge.frames[0].median, median);
            }
        }
    }
}
