//! A child module of adaptive.rs: its private state, for the driver.
use crate::content;
use crate::frame::Timestamp;

/// The detector that scores the frames.
pub fn inner(detector: &super::Detector) -> &content::Detector {
    &detector.inner
}

/// How many scores the window holds, their running sum, and the last cut or the seed.
pub fn window(detector: &super::Detector) -> (u64, f64, Option<Timestamp>) {
    (detector.buffer.len() as u64, detector.buffer_sum, detector.last_cut_ts)
}
