//! The adaptive detector in lists of its calls.
use crate::lists::{self, Listed, Output};
use mediatime::Timestamp;
use scenesdetect::adaptive::{Detector, Error, Options, reach};
use scenesdetect::content;
use scenesdetect::frame::{HsvFrame, LumaFrame, RgbFrame};

fn window_width(b: u8) -> u32 {
    let v = b as u32 / 4;
    match v {
        _ if b % 2 == 1 => v + 1,
        0 => 0,
        1 => 65,
        2 => u32::MAX,
        3 => 64,
        _ => v % 4 + 1,
    }
}

pub fn options(r: &[u8]) -> Options {
    Options::new()
        .with_adaptive_threshold(lists::threshold(r[0], r[1] as f64 / 64.0))
        .with_min_duration(lists::minimum(r))
        .with_window_width(window_width(r[7]))
        .with_min_content_val(lists::threshold(r[14], r[15] as f64 / 4.0 - 16.0))
        .with_weights(lists::weights(r))
        .with_kernel_size(lists::kernel(r))
        .with_initial_cut(lists::initial_cut(r))
        .with_simd(false)
}

/// The number of the settings call, and the detector. Rows 6, 9 and 11 are added, so the Rust takes such settings.
pub fn settled(options: Options) -> (u32, Detector) {
    let refusal = match Detector::try_new(options.clone()) {
        Err(Error::ZeroWindowWidth) => 10,
        _ if options.window_width() > 64 => 11,
        _ if !lists::weights_fit(*options.weights()) => 6,
        Err(Error::Content(content::Error::ZeroWeights)) => 7,
        Err(Error::Content(content::Error::InvalidKernelSize(_))) => 8,
        Err(e) => panic!("{e:?} is not in the table of refusals"),
        Ok(_) if options.adaptive_threshold().is_nan() || options.min_content_val().is_nan() => 9,
        Ok(detector) => return (0, detector),
    };
    (refusal, Detector::new(Options::new().with_simd(false)))
}

impl Listed for Detector {
    fn settled(r: &[u8]) -> (u32, Self) {
        settled(options(r))
    }

    fn is_clear(r: &[u8]) -> bool {
        r[0] % 32 == 0 && r[3] % 4 == 0
    }

    fn clear(&mut self) {
        self.clear();
    }

    fn luma(&mut self, frame: LumaFrame<'_>) -> Option<Timestamp> {
        self.process_luma(frame)
    }

    fn bgr(&mut self, frame: RgbFrame<'_>) -> Option<Timestamp> {
        self.process_bgr(frame)
    }

    fn hsv(&mut self, frame: HsvFrame<'_>) -> Option<Timestamp> {
        self.process_hsv(frame)
    }

    fn scorer(&self) -> &content::Detector {
        reach::inner(self)
    }

    fn show(&self, out: &mut Output) {
        let (count, sum, last_cut) = reach::window(self);
        out.score(self.last_adaptive_ratio());
        out.score(self.last_target_score());
        out.long(count);
        out.double(sum);
        out.stamp(last_cut);
    }
}
