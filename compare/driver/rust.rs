//! The oracle's answers in the numbers of the table of refusals (RULES 10.1).
use mediatime::Timestamp;
use scenesdetect::frame::{HsvFrame, HsvFrameError, HsvPlane, LumaFrame, LumaFrameError, RgbFrame, RgbFrameError};
use scenesdetect::reach;

pub use reach::{
    auto_kernel_size, bgr_to_hsv_pixel, bgr_to_hsv_planes, copy_plane, edge_plane, marks, mean_abs_diff, sobel,
};
#[cfg(rattle)]
pub use reach::{bgr_to_hsv_planes_into, copy_plane_into, edge_detector, edge_plane_again, median, sobel_into};

/// Refusal 1 is an added row: the Rust has no bound on the sides. It comes before the others.
fn side_over(width: u32, height: u32) -> bool {
    width > 4096 || height > 4096
}

fn stamp() -> Timestamp {
    Timestamp::from_micros(0)
}

pub fn check_luma(data: &[u8], width: u32, height: u32, stride: u32) -> u32 {
    if side_over(width, height) {
        return 1;
    }
    match LumaFrame::try_new(data, width, height, stride, stamp()) {
        Ok(_) => 0,
        Err(LumaFrameError::StrideTooSmall { .. }) => 2,
        Err(LumaFrameError::DataTooShort { .. }) => 3,
        Err(e) => panic!("{e:?} can't happen on 64 bits"),
    }
}

pub fn check_bgr(data: &[u8], width: u32, height: u32, stride: u32) -> u32 {
    if side_over(width, height) {
        return 1;
    }
    match RgbFrame::try_new(data, width, height, stride, stamp()) {
        Ok(_) => 0,
        Err(RgbFrameError::StrideTooSmall { .. }) => 2,
        Err(RgbFrameError::DataTooShort { .. }) => 3,
        Err(e) => panic!("{e:?} can't happen on 64 bits with a width of at most 4,096"),
    }
}

pub fn check_hsv(h: &[u8], s: &[u8], v: &[u8], width: u32, height: u32, stride: u32) -> u32 {
    if side_over(width, height) {
        return 1;
    }
    match HsvFrame::try_new(h, s, v, width, height, stride, stamp()) {
        Ok(_) => 0,
        Err(HsvFrameError::StrideTooSmall { .. }) => 2,
        Err(HsvFrameError::PlaneTooShort { plane, .. }) => match plane {
            HsvPlane::Hue => 3,
            HsvPlane::Saturation => 4,
            HsvPlane::Value => 5,
        },
        Err(e) => panic!("{e:?} can't happen on 64 bits"),
    }
}

/// The whole sum that the Rust divides by n and does not give out. Up to 2^24 pixels no two sums have one mean, so
/// the mean tells it.
pub fn sum_of(mean: f64, n: usize) -> u32 {
    let sum = (mean * n as f64).round();
    assert!(n == 0 || sum / n as f64 == mean);
    sum as u32
}
