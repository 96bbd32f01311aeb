//! The crate-internal functions of arch.rs, for the driver, always on the scalar path.
use crate::arch;
use crate::frame::ChannelOrder;

pub use crate::content::reach::{
    auto_kernel_size, copy_plane_into, edge_detector, edge_plane, edge_plane_again, marks, median,
};

#[inline]
pub fn bgr_to_hsv_pixel(b: u8, g: u8, r: u8) -> (u8, u8, u8) {
    arch::bgr_to_hsv_pixel(b as f32, g as f32, r as f32)
}

/// The three planes of an accepted frame, one after the other.
pub fn bgr_to_hsv_planes_into(out: &mut [u8], src: &[u8], width: u32, height: u32, stride: u32) {
    let n = width as usize * height as usize;
    let (h, rest) = out.split_at_mut(n);
    let (s, v) = rest.split_at_mut(n);
    arch::bgr_to_hsv_planes(h, s, v, src, width, height, stride, ChannelOrder::Bgr, false);
}

pub fn bgr_to_hsv_planes(src: &[u8], width: u32, height: u32, stride: u32) -> Vec<u8> {
    let mut out = vec![0; 3 * width as usize * height as usize];
    bgr_to_hsv_planes_into(&mut out, src, width, height, stride);
    out
}

/// The packed plane of an accepted frame.
pub fn copy_plane(src: &[u8], width: u32, height: u32, stride: u32) -> Vec<u8> {
    let mut out = vec![0; width as usize * height as usize];
    copy_plane_into(&mut out, src, width, height, stride);
    out
}

/// The mean absolute difference of two planes of one length.
pub fn mean_abs_diff(a: &[u8], b: &[u8]) -> f64 {
    arch::mean_abs_diff(a, b, a.len(), false)
}

/// Magnitudes and directions.
pub fn sobel_into(mag: &mut [i32], dir: &mut [u8], input: &[u8], width: u32, height: u32) {
    arch::sobel(input, mag, dir, width as usize, height as usize, false);
}

pub fn sobel(input: &[u8], width: u32, height: u32) -> (Vec<i32>, Vec<u8>) {
    let n = width as usize * height as usize;
    let (mut mag, mut dir) = (vec![0; n], vec![0; n]);
    sobel_into(&mut mag, &mut dir, input, width, height);
    (mag, dir)
}
