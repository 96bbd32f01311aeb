//! The Rattle side: the C functions of the crates `compare_exports` and `compare_session`. A slice passes as its address and its length.

mod c {
    unsafe extern "C" {
        pub fn mw_bgr_to_hsv_pixel(b: u8, g: u8, r: u8) -> u32;
        pub fn mw_bgr_to_hsv_planes(
            out: *mut u8,
            out_len: usize,
            src: *const u8,
            src_len: usize,
            width: u32,
            height: u32,
            stride: u32,
        ) -> u32;
        pub fn mw_copy_plane(
            out: *mut u8,
            out_len: usize,
            src: *const u8,
            src_len: usize,
            width: u32,
            height: u32,
            stride: u32,
        ) -> u32;
        pub fn mw_mean_abs_diff(out: *mut [u64; 3], a: *const u8, a_len: usize, b: *const u8, b_len: usize);
        pub fn mw_sobel(
            mag: *mut i32,
            mag_len: usize,
            dir: *mut u8,
            dir_len: usize,
            input: *const u8,
            input_len: usize,
            width: u32,
            height: u32,
        ) -> u32;
        pub fn mw_check_luma(data: *const u8, len: usize, width: u32, height: u32, stride: u32) -> u32;
        pub fn mw_check_bgr(data: *const u8, len: usize, width: u32, height: u32, stride: u32) -> u32;
        pub fn mw_check_hsv(
            h: *const u8,
            h_len: usize,
            s: *const u8,
            s_len: usize,
            v: *const u8,
            v_len: usize,
            width: u32,
            height: u32,
            stride: u32,
        ) -> u32;
        pub fn mw_edge_plane(
            edges: *mut u8,
            edges_len: usize,
            mag: *mut i32,
            mag_len: usize,
            luma: *const u8,
            luma_len: usize,
            width: u32,
            height: u32,
            k: u32,
        ) -> u32;
        pub fn mw_median(luma: *const u8, len: usize) -> u8;
        pub safe fn mw_low_threshold(median: u8) -> u8;
        pub safe fn mw_high_threshold(median: u8) -> u8;
        pub safe fn mw_auto_kernel_size(width: u32, height: u32) -> u32;
        pub fn mw_content_list(script: *const u8, script_len: usize, out: *mut u8, out_len: usize) -> u64;
        pub fn mw_adaptive_list(script: *const u8, script_len: usize, out: *mut u8, out_len: usize) -> u64;
        pub fn mw_session(input: *const u8, input_len: usize, size: usize, out: *mut u8, out_len: usize) -> u64;
        pub safe fn mw_is_earlier(ts: i64, earlier: i64) -> u32;
        pub safe fn mw_duration_since(ts: i64, earlier: i64) -> u64;
        pub safe fn mw_saturating_sub_duration(ts: i64, d: u64) -> i64;
    }
}

pub use c::{
    mw_auto_kernel_size, mw_duration_since, mw_high_threshold, mw_is_earlier, mw_low_threshold,
    mw_saturating_sub_duration,
};

pub fn bgr_to_hsv_pixel(b: u8, g: u8, r: u8) -> u32 {
    // SAFETY: it takes and gives numbers alone, as do the stamp functions.
    unsafe { c::mw_bgr_to_hsv_pixel(b, g, r) }
}

// SAFETY of the calls below: each address and length are those of a slice that lives through the call, a slice lent
// to be written is not shared, and the contracts ask nothing more (no `requires`).

pub fn bgr_to_hsv_planes(out: &mut [u8], src: &[u8], width: u32, height: u32, stride: u32) -> u32 {
    unsafe { c::mw_bgr_to_hsv_planes(out.as_mut_ptr(), out.len(), src.as_ptr(), src.len(), width, height, stride) }
}

pub fn copy_plane(out: &mut [u8], src: &[u8], width: u32, height: u32, stride: u32) -> u32 {
    unsafe { c::mw_copy_plane(out.as_mut_ptr(), out.len(), src.as_ptr(), src.len(), width, height, stride) }
}

/// The sum, the count, and the bits of the mean.
pub fn mean_abs_diff(a: &[u8], b: &[u8]) -> [u64; 3] {
    let mut out = [u64::MAX; 3];
    unsafe { c::mw_mean_abs_diff(&mut out, a.as_ptr(), a.len(), b.as_ptr(), b.len()) };
    out
}

pub fn sobel(mag: &mut [i32], dir: &mut [u8], input: &[u8], width: u32, height: u32) -> u32 {
    unsafe {
        c::mw_sobel(
            mag.as_mut_ptr(),
            mag.len(),
            dir.as_mut_ptr(),
            dir.len(),
            input.as_ptr(),
            input.len(),
            width,
            height,
        )
    }
}

pub fn check_luma(data: &[u8], width: u32, height: u32, stride: u32) -> u32 {
    unsafe { c::mw_check_luma(data.as_ptr(), data.len(), width, height, stride) }
}

pub fn check_bgr(data: &[u8], width: u32, height: u32, stride: u32) -> u32 {
    unsafe { c::mw_check_bgr(data.as_ptr(), data.len(), width, height, stride) }
}

pub fn check_hsv(h: &[u8], s: &[u8], v: &[u8], width: u32, height: u32, stride: u32) -> u32 {
    unsafe { c::mw_check_hsv(h.as_ptr(), h.len(), s.as_ptr(), s.len(), v.as_ptr(), v.len(), width, height, stride) }
}

pub fn edge_plane(edges: &mut [u8], mag: &mut [i32], luma: &[u8], width: u32, height: u32, k: u32) -> u32 {
    unsafe {
        c::mw_edge_plane(
            edges.as_mut_ptr(),
            edges.len(),
            mag.as_mut_ptr(),
            mag.len(),
            luma.as_ptr(),
            luma.len(),
            width,
            height,
            k,
        )
    }
}

pub fn median(luma: &[u8]) -> u8 {
    unsafe { c::mw_median(luma.as_ptr(), luma.len()) }
}

/// The results of a list of content calls, written to `out`; the rest of `out` stays.
pub fn content_list<'a>(script: &[u8], out: &'a mut [u8]) -> &'a [u8] {
    let count = unsafe { c::mw_content_list(script.as_ptr(), script.len(), out.as_mut_ptr(), out.len()) };
    &out[..count as usize]
}

/// The same of a list of adaptive calls.
pub fn adaptive_list<'a>(script: &[u8], out: &'a mut [u8]) -> &'a [u8] {
    let count = unsafe { c::mw_adaptive_list(script.as_ptr(), script.len(), out.as_mut_ptr(), out.len()) };
    &out[..count as usize]
}

/// How many bytes of `out` the whole output of the input took, fed in chunks of `size` bytes (0: the whole); 0: no room.
pub fn session(input: &[u8], size: usize, out: &mut [u8]) -> usize {
    unsafe { c::mw_session(input.as_ptr(), input.len(), size, out.as_mut_ptr(), out.len()) as usize }
}
