//! The oracle: the Rust's files, unchanged, under a root of our own. `compare/run` puts them beside this file in
//! target/compare/source; content.rs and adaptive.rs get one line at their end, which declares a child module
//! (content/reach.rs, adaptive/reach.rs) that reaches what is private. SIMD is left out by `--cfg miri`.
#![allow(dead_code, unused_imports)]

pub mod adaptive;
mod arch;
pub mod content;
pub mod frame;
pub mod reach;

// The float functions of the Rust's own lib.rs, as it has them with `std`.
#[inline(always)]
fn sqrt_64(val: f64) -> f64 {
    val.sqrt()
}

#[inline(always)]
fn round_64(val: f64) -> f64 {
    val.round()
}

#[inline(always)]
fn round_32(val: f32) -> f32 {
    val.round()
}
