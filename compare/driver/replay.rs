//! What the replay programs and `marks` must print, worked out by the oracle, or by the rules where the Rust has no counterpart:
//! their stored `stdout`. README.md states the batches in words.
use crate::content_lists::Planned;
use crate::generator::{Digest, Generator};
use crate::lists::{self, Listed};
use crate::{adaptive_lists, rust};
use mediatime::Timestamp;
use scenesdetect::adaptive;
use scenesdetect::content::{Components, LUMA_ONLY_WEIGHTS};
use scenesdetect::frame::LumaFrame;
use std::fmt::Write;

/// The programs by name, with what each prints.
pub fn outputs() -> [(&'static str, String); 9] {
    [
        ("replay_hsv", pixels()),
        ("replay_planes", planes()),
        ("replay_edges", edges()),
        ("replay_filter", crate::replay_filter::lines()),
        ("replay_content", batches::<Planned>(|c| c % 24 + 1)),
        ("replay_adaptive", adaptive()),
        ("replay_list", crate::replay_list::lines()),
        ("replay_plan", crate::replay_plan::lines()),
        ("marks", marks_table()),
    ]
}

const MOST: u32 = 40;

/// The heights and kinds of one width's batch.
fn cases() -> impl Iterator<Item = (u32, u32)> {
    (0..(MOST + 1) * 4).map(|c| (c / 4, c % 4))
}

fn pixels() -> String {
    let mut out = String::new();
    for part in 0..16u32 {
        let mut digest = Digest::new();
        for p in part << 20..(part + 1) << 20 {
            let (h, s, v) = rust::bgr_to_hsv_pixel((p >> 16) as u8, (p >> 8) as u8, p as u8);
            digest.bytes(&[h, s, v]);
        }
        writeln!(out, "hsv {part} {}", digest.value()).unwrap();
    }
    out
}

fn planes() -> String {
    let mut out = String::new();
    let batches: [(&str, fn(u32) -> u32); 5] = [
        ("copy_plane", copy_plane),
        ("bgr_to_hsv_planes", bgr_to_hsv_planes),
        ("mean_abs_diff", mean_abs_diff),
        ("sobel", sobel),
        ("frame", frame),
    ];
    for (name, batch) in batches {
        for width in 0..=MOST {
            writeln!(out, "{name} {width} {}", batch(width)).unwrap();
        }
    }
    writeln!(out, "sides 343 {}", sides()).unwrap();
    for count in [8, 7] {
        writeln!(out, "sample {count} {}", rust::check_luma(&vec![0; count], 3, 2, 4)).unwrap();
    }
    out
}

fn copy_plane(width: u32) -> u32 {
    let (mut generator, mut digest) = (Generator(width), Digest::new());
    for (height, kind) in cases() {
        let stride = width + kind;
        let src = generator.shades((height * stride) as usize, kind);
        digest.bytes(&rust::copy_plane(&src, width, height, stride));
    }
    digest.value()
}

fn bgr_to_hsv_planes(width: u32) -> u32 {
    let (mut generator, mut digest) = (Generator(width), Digest::new());
    for (height, kind) in cases() {
        let stride = 3 * width + kind;
        let src = generator.shades((height * stride) as usize, kind);
        digest.bytes(&rust::bgr_to_hsv_planes(&src, width, height, stride));
    }
    digest.value()
}

fn mean_abs_diff(width: u32) -> u32 {
    let (mut generator, mut digest) = (Generator(width), Digest::new());
    for (height, kind) in cases() {
        let n = (width * height) as usize;
        let a = generator.shades(n, kind);
        let b = generator.shades(n, 0);
        let mean = rust::mean_abs_diff(&a, &b);
        digest.word(rust::sum_of(mean, n));
        digest.word(n as u32);
        digest.double(mean);
    }
    digest.value()
}

fn sobel(width: u32) -> u32 {
    let (mut generator, mut digest) = (Generator(width), Digest::new());
    for (height, kind) in cases() {
        let input = generator.shades((width * height) as usize, kind);
        let (mag, dir) = rust::sobel(&input, width, height);
        for m in mag {
            digest.word(m as u32);
        }
        digest.bytes(&dir);
    }
    digest.value()
}

fn below(n: u32) -> u32 {
    n.saturating_sub(1)
}

fn frame(width: u32) -> u32 {
    let mut digest = Digest::new();
    for (height, kind) in cases() {
        for stride in [width + kind, below(width)] {
            around(&mut digest, rust::check_luma, width, height, stride);
            planes_short(&mut digest, width, height, stride);
        }
        for stride in [3 * width + kind, below(3 * width)] {
            around(&mut digest, rust::check_bgr, width, height, stride);
        }
    }
    digest.value()
}

type Check = fn(&[u8], u32, u32, u32) -> u32;

/// One byte less than needed, as many, and one more.
fn around(digest: &mut Digest, check: Check, width: u32, height: u32, stride: u32) {
    let need = height * stride;
    for count in [below(need), need, need + 1] {
        digest.word(check(&vec![0; count as usize], width, height, stride));
    }
}

/// No plane short, then each of the three.
fn planes_short(digest: &mut Digest, width: u32, height: u32, stride: u32) {
    let need = (height * stride) as usize;
    let full = vec![0; need];
    let short = &full[..need.saturating_sub(1)];
    for (h, s, v) in
        [(&full[..], &full[..], &full[..]), (short, &full, &full), (&full, short, &full), (&full, &full, short)]
    {
        digest.word(rust::check_hsv(h, s, v, width, height, stride));
    }
}

/// Sides about 4,096 and about 2^32, no bytes.
fn sides() -> u32 {
    let sides = [0, 1, 4095, 4096, 4097, u32::MAX / 3 + 1, u32::MAX];
    let mut digest = Digest::new();
    for width in sides {
        for height in sides {
            for stride in sides {
                digest.word(rust::check_luma(&[], width, height, stride));
                digest.word(rust::check_bgr(&[], width, height, stride));
                digest.word(rust::check_hsv(&[], &[], &[], width, height, stride));
            }
        }
    }
    digest.value()
}

/// Frames that show a trap: sweeping until still differs on the first, thinning on magnitudes capped at 255 on the
/// second.
const STILL: [u8; 28] = [
    193, 131, 131, 131, 131, 193, 131, 131, 193, 131, 131, 131, 131, 193, 131, 131, 131, 131, 131, 131, 193, 131, 131,
    131, 193, 131, 131, 193,
];
const CAPPED: [u8; 12] = [150, 171, 187, 167, 194, 166, 158, 56, 180, 158, 56, 56];

fn edges() -> String {
    let mut out = String::new();
    for width in 0..=24 {
        writeln!(out, "edges {width} {}", edge_planes(width, 25)).unwrap();
    }
    for width in 25..=100 {
        writeln!(out, "wide {width} {}", edge_planes(width, 6)).unwrap();
    }
    for (name, luma, width, height) in [("still", &STILL[..], 7, 4), ("capped", &CAPPED, 3, 4)] {
        let mut digest = Digest::new();
        digest.bytes(&rust::edge_plane(luma, width, height, 3));
        writeln!(out, "{name} {} {}", luma.len(), digest.value()).unwrap();
    }
    writeln!(out, "marks 256 {}", marks()).unwrap();
    writeln!(out, "auto_kernel_size 65536 {}", windows()).unwrap();
    out
}

fn edge_planes(width: u32, heights: u32) -> u32 {
    let (mut generator, mut digest) = (Generator(width), Digest::new());
    for c in 0..heights * 24 {
        let (height, kind, k) = (c / 24, c / 4 % 6, [3, 5, 13, 101][c as usize % 4]);
        let luma = generator.shades((width * height) as usize, kind);
        digest.bytes(&rust::edge_plane(&luma, width, height, k));
    }
    digest.value()
}

fn marks() -> u32 {
    let mut digest = Digest::new();
    for median in 0..=255 {
        let (low, high) = rust::marks(median);
        digest.bytes(&[low, high]);
    }
    digest.value()
}

/// The marks of each median as text: a header, then a row for each.
fn marks_table() -> String {
    let mut out = String::from("median,low,high\n");
    for median in 0..=255 {
        let (low, high) = rust::marks(median);
        writeln!(out, "{median},{low},{high}").unwrap();
    }
    out
}

fn windows() -> u32 {
    let mut digest = Digest::new();
    for c in 0..65536 {
        digest.word(rust::auto_kernel_size(c / 16, c % 16 * 273));
    }
    digest.value()
}

/// Bytes that a replay has room for. What a list writes past them is left out.
const ROOM: usize = 160_000;

/// Lists of calls, 256 to a batch, of as many calls as `count` says.
fn batches<D: Listed>(count: fn(usize) -> usize) -> String {
    let mut out = String::new();
    let mut generator = Generator(0);
    for batch in 0..80 {
        let mut digest = Digest::new();
        for c in 0..256 {
            let (bytes, _, scored) = lists::run::<D>(&generator.shades((count(c) + 1) * lists::RECORD, 0));
            // the comparison has a row for this; where outputs are only written there is none
            assert!(cfg!(rattle) || scored.iter().all(|frame| frame.sums.means() == frame.components()));
            digest.bytes(&bytes[..bytes.len().min(ROOM)]);
        }
        writeln!(out, "lists {batch} {}", digest.value()).unwrap();
    }
    out
}

/// Lists of adaptive calls, then samples of RULES 13.2 and an average of exactly 1e-5.
fn adaptive() -> String {
    let mut out = batches::<adaptive::Detector>(|c| if c % 64 == 63 { 240 } else { c % 24 + 1 });
    let luma = LUMA_ONLY_WEIGHTS;
    let exact = Components::new(99999.0, 0.0, 1.0, 0.0);
    let below = Components::new(100000.0, 0.0, 1.0, 0.0);
    for (name, least, weights, bytes) in [
        ("scores_1_30_1", 15, luma, [0, 1, 31, 32]),
        ("scores_0_30_0", 15, luma, [0, 0, 30, 30]),
        ("scores_0_10_0", 15, luma, [0, 0, 10, 10]),
        ("average_1e-5", 0, exact, [10, 11, 11, 12]),
        ("average_below", 0, below, [10, 11, 11, 12]),
    ] {
        writeln!(out, "{name} {least} {}", ratio(least, weights, bytes)).unwrap();
    }
    for window in [64, 65] {
        let options = adaptive::Options::new().with_window_width(window).with_simd(false);
        writeln!(out, "window {window} {}", adaptive_lists::settled(options).0).unwrap();
    }
    out
}

/// The last ratio after luma frames of 1 x 1, window 1. It is a whole number here.
fn ratio(least: u32, weights: Components, luma: [u8; 4]) -> u32 {
    let options = adaptive::Options::new()
        .with_window_width(1)
        .with_weights(weights)
        .with_min_content_val(least as f64)
        .with_simd(false);
    let mut detector = adaptive::Detector::new(options);
    for byte in luma {
        let stamp = Timestamp::from_micros(0);
        detector.process_luma(LumaFrame::try_new(&[byte], 1, 1, 1, stamp).expect("a whole frame"));
    }
    let ratio = detector.last_adaptive_ratio().expect("a full window");
    assert!(ratio == ratio.trunc() && ratio <= 255.0);
    ratio as u32
}
