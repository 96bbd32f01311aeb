//! The edge plane, and what it takes from the luma plane as a whole, on both sides.
use crate::generator::Generator;
use crate::table::Row;
use crate::{rattle, rust};

const MOST: u32 = 40;
const CONTENTS: u32 = 10;
const SIDES: [u32; 8] = [3, 5, 7, 13, 41, 81, 101, u32::MAX];

pub fn rows() -> Vec<Row> {
    vec![
        edge_planes(),
        edge_blocks(),
        edge_frames(),
        edge_refusals(),
        medians(),
        marks(),
        kernels(),
        kernels_of_frames(),
    ]
}

/// A plane of one of ten contents: noise on four sets of levels, a gradient, blocks, lines, flat, noise on two near
/// levels, faint noise.
fn content(generator: &mut Generator, width: u32, height: u32, kind: u32) -> Vec<u8> {
    let n = (width * height) as usize;
    if kind < 4 {
        return generator.shades(n, kind);
    }
    let draws: [u32; 4] = [0; 4].map(|_| generator.byte() as u32);
    let [a, b, c, d] = draws;
    let side = 2 + c % 7;
    let places = (0..n as u32).map(|i| (i % width, i / width));
    let noise: Vec<u32> = (0..n).map(|_| generator.byte() as u32).collect();
    let value = |(i, (x, y)): (usize, (u32, u32))| match kind {
        4 => (a + x * (b % 12) + y * (c % 12)) % 256,
        5 => a + (x / side * 37 + y / side * 91 + d) % (1 + (255 - a)),
        6 => {
            let line = (x * (1 + b % 3) + y * (d % 4)) % (3 + c % 5) == 0;
            if line { a } else { a / 2 + noise[i] % 3 }
        }
        7 => a,
        8 => a * 3 / 4 + noise[i] % 2 * (b / 4),
        _ => a * 3 / 4 + noise[i] % (1 + b / 4),
    };
    places.enumerate().map(|place| value(place) as u8).collect()
}

/// Answer, edge plane, and the memories behind what is lent, which is `more` places longer than the planes (edges,
/// magnitudes, luma), or shorter. The Rattle side asks for exactly the planes' places: with fewer luma bytes it
/// returns 3, with more of them, or other lengths of the lent memory, 12; a refusal writes nothing. Of the magnitudes,
/// which are scratch, those behind the lent ones are compared, and all after a refusal.
fn one(row: &mut Row, luma: &[u8], width: u32, height: u32, k: u32, more: [isize; 3]) {
    let n = (width * height) as usize;
    let lent = more.map(|d| n.saturating_add_signed(d));
    let (mut edges, mut mag) = (vec![77; n + 2], vec![-7; n + 2]);
    let before = edges.clone();
    let answer = rattle::edge_plane(&mut edges[..lent[0]], &mut mag[..lent[1]], &luma[..lent[2]], width, height, k);
    let expected = if lent[2] < n {
        3
    } else if lent != [n; 3] {
        12
    } else {
        0
    };
    let mut rust = before;
    if expected == 0 {
        rust[..n].copy_from_slice(&rust::edge_plane(&luma[..n], width, height, k));
        mag.drain(..n);
    }
    let text = || {
        let of = if n > 2000 { String::new() } else { format!(": {:?}", &luma[..n]) };
        format!("{width} x {height}, k {k}, places lent {lent:?}{of}")
    };
    row.compare(n as u64, text, (expected, rust, vec![-7; mag.len()]), (answer, edges, mag));
}

fn edge_planes() -> Row {
    let mut row = Row::new("edge_plane, sides 0 to 40");
    let mut generator = Generator(6);
    for width in 0..=MOST {
        for height in 0..=MOST {
            for kind in 0..CONTENTS {
                for k in SIDES {
                    let luma = content(&mut generator, width, height, kind);
                    one(&mut row, &luma, width, height, k, [0; 3]);
                }
            }
        }
    }
    row
}

/// Widths about multiples of 32 and 64.
fn edge_blocks() -> Row {
    let mut row = Row::new("edge_plane, widths 30 to 140");
    let mut generator = Generator(8);
    for width in 30..=140 {
        for height in 3..=6 {
            for kind in 0..CONTENTS {
                for k in [3, 13] {
                    let luma = content(&mut generator, width, height, kind);
                    one(&mut row, &luma, width, height, k, [0; 3]);
                }
            }
        }
    }
    row
}

fn edge_frames() -> Row {
    let mut row = Row::new("edge_plane, 640 x 480 and long sides");
    let mut generator = Generator(7);
    for (width, height) in [(640, 480), (4096, 5), (5, 4096)] {
        for kind in 0..CONTENTS {
            for k in [3, 7, 101, 9999] {
                let luma = content(&mut generator, width, height, kind);
                one(&mut row, &luma, width, height, k, [0; 3]);
            }
        }
    }
    row
}

/// Each lent memory and the luma a place short or one too long.
fn edge_refusals() -> Row {
    let mut row = Row::new("edge_plane, refusals");
    let mut generator = Generator(8);
    for width in 1..=MOST {
        for height in 1..=MOST {
            for place in 0..3 {
                for d in [-1, 1] {
                    let mut more = [0; 3];
                    more[place] = d;
                    let mut luma = content(&mut generator, width, height, width % CONTENTS);
                    luma.push(9);
                    one(&mut row, &luma, width, height, 5, more);
                }
            }
        }
    }
    row
}

/// Every length to 1,700, then some frames.
fn medians() -> Row {
    let mut row = Row::new("median_u8");
    let mut generator = Generator(9);
    let mut visit = |luma: Vec<u8>| {
        let text = || format!("{} bytes: {:?}", luma.len(), &luma[..luma.len().min(400)]);
        row.compare(luma.len() as u64, text, rust::median(&luma), rattle::median(&luma));
    };
    for n in 0..=1700 {
        for kind in 0..CONTENTS {
            visit(content(&mut generator, n, 1, kind));
        }
    }
    for (width, height) in [(640, 480), (4096, 4096)] {
        for kind in 0..CONTENTS {
            visit(content(&mut generator, width, height, kind));
        }
    }
    row
}

fn marks() -> Row {
    let mut row = Row::new("low and high mark, every median");
    for m in 0..=255 {
        let rattle = (rattle::mw_low_threshold(m), rattle::mw_high_threshold(m));
        row.compare(m as u64, || format!("median {m}"), rust::marks(m), rattle);
    }
    row
}

fn kernel(row: &mut Row, width: u32, height: u32) {
    let (rust, rattle) = (rust::auto_kernel_size(width, height), rattle::mw_auto_kernel_size(width, height));
    row.compare(width as u64 * height as u64, || format!("{width} x {height}"), rust, rattle);
}

fn kernels() -> Row {
    let mut row = Row::new("auto_kernel_size, every n to 2^24, as n x 1");
    (0..=1 << 24).for_each(|n| kernel(&mut row, n, 1));
    row
}

fn kernels_of_frames() -> Row {
    let mut row = Row::new("auto_kernel_size, every w <= h <= 4,096");
    (0..=4096).for_each(|h| (0..=h).for_each(|w| kernel(&mut row, w, h)));
    row
}
