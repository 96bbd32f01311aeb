//! The frames a second that the bare library reaches on frames in memory: what `compare/time_film` holds `./film` against.
//!
//!     bare_film write WIDTH HEIGHT FRAMES KIND    writes a film of raw bgr24 frames to standard output
//!     bare_film time WIDTH HEIGHT FILE            reads it whole and prints frames a second, and the cuts it found
//!
//! KIND is `smooth` (slopes that move slowly) or `noise`; both change the scene at every 50th frame.
use mawerodu::ContentDetector;
use std::env::args;
use std::error::Error;
use std::fs;
use std::hint::black_box;
use std::io::{BufWriter, Write, stdout};
use std::time::Instant;

fn frame(width: usize, height: usize, number: usize, noise: bool, pixels: &mut Vec<u8>) {
    let scene = number / 50 * 90;
    let mut drawn = number as u32 * 2654435761 + 1;
    pixels.clear();
    for y in 0..height {
        for x in 0..width {
            drawn = drawn.wrapping_mul(1664525).wrapping_add(1013904223);
            let grain = if noise { (drawn >> 24) as usize } else { number % 50 };
            pixels.extend(
                [x / 8 + scene + grain, y / 8 + scene * 2 + grain, (x + y) / 16 + scene].map(|value| value as u8),
            );
        }
    }
}

fn write(width: usize, height: usize, frames: usize, kind: &str) -> Result<(), Box<dyn Error>> {
    let mut out = BufWriter::new(stdout().lock());
    let mut pixels = Vec::new();
    for number in 0..frames {
        frame(width, height, number, kind == "noise", &mut pixels);
        out.write_all(&pixels)?;
    }
    Ok(out.flush()?)
}

fn time(width: usize, height: usize, film: &str) -> Result<(), Box<dyn Error>> {
    let film = fs::read(film)?;
    let mut detector = ContentDetector::new();
    let mut cuts = 0;
    let start = Instant::now();
    for (number, pixels) in film.chunks_exact(width * height * 3).enumerate() {
        let (width, height) = (width as u32, height as u32);
        let answer = detector.process_bgr(black_box(pixels), width, height, 3 * width, number as i64 * 40_000)?;
        cuts += usize::from(answer.cut.is_some());
    }
    let frames = film.len() / (width * height * 3);
    println!("{:.1} {cuts}", frames as f64 / start.elapsed().as_secs_f64());
    Ok(())
}

fn main() -> Result<(), Box<dyn Error>> {
    let words: Vec<String> = args().skip(1).collect();
    match words.iter().map(String::as_str).collect::<Vec<_>>()[..] {
        ["write", width, height, frames, kind] => write(width.parse()?, height.parse()?, frames.parse()?, kind),
        ["time", width, height, film] => time(width.parse()?, height.parse()?, film),
        _ => Err("usage: bare_film write WIDTH HEIGHT FRAMES KIND, or bare_film time WIDTH HEIGHT FILE".into()),
    }
}
