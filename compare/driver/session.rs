//! The session program of RULES 11, run by the oracle. It follows the text of the rules and is not made from the proved
//! code: what a line is, is worked out here a second time.
use crate::rust;
use mediatime::Timestamp;
use scenesdetect::content::{Detector, Options};
use scenesdetect::frame::LumaFrame;

const MOST_BYTES: usize = 8192;
const MOST_PIXELS: u64 = 1024;

/// Over every bound of a field (255, and those of 32 and 64 bits). A number that does not fit 128 bits is read as this.
const HUGE: u128 = u128::MAX;

/// A frame line's stamp, sides and luma values.
struct Frame {
    stamp: i64,
    width: u32,
    height: u32,
    luma: Vec<u8>,
}

/// A decimal number, which may have leading zeros (RULES 11.2).
fn whole(field: &[u8]) -> Option<u128> {
    let text = str::from_utf8(field).ok()?;
    if text.is_empty() || !text.bytes().all(|b| b.is_ascii_digit()) {
        return None;
    }
    let digits = text.trim_start_matches('0');
    Some(if digits.is_empty() { 0 } else { digits.parse().unwrap_or(HUGE) })
}

/// A stamp: the only number that may have a minus before it.
fn stamp(field: &[u8]) -> Option<i64> {
    let (size, sign) = match field.strip_prefix(b"-") {
        Some(rest) => (whole(rest)?, -1),
        None => (whole(field)?, 1),
    };
    i64::try_from(sign * i128::try_from(size).ok()?).ok()
}

/// The frame of a line, or none for 16.
fn frame(line: &[u8]) -> Option<Frame> {
    if line.len() > MOST_BYTES {
        return None;
    }
    let fields: Vec<&[u8]> = line.split(|&b| b == b',').collect();
    let [at, width, height, values @ ..] = &fields[..] else { return None };
    let stamp = stamp(at)?;
    let width = u32::try_from(whole(width)?).ok()?;
    let height = u32::try_from(whole(height)?).ok()?;
    let luma = values.iter().map(|v| u8::try_from(whole(v)?).ok()).collect::<Option<Vec<u8>>>()?;
    let pixels = width as u64 * height as u64;
    (pixels <= MOST_PIXELS && pixels == luma.len() as u64).then_some(Frame { stamp, width, height, luma })
}

/// The answer's number and the cut of a line.
fn answer(detector: &mut Detector, line: &[u8]) -> (u32, Option<Timestamp>) {
    let Some(Frame { stamp, width, height, luma }) = frame(line) else { return (16, None) };
    let number = rust::check_luma(&luma, width, height, width);
    if number != 0 {
        return (number, None);
    }
    let ts = Timestamp::from_micros(stamp);
    let frame = LumaFrame::try_new(&luma, width, height, width, ts).expect("the check accepts it");
    (0, detector.process_luma(frame))
}

/// How many lines had which answer, and how many cuts there were: it shows that the inputs reach each.
#[derive(Default)]
#[cfg_attr(not(rattle), allow(dead_code))]
pub struct Seen {
    pub lines: u64,
    pub frames: u64,
    pub sides: u64,
    pub others: u64,
    pub cuts: u64,
}

/// The whole output for the whole input.
pub fn output(input: &[u8], seen: &mut Seen) -> Vec<u8> {
    let mut detector = Detector::new(Options::new().with_simd(false));
    let mut out = b"frame,answer,cut\n".to_vec();
    // where nothing follows the last line feed there is no further line
    for (i, line) in input.split_inclusive(|&b| b == b'\n').enumerate() {
        let (number, cut) = answer(&mut detector, line.strip_suffix(b"\n").unwrap_or(line));
        let shown = cut.map_or("-".to_string(), |ts| ts.micros().to_string());
        out.extend(format!("{i},{number},{shown}\n").bytes());
        seen.lines += 1;
        seen.cuts += cut.is_some() as u64;
        match number {
            0 => seen.frames += 1,
            1 => seen.sides += 1,
            _ => seen.others += 1,
        }
    }
    out
}
