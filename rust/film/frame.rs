//! What a film is made of: how the bytes of a frame lie, when it is shown, and what reads one frame after the other.
use std::fmt;
use std::str::FromStr;

/// The largest width and height that a detector takes.
pub const MAX_SIDE: u32 = 4096;

/// How the bytes of a frame lie: row by row from the top, without padding.
#[derive(Clone, Copy, Debug, PartialEq, Eq)]
pub enum Format {
    /// Three bytes a pixel: blue, green, red.
    Bgr24,
    /// One byte a pixel: luma.
    Gray,
}

impl Format {
    /// The bytes of one pixel.
    pub fn bytes(self) -> u32 {
        match self {
            Format::Bgr24 => 3,
            Format::Gray => 1,
        }
    }
}

/// The width and the height of a frame, in pixels.
#[derive(Clone, Copy, Debug, PartialEq, Eq)]
pub struct Size {
    pub width: u32,
    pub height: u32,
}

impl Size {
    /// The bytes of a frame of this size and format. Call it only once `checked` has accepted the size.
    pub fn bytes(self, format: Format) -> usize {
        self.width as usize * self.height as usize * format.bytes() as usize
    }

    /// This size, unless a side is 0 or over what a detector takes.
    pub fn checked(self) -> Result<Size, Fault> {
        if self.width == 0 || self.height == 0 {
            return Err(Fault(format!("frames of {self} have no pixels")));
        }
        if self.width > MAX_SIDE || self.height > MAX_SIDE {
            return Err(Fault(format!("frames of {self} are too large: a side has at most {MAX_SIDE} pixels")));
        }
        Ok(self)
    }
}

impl fmt::Display for Size {
    fn fmt(&self, f: &mut fmt::Formatter<'_>) -> fmt::Result {
        write!(f, "{}x{}", self.width, self.height)
    }
}

/// Frames a second, as a fraction; neither number is 0.
#[derive(Clone, Copy, Debug, PartialEq, Eq)]
pub struct Rate {
    pub frames: u32,
    pub seconds: u32,
}

impl Rate {
    /// A rate, unless one of the numbers is 0.
    pub fn new(frames: u32, seconds: u32) -> Option<Rate> {
        (frames > 0 && seconds > 0).then_some(Rate { frames, seconds })
    }

    /// Reads `25`, `30000/1001` or `29.97`, with at most six digits behind the point.
    pub fn parse(text: &str) -> Option<Rate> {
        if let Some((frames, seconds)) = text.split_once('/') {
            return Rate::new(whole(frames)?, whole(seconds)?);
        }
        let Some((before, behind)) = text.split_once('.') else {
            return Rate::new(whole(text)?, 1);
        };
        if behind.len() > 6 {
            return None;
        }
        let scale = 10u32.pow(behind.len() as u32);
        let parts = whole::<u32>(before)?.checked_mul(scale)?.checked_add(whole(behind)?)?;
        Rate::new(parts, scale)
    }

    /// When frame `number` is shown, counted from 0: the nearest microsecond.
    pub fn stamp(self, number: u64) -> i64 {
        let (frames, seconds) = (u128::from(self.frames), u128::from(self.seconds));
        let micros = (u128::from(number) * seconds * 2_000_000 + frames) / (2 * frames);
        i64::try_from(micros).unwrap_or(i64::MAX)
    }
}

/// A whole number in digits alone.
pub fn whole<T: FromStr>(text: &str) -> Option<T> {
    (!text.is_empty() && text.bytes().all(|byte| byte.is_ascii_digit())).then(|| text.parse().ok()).flatten()
}

/// When a frame is shown, in microseconds.
#[derive(Clone, Copy, Debug, PartialEq, Eq)]
pub struct Shown {
    pub at: i64,
    /// When it ends, where that is known.
    pub until: Option<i64>,
}

/// How long a film is, as far as that is known before its end.
#[derive(Clone, Copy, Debug, PartialEq, Eq)]
pub enum Length {
    Frames(u64),
    Micros(i64),
}

/// What is known of a film before its first frame.
#[derive(Clone, Copy, Debug, PartialEq, Eq)]
pub struct Header {
    pub size: Size,
    pub format: Format,
    pub length: Option<Length>,
}

/// A film that is read frame by frame.
pub trait Source: Send {
    /// The same for all frames: a film whose size changes ends with a fault.
    fn header(&self) -> Header;

    /// Reads the next frame; `pixels` then has just its bytes. `None` at the end of the film.
    fn read(&mut self, pixels: &mut Vec<u8>) -> Result<Option<Shown>, Fault>;

    /// At the end of the film: what was wrong with it all the same, so that frames may be missing or wrong.
    fn damage(&self) -> Option<Fault> {
        None
    }
}

/// Why something can't be read or written: one line for a user.
#[derive(Clone, Debug, PartialEq, Eq)]
pub struct Fault(pub String);

impl fmt::Display for Fault {
    fn fmt(&self, f: &mut fmt::Formatter<'_>) -> fmt::Result {
        f.write_str(&self.0)
    }
}

#[cfg(test)]
mod tests {
    use super::*;

    #[test]
    fn rates() {
        assert_eq!(Rate::parse("25"), Rate::new(25, 1));
        assert_eq!(Rate::parse("30000/1001"), Rate::new(30000, 1001));
        assert_eq!(Rate::parse("29.97"), Rate::new(2997, 100));
        for text in
            ["", "0", "25/0", "0/1", "-25", "+25", "25.", ".5", "1e3", "2.0000001", "4294967296", "25 ", "9999.999999"]
        {
            assert_eq!(Rate::parse(text), None, "{text}");
        }
    }

    #[test]
    fn stamps_are_the_nearest_microsecond() {
        let rate = Rate { frames: 30000, seconds: 1001 };
        assert_eq!([0, 1, 2, 3].map(|number| rate.stamp(number)), [0, 33367, 66733, 100100]);
        assert_eq!(Rate { frames: 2_000_000, seconds: 1 }.stamp(1), 1);
        assert_eq!(Rate { frames: 1, seconds: u32::MAX }.stamp(u64::MAX), i64::MAX);
    }

    #[test]
    fn sizes() {
        let size = |width, height| Size { width, height }.checked();
        assert!(size(4096, 1).is_ok() && size(1, 4096).is_ok());
        assert!(size(4097, 1).is_err() && size(1, u32::MAX).is_err() && size(0, 1).is_err());
    }
}
