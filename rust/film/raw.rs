//! Films as raw frames, one after the other with nothing between them; and what all inputs share.
use crate::frame::{Fault, Format, Header, Rate, Shown, Size, Source};
use std::io::{self, ErrorKind, Read};

/// Reads until `bytes` is full or the input ends, and returns how many bytes came.
pub fn fill(input: &mut impl Read, bytes: &mut [u8]) -> io::Result<usize> {
    let whole = bytes.len();
    let mut rest = bytes;
    while !rest.is_empty() {
        match input.read(rest) {
            Ok(0) => break,
            Ok(count) => rest = rest.get_mut(count..).unwrap_or_default(),
            Err(why) if why.kind() == ErrorKind::Interrupted => {}
            Err(why) => return Err(why),
        }
    }
    Ok(whole - rest.len())
}

/// When frame `number` of a film with a steady rate is shown, counted from 0.
pub fn steady(rate: Rate, number: u64) -> Shown {
    Shown { at: rate.stamp(number), until: Some(rate.stamp(number.saturating_add(1))) }
}

/// The fault of a film that ends within a frame. Here and below frames count from 1.
pub fn cut_short(frame: u64, came: usize, whole: usize) -> Fault {
    Fault(format!("the film ends in the middle of frame {frame} ({came} of {whole} bytes)"))
}

/// The fault of a film whose frames have another size from `frame` on.
pub fn resized(from: Size, to: Size, frame: u64) -> Fault {
    Fault(format!("the size changes from {from} to {to} at frame {frame}"))
}

/// The fault of an input that the system fails to read.
pub fn unread(frame: u64, why: &io::Error) -> Fault {
    Fault(format!("frame {frame} can't be read: {why}"))
}

/// A film of raw frames with a steady rate.
pub struct Raw<R> {
    input: R,
    header: Header,
    rate: Rate,
    /// How many frames were read.
    count: u64,
}

impl<R: Read + Send> Raw<R> {
    /// A film of frames of this size, format and rate. Reads go straight to `input`, each for what is left of a frame.
    pub fn open(input: R, size: Size, format: Format, rate: Rate) -> Result<Raw<R>, Fault> {
        let header = Header { size: size.checked()?, format, length: None };
        Ok(Raw { input, header, rate, count: 0 })
    }
}

impl<R: Read + Send> Source for Raw<R> {
    fn header(&self) -> Header {
        self.header
    }

    fn read(&mut self, pixels: &mut Vec<u8>) -> Result<Option<Shown>, Fault> {
        let Header { size, format, .. } = self.header;
        let (whole, frame) = (size.bytes(format), self.count.saturating_add(1));
        pixels.resize(whole, 0);
        let came = fill(&mut self.input, pixels).map_err(|why| unread(frame, &why))?;
        if came == 0 {
            return Ok(None);
        }
        if came < whole {
            let Fault(fault) = cut_short(frame, came, whole);
            return Err(Fault(format!("{fault}; do --raw and --format fit the film?")));
        }
        let shown = steady(self.rate, self.count);
        self.count = frame;
        Ok(Some(shown))
    }
}

#[cfg(test)]
mod tests {
    use super::*;

    const SIZE: Size = Size { width: 3, height: 2 };
    const RATE: Rate = Rate { frames: 30000, seconds: 1001 };

    /// Gives one byte a read, and is interrupted before each.
    struct Slow<'a>(&'a [u8], bool);

    impl Read for Slow<'_> {
        fn read(&mut self, bytes: &mut [u8]) -> io::Result<usize> {
            self.1 = !self.1;
            if self.1 {
                return Err(ErrorKind::Interrupted.into());
            }
            let end = bytes.len().min(1);
            self.0.read(&mut bytes[..end])
        }
    }

    struct Broken;

    impl Read for Broken {
        fn read(&mut self, _: &mut [u8]) -> io::Result<usize> {
            Err(io::Error::other("no such luck"))
        }
    }

    #[test]
    fn frames_come_in_order_with_their_stamps() {
        let bytes: Vec<u8> = (0..36).collect();
        for format in [Format::Bgr24, Format::Gray] {
            let mut raw = Raw::open(Slow(&bytes, false), SIZE, format, RATE).unwrap();
            assert_eq!(raw.header(), Header { size: SIZE, format, length: None });
            let mut pixels = vec![9; 1000];
            for (number, frame) in bytes.chunks(SIZE.bytes(format)).enumerate() {
                let shown = raw.read(&mut pixels).unwrap().unwrap();
                assert_eq!(pixels, frame);
                assert_eq!(shown.at, RATE.stamp(number as u64));
                assert_eq!(shown.until, Some(RATE.stamp(number as u64 + 1)));
            }
            assert_eq!(raw.read(&mut pixels), Ok(None));
        }
    }

    #[test]
    fn a_last_frame_that_is_cut_short_is_a_fault() {
        let mut raw = Raw::open(&[7u8; 23][..], SIZE, Format::Bgr24, RATE).unwrap();
        let mut pixels = Vec::new();
        assert!(raw.read(&mut pixels).unwrap().is_some());
        let Fault(fault) = raw.read(&mut pixels).unwrap_err();
        assert!(fault.starts_with("the film ends in the middle of frame 2 (5 of 18 bytes)"), "{fault}");
    }

    #[test]
    fn sizes_that_no_detector_takes_and_inputs_that_fail_are_faults() {
        let size = |width, height| Raw::open(&[][..], Size { width, height }, Format::Gray, RATE);
        assert!(
            size(4097, 1).is_err() && size(1, u32::MAX).is_err() && size(0, 5).is_err() && size(4096, 4096).is_ok()
        );
        let mut raw = Raw::open(Broken, SIZE, Format::Gray, RATE).unwrap();
        assert_eq!(raw.read(&mut Vec::new()), Err(Fault("frame 1 can't be read: no such luck".into())));
    }
}
