//! A line on standard error that says how far a film is read. It is there only if standard error is a terminal.
use crate::frame::Length;
use crate::number::counted;
use std::io::{self, IsTerminal, Stderr, Write};
use std::time::{Duration, Instant};

/// The line is written again at most this often.
const PAUSE: Duration = Duration::from_millis(200);

/// The line, as long as the film is read. It is cleared by `done`, or at the latest when this is dropped.
pub struct Progress {
    began: Instant,
    line: Option<Line<Stderr>>,
}

impl Progress {
    pub fn new(length: Option<Length>) -> Progress {
        let out = io::stderr();
        Progress { began: Instant::now(), line: out.is_terminal().then(|| Line::new(out, length)) }
    }

    /// So many frames are read, the last of them shown at `at`, in microseconds.
    pub fn frame(&mut self, frames: usize, at: i64) {
        if let Some(line) = &mut self.line {
            line.frame(frames, at, self.began.elapsed());
        }
    }

    /// Clears the line. Call it before something else is written to standard error.
    pub fn done(&mut self) {
        if let Some(mut line) = self.line.take() {
            line.clear();
        }
    }
}

impl Drop for Progress {
    fn drop(&mut self) {
        self.done();
    }
}

/// A line that is written over itself. What can't be written is left out.
struct Line<W: Write> {
    out: W,
    length: Option<Length>,
    /// When it is to be written next, since the beginning.
    next: Duration,
    /// The most characters that it has had.
    width: usize,
}

impl<W: Write> Line<W> {
    fn new(out: W, length: Option<Length>) -> Line<W> {
        Line { out, length, next: PAUSE, width: 0 }
    }

    fn frame(&mut self, frames: usize, at: i64, since: Duration) {
        if since < self.next {
            return;
        }
        self.next = since.saturating_add(PAUSE);
        let text = text(frames, self.length.and_then(|length| percent(length, frames, at)), since);
        self.width = self.width.max(text.chars().count());
        self.put(&text);
    }

    fn clear(&mut self) {
        if self.width > 0 {
            self.put("");
            let _ = self.out.write_all(b"\r");
            let _ = self.out.flush();
        }
    }

    /// Writes a text over what stands there.
    fn put(&mut self, text: &str) {
        let _ = write!(self.out, "\r{text:width$}", width = self.width);
        let _ = self.out.flush();
    }
}

/// How much of the film is read, if its length says something.
fn percent(length: Length, frames: usize, at: i64) -> Option<u128> {
    let (read, all) = match length {
        Length::Frames(all) => (frames as u128, u128::from(all)),
        Length::Micros(all) => (u128::from(at.max(0).unsigned_abs()), u128::from(all.max(0).unsigned_abs())),
    };
    (all > 0).then(|| (read * 100 / all.max(1)).min(100))
}

fn text(frames: usize, percent: Option<u128>, since: Duration) -> String {
    let percent = percent.map_or(String::new(), |percent| format!("{percent} %, "));
    let rate = frames as f64 / since.as_secs_f64().max(0.001);
    format!("{}, {percent}{rate:.0} frames a second", counted(frames, "frame"))
}

#[cfg(test)]
mod tests {
    use super::*;

    fn line(length: Option<Length>) -> Line<Vec<u8>> {
        Line::new(Vec::new(), length)
    }

    fn millis(count: u64) -> Duration {
        Duration::from_millis(count)
    }

    #[test]
    fn five_times_a_second_at_most() {
        let mut line = line(None);
        for frame in 1..=1000u64 {
            line.frame(frame as usize, 0, millis(frame));
        }
        let text = String::from_utf8(line.out).unwrap();
        let numbers: Vec<&str> = text.split('\r').skip(1).map(|line| line.split(' ').next().unwrap()).collect();
        assert_eq!(numbers, ["200", "400", "600", "800", "1,000"]);
    }

    #[test]
    fn a_text() {
        assert_eq!(text(1234, Some(45), millis(2000)), "1,234 frames, 45 %, 617 frames a second");
        assert_eq!(text(1, None, millis(1000)), "1 frame, 1 frames a second");
        assert!(text(usize::MAX, Some(100), Duration::ZERO).starts_with("18,446,744,073,709,551,615 frames, 100 %, "));
    }

    #[test]
    fn percents() {
        assert_eq!(percent(Length::Frames(200), 1, 0), Some(0));
        assert_eq!(percent(Length::Frames(200), 199, 0), Some(99));
        assert_eq!(percent(Length::Frames(200), 300, 0), Some(100));
        assert_eq!(percent(Length::Frames(0), 300, 0), None);
        assert_eq!(percent(Length::Frames(u64::MAX), usize::MAX, 0), Some(100));
        assert_eq!(percent(Length::Micros(4_000_000), 7, 1_000_000), Some(25));
        assert_eq!(percent(Length::Micros(4_000_000), 7, i64::MIN), Some(0));
        assert_eq!(percent(Length::Micros(1), 7, i64::MAX), Some(100));
        assert_eq!(percent(Length::Micros(-1), 7, 5).or(percent(Length::Micros(i64::MIN), 7, 5)), None);
    }

    #[test]
    fn a_shorter_text_covers_a_longer_one() {
        let mut line = line(Some(Length::Frames(1000)));
        line.frame(999, 0, millis(200));
        line.frame(9, 0, millis(90_000));
        line.clear();
        let text = String::from_utf8(line.out).unwrap();
        let longest = "999 frames, 99 %, 4995 frames a second";
        let (width, blank) = (longest.len(), " ".repeat(longest.len()));
        let short = format!("{:width$}", "9 frames, 0 %, 0 frames a second");
        assert_eq!(text, format!("\r{longest}\r{short}\r{blank}\r"));
    }

    #[test]
    fn a_short_film_writes_nothing() {
        let mut line = line(None);
        line.frame(3, 0, millis(199));
        line.clear();
        assert!(line.out.is_empty());
    }

    #[test]
    fn a_closed_terminal_is_no_fault() {
        let mut room = [0u8; 3];
        let mut line = Line::new(room.as_mut_slice(), None);
        line.frame(1, 0, millis(500));
        line.clear();
    }
}
