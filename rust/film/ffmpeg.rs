//! Films of all kinds, decoded by the `ffmpeg` that is on the PATH.
//!
//! ffmpeg writes the frames to its standard output, and its filter showinfo tells of each on standard error before the
//! frame is written: its number, its stamp, its size. So a film with a variable rate keeps its stamps, and a change of
//! size is seen before its bytes are read.
//!
//! Stamps are relative to the start of the film: ffmpeg takes off the start time that the file names, as players do. The
//! first frame can be shown after 0, if sound starts before it, and a frame can have a stamp below 0, if it lies before
//! the named start.
use crate::frame::{whole, Fault, Format, Header, Length, Rate, Shown, Size, Source};
use crate::raw::{cut_short, fill, resized, unread};
use std::ffi::{OsStr, OsString};
use std::fs::{self, File};
use std::io::{BufRead, BufReader, ErrorKind, Read};
use std::process::{Child, ChildStdout, Command, Stdio};
use std::sync::mpsc::{self, Receiver, Sender};
use std::thread;

/// The filter that tells of the frames. Its lines begin with `[Parsed_showinfo_2 @ 0x1234]`.
const SHOWINFO: &str = "showinfo";
/// The most bytes of a line of ffmpeg that are looked at as one line.
const LONGEST: u64 = 1 << 16;
/// How many errors of ffmpeg are quoted, beside the last one.
const QUOTED: usize = 2;
/// The rate where a film has neither stamps nor a rate: what ffmpeg takes for streams without one.
const USUAL: Rate = Rate { frames: 25, seconds: 1 };
/// How each frame is written just once, whatever its stamp is; the second form is for ffmpeg before 5.1.
const EACH_FRAME: [[&str; 2]; 2] = [["-fps_mode", "passthrough"], ["-vsync", "passthrough"]];
/// What ffmpeg says where stamps fall or repeat, of its own output, which has none: not of the film.
const OUR_STAMPS: &str = "increasing dts to muxer";
/// What an ffmpeg says that does not know the first form.
const UNKNOWN: &str = "Unrecognized option 'fps_mode'";

/// What showinfo tells of a frame.
#[derive(Clone, Copy, Debug, PartialEq, Eq)]
struct Announced {
    /// Counted from 0 since the filter was set up.
    number: u64,
    /// The stamp, in ticks of the filter's time base.
    at: Option<i64>,
    /// How long it is shown, in ticks.
    lasts: Option<i64>,
    size: Size,
}

/// What a line of ffmpeg tells.
#[derive(Clone, Debug, PartialEq, Eq)]
enum Told {
    /// How long the film is, in microseconds.
    Length(i64),
    /// The filter was set up: ticks a second, and frames a second.
    Setup(Rate, Option<Rate>),
    Frame(Announced),
    /// A line of showinfo that can't be read.
    Unreadable(String),
    Error(String),
    /// A line without a level, which is not ffmpeg's own.
    Other(String),
}

impl Told {
    /// Reads a line; `None` if it tells nothing of use. `ready`: the filter was set up before, so frames can follow.
    /// A line that several threads of ffmpeg wrote to still has what showinfo says of a frame in one piece.
    fn parse(line: &str, ready: bool) -> Option<Told> {
        let parts = Parts::of(line);
        if ready && line.contains(" pts_time:") || parts.ours && parts.text.starts_with("n:") {
            let announced = announced(line).filter(|_| ready);
            return Some(announced.map_or_else(|| Told::Unreadable(plain(line)), Told::Frame));
        }
        if parts.ours && parts.text.starts_with("config in ") {
            return Some(setup(parts.text).unwrap_or_else(|| Told::Unreadable(plain(line))));
        }
        let text = plain(parts.text.trim_end().trim_end_matches('.'));
        match parts.level {
            Some("info") if !ready => duration(parts.text).map(Told::Length),
            Some("error" | "fatal" | "panic") if !text.is_empty() && !text.contains(OUR_STAMPS) => {
                Some(Told::Error(text))
            }
            // ffmpeg says no more of a stream that is torn or has holes
            Some("warning") if text.contains("corrupt") => Some(Told::Error(text)),
            None if !text.is_empty() => Some(Told::Other(text)),
            _ => None,
        }
    }
}

/// The parts of a line: `[part of ffmpeg @ 0x1234] [level] text`.
struct Parts<'a> {
    /// Whether showinfo wrote it.
    ours: bool,
    level: Option<&'a str>,
    text: &'a str,
}

impl Parts<'_> {
    fn of(line: &str) -> Parts<'_> {
        let (mut ours, mut text) = (false, line);
        while let Some((inside, rest)) = text.strip_prefix('[').and_then(|text| text.split_once("] ")) {
            text = rest;
            if ["panic", "fatal", "error", "warning", "info"].contains(&inside) {
                return Parts { ours, level: Some(inside), text };
            }
            ours |= inside.contains(SHOWINFO);
        }
        Parts { ours, level: None, text }
    }
}

/// The word that follows a key, after any spaces.
fn value<'a>(text: &'a str, key: &str) -> Option<&'a str> {
    text.split_once(key)?.1.split_ascii_whitespace().next()
}

/// Reads `n:   7 pts:  23000 pts_time:0.023 ... s:320x180 ...`, with other text before or behind it.
fn announced(line: &str) -> Option<Announced> {
    let (before, _) = line.split_once(" pts_time:")?;
    let from = before.rfind(" pts:")?;
    let (before, fields) = (line.get(..from)?, line.get(from..)?);
    let (key, number) = before.rsplit_once([' ', ':'])?;
    if !key.trim_end_matches([' ', ':']).ends_with('n') {
        return None;
    }
    let at = match value(fields, " pts:")? {
        "NOPTS" => None,
        ticks => Some(ticks.parse().ok()?),
    };
    let lasts = value(fields, " duration:").and_then(|ticks| ticks.parse().ok()).filter(|&ticks| ticks > 0);
    let (width, height) = value(fields, " s:")?.split_once('x')?;
    let size = Size { width: whole(width)?, height: whole(height)? };
    Some(Announced { number: number.parse().ok()?, at, lasts, size })
}

/// Reads `config in time_base: 1/30000, frame_rate: 30000/1001`. The rate is 0/1 or 1/0 where it is not known.
fn setup(text: &str) -> Option<Told> {
    let (seconds, ticks) = value(text, "time_base:")?.trim_end_matches(',').split_once('/')?;
    let ticks = Rate::new(whole(ticks)?, whole(seconds)?)?;
    Some(Told::Setup(ticks, value(text, "frame_rate:").and_then(Rate::parse)))
}

/// Reads `Duration: 00:01:02.34, start: 0.000000, ...` as microseconds.
fn duration(text: &str) -> Option<i64> {
    let (time, _) = text.trim_start().strip_prefix("Duration:")?.split_once(',')?;
    let (clock, part) = time.trim().split_once('.')?;
    let mut seconds = 0i64;
    for number in clock.split(':') {
        seconds = seconds.checked_mul(60)?.checked_add(whole(number)?)?;
    }
    let part: i64 = whole(part).filter(|_| part.len() == 2)?;
    seconds.checked_mul(1_000_000)?.checked_add(part * 10_000)
}

/// Text as part of one line for a user: without control characters, and not too long.
fn plain(text: &str) -> String {
    let clean = |letter: char| if letter.is_control() { ' ' } else { letter };
    text.trim().chars().map(clean).take(300).collect()
}

/// Ticks as microseconds.
fn micros(base: Rate, ticks: i64) -> i64 {
    let size = base.stamp(ticks.unsigned_abs());
    if ticks < 0 {
        -size
    } else {
        size
    }
}

/// How many ticks there are from one frame to the next, where that is a whole number.
fn period(base: Rate, rate: Rate) -> Option<i64> {
    let product = |one: u32, other: u32| u64::from(one) * u64::from(other);
    let (ticks, frames) = (product(base.frames, rate.seconds), product(base.seconds, rate.frames));
    (ticks % frames == 0).then(|| i64::try_from(ticks / frames).ok()).flatten()
}

/// Reads what ffmpeg writes to standard error, so that it never waits there, and sends what is of use.
fn listen(stderr: impl Read, sender: &Sender<Told>) {
    let mut stderr = BufReader::new(stderr);
    let (mut line, mut ready) = (Vec::new(), false);
    loop {
        line.clear();
        match stderr.by_ref().take(LONGEST).read_until(b'\n', &mut line) {
            Ok(0) | Err(_) => return,
            Ok(_) => {}
        }
        let told = Told::parse(&String::from_utf8_lossy(&line), ready);
        ready |= matches!(told, Some(Told::Setup(..)));
        if told.is_some_and(|told| sender.send(told).is_err()) {
            return;
        }
    }
}

/// The errors that ffmpeg reported: the first ones, the last one, and how many there were.
#[derive(Debug, Default)]
struct Errors {
    first: Vec<String>,
    last: Option<String>,
    count: usize,
    /// The last line that was not ffmpeg's own, such as a system's that can't start it.
    other: Option<String>,
}

impl Errors {
    fn add(&mut self, text: String) {
        self.count = self.count.saturating_add(1);
        if self.first.len() < QUOTED {
            self.first.push(text);
        } else {
            self.last = Some(text);
        }
    }

    /// All that is kept, as part of a line; `None` if there was no error.
    fn quoted(&self) -> Option<String> {
        let first = self.first.join("; ");
        match (&self.last, self.count) {
            (_, 0) => None,
            (Some(last), count) if count > QUOTED + 1 => {
                Some(format!("{first}; and {} more, the last: {last}", count - QUOTED))
            }
            (Some(last), _) => Some(format!("{first}; {last}")),
            (None, _) => Some(first),
        }
    }
}

/// What ffmpeg has told up to now.
struct Talk {
    told: Receiver<Told>,
    /// How long the film is, in microseconds.
    length: Option<i64>,
    /// Ticks a second.
    base: Rate,
    /// Frames a second.
    rate: Option<Rate>,
    /// The number that showinfo gives the next frame; `None` where it starts to count.
    number: Option<u64>,
    /// The last stamp, in microseconds, and how many frames without one came after it.
    last: Option<(i64, u64)>,
    errors: Errors,
}

impl Talk {
    fn new(told: Receiver<Told>) -> Talk {
        Talk { told, length: None, base: USUAL, rate: None, number: None, last: None, errors: Errors::default() }
    }

    /// Waits for what ffmpeg tells of frame `frame`; `None` once it has told all.
    fn frame(&mut self, frame: u64) -> Result<Option<Announced>, Fault> {
        while let Ok(told) = self.told.recv() {
            match told {
                Told::Length(length) => self.length = Some(length),
                Told::Setup(base, rate) => (self.base, self.rate, self.number) = (base, rate, None),
                Told::Error(text) => self.errors.add(text),
                Told::Other(text) => self.errors.other = Some(text),
                Told::Unreadable(line) => {
                    return Err(Fault(format!("what ffmpeg tells of frame {frame} can't be read: {line}")));
                }
                Told::Frame(announced) => {
                    if self.number.is_some_and(|number| number != announced.number) {
                        return Err(Fault(format!("ffmpeg does not tell when frame {frame} is shown")));
                    }
                    self.number = announced.number.checked_add(1);
                    return Ok(Some(announced));
                }
            }
        }
        Ok(None)
    }

    /// When a frame is shown. One without a stamp follows the last that has one, by the film's rate.
    fn shown(&mut self, announced: Announced) -> Shown {
        let (base, rate) = (self.base, self.rate);
        let (from, more) = match (announced.at, self.last) {
            (Some(ticks), _) => (micros(base, ticks), 0),
            (None, Some((from, more))) => (from, more.saturating_add(1)),
            (None, None) => (0, 0),
        };
        self.last = Some((from, more));
        let at = from.saturating_add(rate.unwrap_or(USUAL).stamp(more));
        let lasts = announced.lasts.or(rate.and_then(|rate| period(base, rate)));
        let until = match (announced.at, lasts) {
            (Some(ticks), Some(lasts)) => Some(micros(base, ticks.saturating_add(lasts))),
            (None, Some(lasts)) => Some(at.saturating_add(micros(base, lasts))),
            (_, None) => rate.map(|rate| at.saturating_add(rate.stamp(1))),
        };
        Shown { at, until }
    }
}

/// A running ffmpeg, which is ended when this goes.
struct Running(Child);

impl Drop for Running {
    fn drop(&mut self) {
        // Nothing can be done if these fail, and both do nothing if it has ended before.
        let _ = self.0.kill();
        let _ = self.0.wait();
    }
}

/// A film that ffmpeg decodes.
pub struct Ffmpeg {
    running: Running,
    stdout: ChildStdout,
    talk: Talk,
    header: Header,
    /// The frame that was announced and not read.
    next: Option<Announced>,
    /// How many frames were read.
    count: u64,
}

impl Ffmpeg {
    /// Starts ffmpeg on a file and waits for its first frame. Frames that are wider than `scale` are made that wide.
    pub fn open(file: &OsStr, scale: Option<u32>) -> Result<Ffmpeg, Fault> {
        let name = if file.is_empty() { "a file without a name".into() } else { plain(&file.to_string_lossy()) };
        readable(file).map_err(|why| Fault(format!("{name} can't be read: {why}")))?;
        let [today, before] = EACH_FRAME;
        match Ffmpeg::start(command(file, scale, today), &name) {
            Err(Fault(why)) if why.contains(UNKNOWN) => Ffmpeg::start(command(file, scale, before), &name),
            started => started,
        }
    }

    fn start(mut command: Command, name: &str) -> Result<Ffmpeg, Fault> {
        let mut running = Running(command.spawn().map_err(|why| not_started(name, &why))?);
        let (Some(stdout), Some(stderr)) = (running.0.stdout.take(), running.0.stderr.take()) else {
            return Err(Fault("ffmpeg was started without its outputs".into()));
        };
        let (sender, told) = mpsc::channel();
        thread::Builder::new()
            .name("ffmpeg's messages".into())
            .spawn(move || listen(stderr, &sender))
            .map_err(|why| Fault(format!("no thread can be started: {why}")))?;
        let mut talk = Talk::new(told);
        let Some(first) = talk.frame(1)? else {
            return Err(no_frames(name, &talk.errors, &mut running.0));
        };
        let size = first.size.checked().map_err(|Fault(why)| Fault(format!("{why}; --scale W makes them smaller")))?;
        let header = Header { size, format: Format::Bgr24, length: talk.length.map(Length::Micros) };
        Ok(Ffmpeg { running, stdout, talk, header, next: Some(first), count: 0 })
    }

    /// When ffmpeg has told all: a fault, if that was not the end of the film.
    fn ended(&mut self) -> Result<(), Fault> {
        let more = fill(&mut self.stdout, &mut [0]).map_err(|why| Fault(format!("ffmpeg can't be read: {why}")))?;
        if more > 0 {
            return Err(Fault(format!("ffmpeg wrote more than it told of after frame {}", self.count)));
        }
        let status = self.running.0.wait().map_err(|why| Fault(format!("ffmpeg's end is not known: {why}")))?;
        match self.damage() {
            _ if status.success() => Ok(()),
            Some(Fault(damage)) => Err(Fault(format!("ffmpeg ended with {status}: {damage}"))),
            None => Err(Fault(format!("ffmpeg ended with {status}"))),
        }
    }

    /// The fault of a frame whose bytes did not all come, with ffmpeg's own reason if it has one.
    fn broken(&mut self, frame: u64, came: usize) -> Fault {
        let Fault(fault) = cut_short(frame, came, self.header.size.bytes(self.header.format));
        while let Ok(Some(_)) = self.talk.frame(frame) {}
        match (self.ended(), self.damage()) {
            (Err(Fault(why)), _) | (Ok(()), Some(Fault(why))) => Fault(format!("{fault}: {why}")),
            (Ok(()), None) => Fault(fault),
        }
    }
}

impl Source for Ffmpeg {
    fn header(&self) -> Header {
        self.header
    }

    fn read(&mut self, pixels: &mut Vec<u8>) -> Result<Option<Shown>, Fault> {
        let frame = self.count.saturating_add(1);
        let announced = match self.next.take() {
            Some(first) => first,
            None => match self.talk.frame(frame)? {
                Some(announced) => announced,
                None => return self.ended().map(|()| None),
            },
        };
        let Header { size, format, .. } = self.header;
        if announced.size != size {
            return Err(resized(size, announced.size, frame));
        }
        let bytes = size.bytes(format);
        pixels.resize(bytes, 0);
        let came = fill(&mut self.stdout, pixels).map_err(|why| unread(frame, &why))?;
        if came < bytes {
            return Err(self.broken(frame, came));
        }
        self.count = frame;
        Ok(Some(self.talk.shown(announced)))
    }

    fn damage(&self) -> Option<Fault> {
        self.talk.errors.quoted().map(|errors| Fault(format!("ffmpeg reported: {errors}")))
    }
}

/// Tries to read a file, as ffmpeg will. A pipe or a device is left to ffmpeg, since what is read there is gone.
fn readable(file: &OsStr) -> std::io::Result<()> {
    let about = fs::metadata(file)?;
    if about.is_file() || about.is_dir() {
        fill(&mut File::open(file)?, &mut [0])?;
    }
    Ok(())
}

/// ffmpeg on a file, with its frames on standard output and what it tells on standard error.
fn command(file: &OsStr, scale: Option<u32>, each_frame: [&str; 2]) -> Command {
    // With a protocol before it, a name can begin with `-` or have a `:` in it.
    let mut input = OsString::from("file:");
    input.push(file);
    let smaller =
        scale.map_or_else(String::new, |width| format!("scale=w='min({width},iw)':h='max(1,round(ow*ih/iw))',"));
    let filters = format!("{smaller}format=bgr24,{SHOWINFO}=checksum=0");
    let mut command = Command::new("ffmpeg");
    command.args(["-nostdin", "-hide_banner", "-nostats", "-loglevel", "repeat+level+info", "-i"]).arg(input);
    // The first video stream that is not an attached picture, alone; without names and texts of the file in the output.
    command.args(["-map", "0:V:0", "-map_metadata", "-1", "-map_chapters", "-1", "-vf", &filters]).args(each_frame);
    command.args(["-f", "rawvideo", "-pix_fmt", "bgr24", "pipe:1"]);
    command.env("AV_LOG_FORCE_NOCOLOR", "1").env_remove("AV_LOG_FORCE_COLOR");
    // standard input is the caller's, so that a file can be /dev/stdin; ffmpeg itself does not read it
    command.stdin(Stdio::inherit()).stdout(Stdio::piped()).stderr(Stdio::piped());
    command
}

/// The fault of an ffmpeg that does not start.
fn not_started(name: &str, why: &std::io::Error) -> Fault {
    if why.kind() != ErrorKind::NotFound {
        return Fault(format!("ffmpeg can't be started: {why}"));
    }
    Fault(format!(
        "{name} needs ffmpeg, which is not on the PATH: \
         install it, or pipe yuv4mpeg2 into ./film -, or try ./film --demo"
    ))
}

/// The fault of a file in which ffmpeg found no frame.
fn no_frames(name: &str, errors: &Errors, child: &mut Child) -> Fault {
    let status = child.wait().ok().filter(|status| !status.success());
    let why = errors.other.clone().or(status.map(|status| format!("it ended with {status}")));
    match (errors.quoted(), why) {
        (Some(why), _) if why.contains("matches no streams") => {
            Fault(format!("{name} has no film in it: ffmpeg finds no video stream other than attached pictures"))
        }
        (Some(why), _) => Fault(format!("ffmpeg can't decode {name}: {why}")),
        (None, Some(why)) => Fault(format!("ffmpeg found no frame in {name}: {why}")),
        (None, None) => Fault(format!("ffmpeg found no frame in {name}")),
    }
}

#[cfg(test)]
mod tests {
    use super::*;

    /// Lines as ffmpeg writes them: version 4 and 5, then 6 and later.
    const FRAME_5: &str =
        "[Parsed_showinfo_1 @ 0x55dfaff49200] [info] n:   1 pts:  33367 pts_time:0.033367 pos:     7186 \
                           fmt:bgr24 sar:226/225 s:200x113 i:P iskey:0 type:B \n";
    const FRAME_6: &str =
        "[Parsed_showinfo_1 @ 0x5581fd1c2f40] [info] n:  12 pts:  -6006 pts_time:-0.2002 duration:   1001 \
                           duration_time:0.0333667 fmt:bgr24 cl:left sar:1/1 s:640x480 i:P iskey:1 type:I \n";
    const SETUP: &str =
        "[Parsed_showinfo_1 @ 0x5581fd1c2f40] [info] config in time_base: 1/30000, frame_rate: 30000/1001\n";
    const SIZE: Size = Size { width: 640, height: 480 };

    fn frame(number: u64, at: Option<i64>, lasts: Option<i64>, size: Size) -> Option<Told> {
        Some(Told::Frame(Announced { number, at, lasts, size }))
    }

    fn error(line: &str) -> Option<Told> {
        Told::parse(line, true)
    }

    #[test]
    fn frames_of_several_versions() {
        let size = Size { width: 200, height: 113 };
        assert_eq!(Told::parse(FRAME_5, true), frame(1, Some(33367), None, size));
        assert_eq!(Told::parse(FRAME_6, true), frame(12, Some(-6006), Some(1001), SIZE));
        let unknown = FRAME_6.replace("pts:  -6006", "pts:NOPTS").replace("duration:   1001", "duration:      0");
        assert_eq!(Told::parse(&unknown, true), frame(12, None, None, SIZE));
        let wide = FRAME_6.replace("n:  12 pts:  -6006", "n:123456 pts:9007199254740993");
        assert_eq!(Told::parse(&wide, true), frame(123456, Some(9_007_199_254_740_993), Some(1001), SIZE));
    }

    #[test]
    fn a_frame_in_a_line_that_others_wrote_to() {
        let text = FRAME_6.split_once("] [info] ").unwrap().1;
        for line in [
            format!("[info]   Stream #0:0{text}"),
            format!("[h264 @ 0x1] [error] bad pts: 7 n:   3 pts: {text}"),
            FRAME_6.replace("type:I \n", "type:I error while decoding MB 3 4, bytestream -5 s:1x1 n: 4 pts: 5\n"),
        ] {
            assert_eq!(Told::parse(&line, true), frame(12, Some(-6006), Some(1001), SIZE), "{line}");
        }
        assert_eq!(Told::parse(&format!("[info]     title           : {text}"), false), None);
    }

    #[test]
    fn lines_of_showinfo_that_cannot_be_read() {
        let damaged = [
            FRAME_6.replace("-6006", "--6"),
            FRAME_6.replace("-6006", "9223372036854775808"),
            FRAME_6.replace("-6006", ""),
            FRAME_6.replace("n:  12", "n: -12"),
            FRAME_6.replace("n:  12", "12"),
            FRAME_6.replace("640x480", "640"),
            FRAME_6.replace("640x480", "640x4294967296"),
            FRAME_6.replace(" s:640x480", ""),
            FRAME_6.replace(" pts_time", " time"),
            FRAME_6.replace(" pts:", " "),
            SETUP.replace("1/30000", "0/0"),
            SETUP.replace("time_base", "base"),
        ];
        for line in damaged {
            let told = Told::parse(&line, true);
            assert!(matches!(&told, Some(Told::Unreadable(text)) if !text.contains('\n')), "{line}{told:?}");
        }
        assert_eq!(Told::parse(FRAME_5, false), Some(Told::Unreadable(plain(FRAME_5))));
        for end in 0..FRAME_6.len() {
            Told::parse(&FRAME_6[..end], true);
            Told::parse(&FRAME_6[end..], true);
        }
    }

    #[test]
    fn setups() {
        let (ticks, rate) = (Rate::new(30000, 1).unwrap(), Rate::new(30000, 1001));
        assert_eq!(Told::parse(SETUP, false), Some(Told::Setup(ticks, rate)));
        for unknown in ["0/1", "1/0", "0/0"] {
            let line = SETUP.replace("30000/1001", unknown);
            assert_eq!(Told::parse(&line, true), Some(Told::Setup(ticks, None)), "{unknown}");
        }
        assert_eq!(Told::parse(&SETUP.replace("config in", "config out").replace("1/30000", "0/0"), true), None);
    }

    #[test]
    fn durations() {
        let micros =
            |time: &str| Told::parse(&format!("[info]   Duration: {time}, start: 0.000000, bitrate: 1 kb/s"), false);
        assert_eq!(micros("00:00:03.02"), Some(Told::Length(3_020_000)));
        assert_eq!(micros("123:01:02.34"), Some(Told::Length(442_862_340_000)));
        for time in ["N/A", "00:00:03", "00:00:03.020", "-1:00:00.00", "4294967295:4294967295:4294967295:0:0:0.00"] {
            assert_eq!(micros(time), None, "{time}");
        }
        assert_eq!(Told::parse("[info]     title           : Duration: 00:00:03.02, x", false), None);
    }

    #[test]
    fn errors() {
        let text = |text: &str| Some(Told::Error(text.into()));
        assert_eq!(error("[matroska,webm @ 0x1] [error] File ended prematurely\n"), text("File ended prematurely"));
        assert_eq!(error("[fatal] no \x1b[31m streams.\r\n"), text("no  [31m streams"));
        let corrupt = "Packet corrupt (stream = 0, dts = 126000)";
        assert_eq!(error(&format!("[mpegts @ 0x1] [warning] {corrupt}.")), text(corrupt));
        assert_eq!(error("[mp4 @ 0x1] [warning] Estimating duration from bitrate"), None);
        let ours = "Application provided invalid, non monotonically increasing dts to muxer in stream 0: 99 >= 99";
        assert_eq!(error(&format!("[rawvideo @ 0x1] [error] {ours}")), None);
        assert_eq!(error("[info]   Stream #0:0: Video: rawvideo"), None);
        assert_eq!(error("ffmpeg: not found\n"), Some(Told::Other("ffmpeg: not found".into())));
        for odd in ["", "\n", "[info] ", "[a] [b] \n", "[error] .\n"] {
            assert_eq!(error(odd), None, "{odd}");
        }
        let mut errors = Errors::default();
        assert_eq!(errors.quoted(), None);
        let mut quotes = Vec::new();
        for text in ["a", "b", "c", "d", "e"] {
            errors.add(text.into());
            quotes.push(errors.quoted().unwrap());
        }
        assert_eq!(quotes, ["a", "a; b", "a; b; c", "a; b; and 2 more, the last: d", "a; b; and 3 more, the last: e"]);
    }

    #[test]
    fn all_that_is_told() {
        let title = FRAME_6.replace("n:  12", "n:   7").replace("[Parsed_showinfo_1 @ 0x5581fd1c2f40] ", "");
        let lines = [
            &title,
            "[info]   Duration: 00:00:00.50, start: 0.000000, bitrate: 1 kb/s\n",
            "[error] one\n",
            SETUP,
            &FRAME_6.replace("n:  12", "n:   0"),
            "\n[error] two\n",
            &FRAME_6.replace("n:  12", "n:   1"),
            SETUP,
            &FRAME_6.replace("n:  12", "n:   0"),
            &FRAME_6.replace("n:  12", "n:   2"),
            "[error] three",
        ];
        let (sender, told) = mpsc::channel();
        listen(lines.concat().as_bytes(), &sender);
        drop(sender);
        let mut talk = Talk::new(told);
        for number in [0, 1, 0] {
            assert_eq!(talk.frame(5).unwrap().map(|frame| frame.number), Some(number));
        }
        assert!(talk.frame(5).unwrap_err().0.contains("frame 5"));
        assert_eq!(talk.frame(6), Ok(None));
        assert_eq!((talk.length, talk.errors.count), (Some(500_000), 3));
        assert_eq!((talk.base, talk.rate), (Rate::new(30000, 1).unwrap(), Rate::new(30000, 1001)));
    }

    #[test]
    fn when_frames_are_shown() {
        let mut talk = Talk::new(mpsc::channel().1);
        talk.base = Rate::new(30000, 1).unwrap();
        let mut shown = |rate: &str, at, lasts| {
            talk.rate = Rate::parse(rate);
            let Shown { at, until } = talk.shown(Announced { number: 0, at, lasts, size: SIZE });
            (at, until)
        };
        assert_eq!(shown("", None, None), (0, None));
        assert_eq!(shown("", None, Some(3000)), (40_000, Some(140_000)));
        assert_eq!(shown("", Some(-3000), None), (-100_000, None));
        assert_eq!(shown("", Some(1001), Some(1001)), (33_367, Some(66_733)));
        assert_eq!(shown("30000/1001", Some(1001), None), (33_367, Some(66_733)));
        assert_eq!(shown("29", Some(30000), None), (1_000_000, Some(1_034_483)));
        let after: Vec<_> = (0..3).map(|_| shown("30000/1001", None, None).0).collect();
        assert_eq!(after, [1_033_367, 1_066_733, 1_100_100]);
        assert_eq!(shown("25", Some(0), Some(3000)), (0, Some(100_000)));
        for ticks in [i64::MIN, i64::MAX] {
            let (at, until) = shown("1", Some(ticks), Some(i64::MAX));
            assert!(until >= Some(at));
        }
    }

    #[test]
    fn commands() {
        let words = |scale| {
            let command = command(OsStr::new("-a:b"), scale, EACH_FRAME[1]);
            command.get_args().map(|word| word.to_str().unwrap().to_string()).collect::<Vec<_>>()
        };
        let follows = |words: &[String], one: &str, other: &str| words.windows(2).any(|pair| pair == [one, other]);
        let plain = words(None);
        assert!(follows(&plain, "-i", "file:-a:b") && follows(&plain, "-vsync", "passthrough"));
        assert!(follows(&plain, "-vf", "format=bgr24,showinfo=checksum=0"));
        let start = "scale=w='min(320,iw)':h='max(1,round(ow*ih/iw))',format=bgr24,";
        assert!(words(Some(320)).iter().any(|word| word.starts_with(start)));
    }

    #[test]
    fn files_that_cannot_be_read() {
        let fault = |file: &str| Ffmpeg::open(OsStr::new(file), None).map(|_| ()).unwrap_err().0;
        assert!(fault("/").starts_with("/ can't be read: "));
        assert!(fault("/no such\nfile").starts_with("/no such file can't be read: "));
        assert!(fault("").starts_with("a file without a name can't be read: "));
    }

    #[test]
    fn periods() {
        let period = |seconds, ticks, rate| period(Rate::new(ticks, seconds).unwrap(), Rate::parse(rate).unwrap());
        assert_eq!(period(1, 30000, "30000/1001"), Some(1001));
        assert_eq!(period(1, 12800, "25"), Some(512));
        assert_eq!(period(1, 1000, "30000/1001"), None);
        assert_eq!(period(1001, 30000, "30000/1001"), Some(1));
        assert_eq!(period(1, u32::MAX, "1/4294967295"), None);
    }

    #[test]
    fn ticks_as_microseconds() {
        let base = Rate::new(30000, 1).unwrap();
        assert_eq!([-1001, 0, 1001, 2002].map(|ticks| micros(base, ticks)), [-33_367, 0, 33_367, 66_733]);
        for ticks in [i64::MIN, i64::MAX] {
            assert_eq!(micros(Rate::new(1, u32::MAX).unwrap(), ticks).signum(), ticks.signum());
        }
    }
}
