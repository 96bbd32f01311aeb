//! The command line.
use crate::frame::{whole, Fault, Format, Rate, Size};
use crate::record::Settings;
use mawerodu::{AdaptiveOptions, Components, ContentOptions, FilterMode};
use std::ffi::OsString;
use std::path::PathBuf;

/// What `--help` prints.
pub const HELP: &str = include_str!("help.txt");

/// What is to be done.
#[derive(Clone, Debug, PartialEq)]
pub enum Command {
    Help,
    Version,
    Cut(Args),
}

/// A film to cut.
#[derive(Clone, Debug, PartialEq)]
pub struct Args {
    pub input: Input,
    pub asked: Asked,
    /// The file of the light plan.
    pub plan: Option<PathBuf>,
    pub list: List,
    pub stats: Option<PathBuf>,
    pub plot: Option<PathBuf>,
}

/// Where the frames come from.
#[derive(Clone, Debug, PartialEq)]
pub enum Input {
    /// A film that ffmpeg decodes, at this width if it is wider.
    File { path: PathBuf, scale: Option<u32> },
    /// yuv4mpeg2 on standard input.
    Y4m { rate: Option<Rate> },
    /// Frames without a header on standard input.
    Raw { size: Size, format: Format, rate: Rate },
    /// A film that the program makes itself: one in the light, or one in a room whose lamp goes out.
    Demo { dim: bool },
}

impl Input {
    /// What its frames are.
    pub fn format(&self) -> Format {
        match self {
            Input::File { .. } | Input::Demo { .. } => Format::Bgr24,
            Input::Y4m { .. } => Format::Gray,
            Input::Raw { format, .. } => *format,
        }
    }
}

/// How the clips are listed on standard output.
#[derive(Clone, Copy, Debug, Default, PartialEq, Eq)]
pub enum List {
    #[default]
    Table,
    Csv,
    Json,
}

/// The settings that were given; the others are the defaults of the detector and of the kind of frame.
#[derive(Clone, Copy, Debug, Default, PartialEq)]
pub struct Asked {
    pub adaptive: bool,
    pub threshold: Option<f64>,
    pub min_duration: Option<u64>,
    pub weights: Option<Components>,
    pub filter_mode: Option<FilterMode>,
    pub kernel_size: Option<u32>,
    pub window_width: Option<u32>,
    pub min_content_val: Option<f64>,
    pub initial_cut: Option<bool>,
}

impl Asked {
    /// The settings for frames of this format. Luma frames have luma-only weights unless weights were given.
    pub fn settings(&self, format: Format) -> Settings {
        let luma = format == Format::Gray;
        if self.adaptive {
            let default = if luma { AdaptiveOptions::luma_only() } else { AdaptiveOptions::default() };
            Settings::Adaptive(AdaptiveOptions {
                threshold: self.threshold.unwrap_or(default.threshold),
                min_duration: self.min_duration.unwrap_or(default.min_duration),
                window_width: self.window_width.unwrap_or(default.window_width),
                min_content_val: self.min_content_val.unwrap_or(default.min_content_val),
                weights: self.weights.unwrap_or(default.weights),
                kernel_size: self.kernel_size,
                initial_cut: self.initial_cut.unwrap_or(default.initial_cut),
            })
        } else {
            let default = if luma { ContentOptions::luma_only() } else { ContentOptions::default() };
            Settings::Content(ContentOptions {
                threshold: self.threshold.unwrap_or(default.threshold),
                min_duration: self.min_duration.unwrap_or(default.min_duration),
                weights: self.weights.unwrap_or(default.weights),
                filter_mode: self.filter_mode.unwrap_or(default.filter_mode),
                kernel_size: self.kernel_size,
                initial_cut: self.initial_cut.unwrap_or(default.initial_cut),
            })
        }
    }
}

/// Reads the words after the program's name.
pub fn parse(words: impl IntoIterator<Item = OsString>) -> Result<Command, Fault> {
    let mut words = words.into_iter();
    let mut given = Given::default();
    let mut flags = true;
    while let Some(word) = words.next() {
        match word.to_str() {
            Some("--help" | "-h") if flags => return Ok(Command::Help),
            Some("--version") if flags => return Ok(Command::Version),
            Some("--") if flags => flags = false,
            Some(flag) if flags && flag.len() > 1 && flag.starts_with('-') => given.flag(flag, &mut words)?,
            _ => given.film(word)?,
        }
    }
    given.command()
}

/// The words of a command line, as they were given.
#[derive(Default)]
struct Given {
    film: Option<OsString>,
    demo: bool,
    dim: bool,
    raw: Option<Size>,
    rate: Option<Rate>,
    format: Option<Format>,
    scale: Option<u32>,
    asked: Asked,
    plan: Option<PathBuf>,
    list: Option<List>,
    stats: Option<PathBuf>,
    plot: Option<PathBuf>,
}

impl Given {
    fn film(&mut self, word: OsString) -> Result<(), Fault> {
        match self.film.replace(word) {
            None => Ok(()),
            Some(_) => Err(usage("one film at a time")),
        }
    }

    /// Takes a flag, and its value from after the `=` or from the next word.
    fn flag(&mut self, word: &str, words: &mut impl Iterator<Item = OsString>) -> Result<(), Fault> {
        let (flag, joined) = match word.split_once('=') {
            Some((flag, value)) => (flag, Some(OsString::from(value))),
            None => (word, None),
        };
        if joined.is_none() && self.plain(flag)? {
            return Ok(());
        }
        let value = match joined {
            Some(value) => value,
            None if VALUED.contains(&flag) => words.next().ok_or_else(|| usage(&format!("{flag} needs a value")))?,
            None => return Err(usage(&format!("there is no flag {flag}"))),
        };
        match flag {
            "--plan" => self.plan = Some(value.into()),
            "--stats" => self.stats = Some(value.into()),
            "--plot" => self.plot = Some(value.into()),
            _ => {
                let text = value.to_str().unwrap_or("");
                let known = self.input(flag, text)? || self.setting(flag, text)?;
                if !known {
                    return Err(usage(&format!("there is no flag {word}")));
                }
            }
        }
        Ok(())
    }

    /// Takes a flag without a value; false if it is none.
    fn plain(&mut self, flag: &str) -> Result<bool, Fault> {
        let list = match flag {
            "--demo" => {
                self.demo = true;
                return Ok(true);
            }
            "--dim" => {
                self.dim = true;
                return Ok(true);
            }
            "--csv" => List::Csv,
            "--json" => List::Json,
            _ => return Ok(false),
        };
        match self.list.replace(list) {
            Some(before) if before != list => Err(usage("--csv or --json, not both")),
            _ => Ok(true),
        }
    }

    /// Takes what says how the film is read; false if the flag is another.
    fn input(&mut self, flag: &str, text: &str) -> Result<bool, Fault> {
        match flag {
            "--raw" => self.raw = Some(read(flag, text, "WIDTHxHEIGHT, as 640x480", size)?),
            "--rate" => self.rate = Some(read(flag, text, "frames a second, as 25, 29.97 or 30000/1001", Rate::parse)?),
            "--format" => self.format = Some(read(flag, text, "bgr24 or gray", format)?),
            "--scale" => self.scale = Some(read(flag, text, "a width in pixels, from 1 on", positive)?),
            _ => return Ok(false),
        }
        Ok(true)
    }

    /// Takes a setting of a detector; false if the flag is another.
    fn setting(&mut self, flag: &str, text: &str) -> Result<bool, Fault> {
        let asked = &mut self.asked;
        match flag {
            "--detector" => asked.adaptive = read(flag, text, "content or adaptive", detector)?,
            "--threshold" => asked.threshold = Some(read(flag, text, "a number", number)?),
            "--min-duration" => {
                asked.min_duration = Some(read(flag, text, "seconds or microseconds, as 1.5s or 1500000us", micros)?)
            }
            "--weights" => asked.weights = Some(read(flag, text, "HUE,SATURATION,LUMA,EDGES, as 1,1,1,0", weights)?),
            "--mode" => asked.filter_mode = Some(read(flag, text, "merge or suppress", mode)?),
            "--kernel" => asked.kernel_size = Some(read(flag, text, "a whole number", whole)?),
            "--window" => asked.window_width = Some(read(flag, text, "a whole number", whole)?),
            "--min-content" => asked.min_content_val = Some(read(flag, text, "a number", number)?),
            "--initial-cut" => asked.initial_cut = Some(read(flag, text, "yes or no", yes)?),
            _ => return Ok(false),
        }
        Ok(true)
    }

    fn command(self) -> Result<Command, Fault> {
        self.fitting()?;
        let (asked, list) = (self.asked, self.list.unwrap_or_default());
        let (plan, stats, plot) = (self.plan.clone(), self.stats.clone(), self.plot.clone());
        Ok(Command::Cut(Args { input: self.source()?, asked, plan, list, stats, plot }))
    }

    /// Refuses settings that the chosen detector does not have.
    fn fitting(&self) -> Result<(), Fault> {
        let asked = &self.asked;
        if asked.adaptive && asked.filter_mode.is_some() {
            return Err(usage("--mode is a setting of the content detector"));
        }
        if asked.adaptive && self.plan.is_some() {
            return Err(usage("--plan is a setting of the content detector"));
        }
        if !asked.adaptive && asked.window_width.is_some() {
            return Err(usage("--window is a setting of --detector adaptive"));
        }
        if !asked.adaptive && asked.min_content_val.is_some() {
            return Err(usage("--min-content is a setting of --detector adaptive"));
        }
        Ok(())
    }

    fn source(self) -> Result<Input, Fault> {
        let input = match (self.film, self.demo, self.raw) {
            (None, true, None) => Input::Demo { dim: self.dim },
            (Some(film), false, raw) if film == "-" => match raw {
                None => Input::Y4m { rate: self.rate },
                Some(size) => Input::Raw {
                    size,
                    format: self.format.ok_or_else(|| usage("--raw needs --format bgr24 or --format gray"))?,
                    rate: self.rate.ok_or_else(|| usage("--raw needs --rate, the frames a second"))?,
                },
            },
            (Some(film), false, None) => Input::File { path: film.into(), scale: self.scale },
            (None, false, None) => return Err(usage("no film was given")),
            (_, true, _) => return Err(usage("--demo is a film of its own: give no other")),
            (_, _, Some(_)) => return Err(usage("--raw is for frames on standard input: give - as the film")),
        };
        let file = matches!(input, Input::File { .. });
        let raw = matches!(input, Input::Raw { .. });
        let demo = matches!(input, Input::Demo { .. });
        if self.scale.is_some() && !file {
            return Err(usage("--scale is for a film that ffmpeg decodes"));
        }
        if self.dim && !demo {
            return Err(usage("--dim is for --demo"));
        }
        if self.format.is_some() && !raw {
            return Err(usage("--format is for --raw"));
        }
        if self.rate.is_some() && (file || demo) {
            return Err(usage("--rate is for frames on standard input: this film has timestamps of its own"));
        }
        Ok(input)
    }
}

/// The flags that have a value.
const VALUED: [&str; 16] = [
    "--raw",
    "--rate",
    "--format",
    "--scale",
    "--detector",
    "--threshold",
    "--min-duration",
    "--weights",
    "--mode",
    "--kernel",
    "--window",
    "--min-content",
    "--initial-cut",
    "--plan",
    "--stats",
    "--plot",
];

fn usage(message: &str) -> Fault {
    Fault(format!("{message} (./film --help says more)"))
}

/// What `by` reads of a value, or what the value should be.
fn read<T>(flag: &str, text: &str, form: &str, by: impl Fn(&str) -> Option<T>) -> Result<T, Fault> {
    by(text).ok_or_else(|| usage(&format!("{flag} is {form}, not '{text}'")))
}

fn size(text: &str) -> Option<Size> {
    let (width, height) = text.split_once('x')?;
    Some(Size { width: whole(width)?, height: whole(height)? })
}

fn format(text: &str) -> Option<Format> {
    match text {
        "bgr24" => Some(Format::Bgr24),
        "gray" => Some(Format::Gray),
        _ => None,
    }
}

fn positive(text: &str) -> Option<u32> {
    whole(text).filter(|&number| number > 0)
}

/// Whether the detector is the adaptive one.
fn detector(text: &str) -> Option<bool> {
    match text {
        "content" => Some(false),
        "adaptive" => Some(true),
        _ => None,
    }
}

fn number(text: &str) -> Option<f64> {
    text.parse().ok()
}

fn weights(text: &str) -> Option<Components> {
    let numbers: Option<Vec<f64>> = text.split(',').map(number).collect();
    match numbers?[..] {
        [hue, saturation, luma, edges] => Some(Components { hue, saturation, luma, edges }),
        _ => None,
    }
}

fn mode(text: &str) -> Option<FilterMode> {
    match text {
        "merge" => Some(FilterMode::Merge),
        "suppress" => Some(FilterMode::Suppress),
        _ => None,
    }
}

fn yes(text: &str) -> Option<bool> {
    match text {
        "yes" => Some(true),
        "no" => Some(false),
        _ => None,
    }
}

/// Reads `1500000us`, `1.5s` or `1.5`, which is seconds too, with at most six digits behind the point.
fn micros(text: &str) -> Option<u64> {
    if let Some(number) = text.strip_suffix("us") {
        return whole(number);
    }
    let seconds = text.strip_suffix('s').unwrap_or(text);
    let (before, behind) = seconds.split_once('.').unwrap_or((seconds, "0"));
    if behind.len() > 6 {
        return None;
    }
    let parts = whole::<u64>(behind)? * 10u64.pow(6 - behind.len() as u32);
    whole::<u64>(before)?.checked_mul(1_000_000)?.checked_add(parts)
}

#[cfg(test)]
mod tests {
    use super::*;

    fn parsed(line: &str) -> Result<Command, Fault> {
        parse(line.split_whitespace().map(OsString::from))
    }

    fn args(line: &str) -> Args {
        match parsed(line) {
            Ok(Command::Cut(args)) => args,
            other => panic!("{line}: {other:?}"),
        }
    }

    #[test]
    fn films() {
        let size = Size { width: 640, height: 480 };
        let rate = Rate { frames: 25, seconds: 1 };
        assert_eq!(args("a.mp4").input, Input::File { path: "a.mp4".into(), scale: None });
        assert_eq!(args("--scale 320 a.mp4").input, Input::File { path: "a.mp4".into(), scale: Some(320) });
        assert_eq!(args("-- --demo").input, Input::File { path: "--demo".into(), scale: None });
        assert_eq!(args("-").input, Input::Y4m { rate: None });
        assert_eq!(args("- --rate=25").input, Input::Y4m { rate: Some(rate) });
        let raw = Input::Raw { size, format: Format::Gray, rate };
        assert_eq!(args("--raw 640x480 --rate 25 --format gray -").input, raw);
        assert_eq!(args("--demo").input, Input::Demo { dim: false });
        assert_eq!(args("--dim --demo").input, Input::Demo { dim: true });
        assert_eq!(parsed("a.mp4 --help"), Ok(Command::Help));
        assert_eq!(parsed("--version"), Ok(Command::Version));
    }

    #[test]
    fn settings() {
        let content = args(
            "- --threshold 30.5 --min-duration 600000us --weights 1,0.5,-2,1e-3 --mode suppress --kernel 5 --initial-cut no",
        );
        let weights = Components { hue: 1.0, saturation: 0.5, luma: -2.0, edges: 1e-3 };
        let options = ContentOptions {
            threshold: 30.5,
            min_duration: 600_000,
            weights,
            filter_mode: FilterMode::Suppress,
            kernel_size: Some(5),
            initial_cut: false,
        };
        assert_eq!(content.asked.settings(Format::Gray), Settings::Content(options));
        let adaptive = args("a --detector adaptive --window 3 --min-content 12 --kernel=7 --min-duration 0.6s");
        let options = AdaptiveOptions {
            window_width: 3,
            min_content_val: 12.0,
            kernel_size: Some(7),
            min_duration: 600_000,
            ..AdaptiveOptions::default()
        };
        assert_eq!(adaptive.asked.settings(Format::Bgr24), Settings::Adaptive(options));
    }

    #[test]
    fn a_plan_is_a_file() {
        assert_eq!(args("a --plan room.plan").plan, Some("room.plan".into()));
        assert_eq!(args("a --plan=-x").plan, Some("-x".into()));
        assert_eq!(args("a").plan, None);
    }

    #[test]
    fn luma_frames_have_luma_only_weights_unless_weights_are_given() {
        let weights = |line: &str, format| match args(line).asked.settings(format) {
            Settings::Content(options) => options.weights,
            Settings::Adaptive(options) => options.weights,
        };
        for detector in ["-", "- --detector adaptive"] {
            assert_eq!(weights(detector, Format::Gray), Components::LUMA_ONLY_WEIGHTS);
            assert_eq!(weights(detector, Format::Bgr24), Components::DEFAULT_WEIGHTS);
        }
        assert_eq!(weights("- --weights 1,1,1,0", Format::Gray), Components::DEFAULT_WEIGHTS);
    }

    #[test]
    fn durations() {
        for (text, number) in [("1.5s", 1_500_000), ("2", 2_000_000), ("0.000001", 1), ("7us", 7), ("0s", 0)] {
            assert_eq!(micros(text), Some(number), "{text}");
        }
        assert_eq!(micros("18446744073709551615us"), Some(u64::MAX));
        assert_eq!(micros("18446744073709.551615s"), Some(u64::MAX));
        for text in ["", "s", "us", "1.5us", "-1s", "1.", ".5", "1.0000001s", "1e3", "18446744073709.551616s", "1 s"] {
            assert_eq!(micros(text), None, "{text}");
        }
    }

    #[test]
    fn what_does_not_fit_is_refused() {
        for line in [
            "",
            "a b",
            "a --demo",
            "--demo -",
            "a --raw 1x1",
            "--demo --raw 1x1",
            "- --raw 1x1",
            "- --raw 1x1 --rate 25",
            "- --raw 1x1 --format gray",
            "- --raw 1 --rate 25 --format gray",
            "- --scale 320",
            "a --rate 25",
            "- --format gray",
            "--demo --rate 25",
            "a --scale 0",
            "a --csv --json",
            "a --mode",
            "a --mode fast",
            "a --detector x",
            "a --detector adaptive --mode merge",
            "a --detector adaptive --plan b",
            "a --plan",
            "a --dim",
            "- --dim",
            "--dim",
            "--demo --dim=yes",
            "a --window 2",
            "a --min-content 3",
            "a --weights 1,1,1",
            "a --weights 1,1,1,0,0",
            "a --kernel -3",
            "a --nothing",
            "a --nothing=1",
            "a --csv=1",
            "-x",
            "a --threshold x",
            "a --initial-cut maybe",
        ] {
            assert!(parsed(line).is_err(), "{line}: {:?}", parsed(line));
        }
    }

    #[test]
    fn numbers_that_the_library_refuses_are_not_refused_here() {
        let asked = args("a --threshold nan --kernel 4294967295 --weights inf,0,0,0").asked;
        assert!(asked.threshold.is_some_and(f64::is_nan) && asked.kernel_size == Some(u32::MAX));
    }

    #[test]
    fn each_flag_is_in_the_help() {
        for flag in VALUED.iter().chain(&["--demo", "--dim", "--csv", "--json", "--help", "--version"]) {
            assert!(HELP.contains(flag), "{flag}");
        }
    }
}
