//! `film`: finds the cuts of a film and lists its clips. It is plain Rust over the station library: what is proved is
//! the detector, not the reading of films or the writing of lists.
mod args;
mod axis;
mod demo;
mod detect;
mod ffmpeg;
mod frame;
mod number;
mod output;
mod plan;
mod plot;
mod progress;
mod queue;
mod raw;
mod record;
mod report;
mod stats;
mod svg;
mod timecode;
mod y4m;

use args::{Args, Command, Input, List, HELP};
use detect::Judge;
use frame::{Fault, Format, Header, Shown, Source};
use output::Output;
use progress::Progress;
use record::Film;
use std::fs::File;
use std::io::{self, Write};
use std::os::fd::AsFd;
use std::path::{Path, PathBuf};
use std::process::ExitCode;

/// The status if the command line or the settings are refused.
const REFUSED: u8 = 2;

fn main() -> ExitCode {
    let command = match args::parse(std::env::args_os().skip(1)) {
        Ok(command) => command,
        Err(fault) => return ended(Err(Ended { fault, status: REFUSED })),
    };
    ended(match command {
        Command::Help => output::print(|out| out.write_all(HELP.as_bytes())).map_err(Ended::from),
        Command::Version => output::print(|out| writeln!(out, "film {}", version())).map_err(Ended::from),
        Command::Cut(args) => cut(&args),
    })
}

/// A run that did not end well, and its status.
struct Ended {
    fault: Fault,
    status: u8,
}

impl From<Fault> for Ended {
    fn from(fault: Fault) -> Ended {
        Ended { fault, status: 1 }
    }
}

/// Says why a run did not end well.
fn ended(run: Result<(), Ended>) -> ExitCode {
    match run {
        Ok(()) => ExitCode::SUCCESS,
        Err(Ended { fault, status }) => {
            say(&fault.0);
            ExitCode::from(status)
        }
    }
}

/// One line on standard error; where nobody can read it, nothing is lost that could be helped.
fn say(message: &str) {
    let _ = writeln!(io::stderr(), "film: {message}");
}

fn version() -> String {
    let (major, minor, patch) = mawerodu::version();
    format!("{major}.{minor}.{patch}")
}

/// Cuts a film and writes what was asked for; after a fault too, with what was found before.
fn cut(args: &Args) -> Result<(), Ended> {
    let judge = judge(args)?;
    let files = Files::open(args)?;
    let film = read(open(&args.input)?, judge, name(&args.input));
    let written = write(args.list, files, &film);
    match film.fault {
        Some(fault) => {
            if let Err(fault) = written {
                say(&fault.0);
            }
            Err(fault.into())
        }
        None => Ok(written?),
    }
}

/// The detector, by the settings that were given and the kind of frame.
fn judge(args: &Args) -> Result<Judge, Ended> {
    let refused = |fault| Ended { fault, status: REFUSED };
    let plan = args.plan.as_deref().map_or(Ok(Vec::new()), plan::read).map_err(refused)?;
    let format = args.input.format();
    let judge = Judge::new(args.asked.settings(format), &plan).map_err(|refusal| {
        let place = args.plan.as_deref().and_then(|path| plan::place(path, &plan, refusal)).unwrap_or_default();
        refused(Fault(format!("the settings are refused by {refusal}{place}")))
    })?;
    let judge = if args.stats.is_some() { judge.with_medians() } else { judge };
    if format == Format::Gray && args.asked.weights.is_none() {
        say("luma frames: the weights are 0,0,1,0, so a score is the luma difference (--weights sets others)");
    }
    Ok(judge)
}

fn open(input: &Input) -> Result<Box<dyn Source>, Fault> {
    Ok(match input {
        Input::File { path, scale } => Box::new(ffmpeg::Ffmpeg::open(path.as_os_str(), *scale)?),
        Input::Y4m { rate } => Box::new(y4m::Y4m::open(stdin()?, *rate)?),
        Input::Raw { size, format, rate } => Box::new(raw::Raw::open(stdin()?, *size, *format, *rate)?),
        Input::Demo { dim } => Box::new(demo::Demo::new(*dim)),
    })
}

/// Standard input, without the standard library's buffer between.
fn stdin() -> Result<File, Fault> {
    let owned = io::stdin().as_fd().try_clone_to_owned();
    owned.map(File::from).map_err(|error| Fault(format!("standard input can't be read: {error}")))
}

/// Reads the film to its end, or to a fault, and judges each frame.
fn read(source: Box<dyn Source>, mut judge: Judge, name: String) -> Film {
    let Header { size, format, length } = source.header();
    let mut progress = Progress::new(length);
    let mut last = None;
    let read = queue::each_frame(source, |pixels, shown| {
        judge.frame(pixels, size, format, shown)?;
        progress.frame(judge.frames.len(), shown.at);
        last = Some(shown);
        Ok(())
    });
    progress.done();
    if let Some(cut) = judge.held_back() {
        let cut = timecode::timecode(cut);
        say(&format!(
            "a merge was pending at the end: its cut at {cut} is not listed (--mode suppress holds none back)"
        ));
    }
    let (ended, fault) = match read {
        Ok(_) if judge.frames.is_empty() => (false, Some(Fault("the film has no frames".into()))),
        Ok(damage) => (true, damage),
        Err(fault) => (false, Some(fault)),
    };
    let end = last.map_or(0, |shown| ends(shown, &judge));
    Film { name, size, format, settings: judge.settings, plan: judge.plan, frames: judge.frames, end, ended, fault }
}

/// When the last frame ends: where that is not known, it lasts as long as the one before.
fn ends(last: Shown, judge: &Judge) -> i64 {
    let before = judge.frames.iter().rev().nth(1).map_or(last.at, |frame| frame.at);
    let lasts = last.at.saturating_sub(before).max(0);
    last.until.unwrap_or_else(|| last.at.saturating_add(lasts))
}

fn name(input: &Input) -> String {
    match input {
        Input::File { path, .. } => path.to_string_lossy().into_owned(),
        Input::Y4m { .. } | Input::Raw { .. } => "-".into(),
        Input::Demo { dim: false } => "demo".into(),
        Input::Demo { dim: true } => "dim demo".into(),
    }
}

/// The files to write, which are opened before the film is read, so that a wrong name is told at once.
struct Files {
    stats: Option<Output>,
    plot: Option<Output>,
}

impl Files {
    /// Opens them, unless one would be written over the other or over the film.
    fn open(args: &Args) -> Result<Files, Fault> {
        let opened = |path: &Option<PathBuf>| path.as_deref().map(Output::open).transpose();
        let files = Files { stats: opened(&args.stats)?, plot: opened(&args.plot)? };
        let needed = match &args.input {
            Input::File { path, .. } => path.as_path(),
            Input::Y4m { .. } | Input::Raw { .. } => Path::new("/dev/stdin"),
            Input::Demo { .. } => Path::new(""),
        };
        files.stats.iter().chain(&files.plot).try_for_each(|file| file.apart(needed))?;
        if let (Some(plot), Some(stats)) = (&files.plot, &args.stats) {
            plot.apart(stats)?;
        }
        Ok(files)
    }
}

/// Writes the list, then the files. All are tried; the first fault is returned.
fn write(list: List, files: Files, film: &Film) -> Result<(), Fault> {
    let listed = output::print(|out| match list {
        List::Table => report::table(film, out),
        List::Csv => report::csv(film, out),
        List::Json => report::json(film, out),
    });
    let stats = files.stats.map_or(Ok(()), |file| file.write(|out| stats::write(film, out)));
    let plot = files.plot.map_or(Ok(()), |file| file.write(|out| plot::write(film, out)));
    listed.and(stats).and(plot)
}
