//! Reads what the program writes.
use crate::films::{Rate, Scenes};
use crate::json::{self, Value};

/// A clip, with its first frame counted from 1.
#[derive(Clone, Debug, PartialEq)]
pub struct Clip {
    pub first: usize,
    pub frames: usize,
    pub start: i64,
    pub end: i64,
}

/// The clips of a film, and what is said of the whole.
#[derive(Clone, Debug, PartialEq)]
pub struct List {
    pub clips: Vec<Clip>,
    pub frames: usize,
    pub size: String,
    pub fault: Option<String>,
}

/// The clips of a film of frames with these stamps, the last of which is its end.
pub fn clips(cuts: &[usize], stamps: &[i64]) -> Vec<Clip> {
    let frames = stamps.len() - 1;
    let mut places = vec![0];
    places.extend(cuts);
    places.push(frames);
    let clip = |pair: &[usize]| Clip {
        first: pair[0] + 1,
        frames: pair[1] - pair[0],
        start: stamps[pair[0]],
        end: stamps[pair[1]],
    };
    places.windows(2).map(clip).collect()
}

/// The stamps of frames at a rate, and the end of the last.
pub fn stamps(frames: usize, rate: Rate) -> Vec<i64> {
    (0..=frames).map(|frame| rate.stamp(frame)).collect()
}

/// What must be found of a film of scenes.
pub fn known(film: &Scenes, rate: Rate) -> List {
    List {
        clips: clips(&film.cuts(), &stamps(film.frames(), rate)),
        frames: film.frames(),
        size: format!("{}x{}", film.width, film.height),
        fault: None,
    }
}

/// The same of its first frames only.
pub fn known_until(film: &Scenes, rate: Rate, frames: usize) -> List {
    let cuts: Vec<usize> = film.cuts().into_iter().filter(|&cut| cut < frames).collect();
    List { clips: clips(&cuts, &stamps(frames, rate)), frames, ..known(film, rate) }
}

/// Microseconds as hours, minutes, seconds and milliseconds.
pub fn timecode(micros: i64) -> String {
    let millis = (micros.unsigned_abs() + 500) / 1000;
    let (seconds, sign) = (millis / 1000, if micros < 0 && millis > 0 { "-" } else { "" });
    format!("{sign}{:02}:{:02}:{:02}.{:03}", seconds / 3600, seconds / 60 % 60, seconds % 60, millis % 1000)
}

/// Reads a number that a column has.
fn number<T: std::str::FromStr>(cell: &str) -> T {
    cell.parse().unwrap_or_else(|_| panic!("no number: {cell}"))
}

/// Reads `--json`. Each number that stands there twice must be the same both times.
pub fn json(text: &str) -> List {
    let film = object(text);
    let clips: Vec<Clip> =
        film.of("clips").list().iter().enumerate().map(|(place, clip)| json_clip(place, clip)).collect();
    let cuts: Vec<i64> = film.of("cuts").list().iter().map(Value::number).collect();
    assert_eq!(cuts, clips.iter().skip(1).map(|clip| clip.start).collect::<Vec<_>>());
    let end: i64 = film.of("end_us").number();
    assert_eq!(clips.last().map_or(end, |clip| clip.end), end);
    let fault = match film.of("fault") {
        Value::Null => None,
        fault => Some(fault.text().to_string()),
    };
    assert_eq!(film.of("complete"), &Value::Bool(fault.is_none()));
    let size = format!("{}x{}", film.of("width").number::<u32>(), film.of("height").number::<u32>());
    List { clips, frames: film.of("frames").number(), size, fault }
}

/// The object that `--json` writes.
pub fn object(text: &str) -> Value {
    json::read(text).unwrap_or_else(|fault| panic!("{fault} in {text}"))
}

fn json_clip(place: usize, clip: &Value) -> Clip {
    let (start, end) = (clip.of("start_us").number(), clip.of("end_us").number());
    assert_eq!(clip.of("number").number::<usize>(), place + 1);
    assert_eq!(clip.of("length_us").number::<i64>(), end - start);
    assert_eq!((clip.of("start").text(), clip.of("end").text()), (&*timecode(start), &*timecode(end)));
    Clip { first: clip.of("first_frame").number(), frames: clip.of("frames").number(), start, end }
}

const CSV: &str =
    "Scene Number,Start Frame,Start Timecode,Start Time (seconds),End Frame,End Timecode,End Time (seconds),\
                   Length (frames),Length (timecode),Length (seconds),Start (us),End (us),Length (us)";

/// Reads the clips of `--csv`.
pub fn csv(text: &str) -> Vec<Clip> {
    let mut lines = text.lines();
    assert_eq!(lines.next(), Some(CSV));
    lines.enumerate().map(|(place, line)| csv_clip(place, line)).collect()
}

fn csv_clip(place: usize, line: &str) -> Clip {
    let cells: Vec<&str> = line.split(',').collect();
    let [first, last, frames] = [1, 4, 7].map(|column| number::<usize>(cells[column]));
    let [start, end, length] = [10, 11, 12].map(|column| number::<i64>(cells[column]));
    assert_eq!(number::<usize>(cells[0]), place + 1);
    assert_eq!((last + 1 - first, end - start), (frames, length));
    for (columns, micros) in [([2, 3], start), ([5, 6], end), ([8, 9], length)] {
        let seconds = format!("{}.{:06}", micros / 1_000_000, micros % 1_000_000);
        assert_eq!(columns.map(|column| cells[column]), [&*timecode(micros), &*seconds], "{line}");
    }
    assert_eq!(cells.len(), 13, "{line}");
    Clip { first, frames, start, end }
}

/// Reads the table.
pub fn table(text: &str) -> List {
    let lines: Vec<&str> = text.lines().collect();
    let last = lines.iter().position(|line| line.contains(" of ") && line.contains(" detector, "));
    let last = last.unwrap_or_else(|| panic!("no line on the whole film: {text}"));
    let words: Vec<String> = lines[last].split_whitespace().map(|word| word.replace(',', "")).collect();
    let [count, cuts, frames] = [0, 2, 4].map(|place| number::<usize>(&words[place]));
    let mut clips: Vec<Clip> = (1..last).map(|place| table_clip(place, lines[place])).collect();
    assert_eq!((clips.len(), clips.len().saturating_sub(1)), (count, cuts), "{text}");
    let mut next = frames + 1;
    for clip in clips.iter_mut().rev() {
        clip.frames = next - clip.first;
        next = clip.first;
    }
    let fault = lines.get(last + 1).map(|line| line.to_string());
    assert!(fault.iter().all(|line| line.starts_with("incomplete: ")) && lines.len() <= last + 2, "{text}");
    List { clips, frames, size: words[7].clone(), fault }
}

fn table_clip(place: usize, line: &str) -> Clip {
    let cells: Vec<&str> = line.split_whitespace().collect();
    let (start, end) = (number(cells[3]), number(cells[5]));
    assert_eq!(number::<usize>(cells[0]), place);
    assert_eq!([cells[2], cells[4], cells[6]], [start, end, end - start].map(timecode).each_ref().map(|code| &**code));
    assert!(cells.len() == 7 && line.len() < 100, "{line}");
    Clip { first: number(cells[1]), frames: 0, start, end }
}

/// A line of `--stats`.
#[derive(Clone, Debug, PartialEq)]
pub struct Stat {
    pub at: i64,
    pub score: Option<f64>,
    /// Hue, saturation, luma, edges.
    pub deltas: [Option<f64>; 4],
    pub ratio: Option<f64>,
    pub cut: bool,
    pub median: u8,
}

/// Reads `--stats`; of the adaptive detector, that has this window.
pub fn stats(text: &str, window: Option<usize>) -> Vec<Stat> {
    let mut lines = text.lines();
    let ratio = window.map_or(String::new(), |window| format!("adaptive_ratio (w={window}),"));
    let head = "Frame Number,Timecode,Timestamp (us),content_val,delta_hue,delta_sat,delta_lum,delta_edges,";
    assert_eq!(lines.next(), Some(&*format!("{head}{ratio}cut,luma_median")));
    lines.enumerate().map(|(place, line)| stat(place, line, window.is_some())).collect()
}

fn stat(place: usize, line: &str, adaptive: bool) -> Stat {
    let mut cells: Vec<&str> = line.split(',').collect();
    let ratio = if adaptive { cells.remove(8) } else { "" };
    assert_eq!((number::<usize>(cells[0]), cells.len()), (place + 1, 10), "{line}");
    let some = |cell: &str| (!cell.is_empty()).then(|| number::<f64>(cell));
    let at = number(cells[2]);
    assert_eq!(cells[1], timecode(at));
    assert!(["0", "1"].contains(&cells[8]), "{line}");
    let deltas = [4, 5, 6, 7].map(|column| some(cells[column]));
    let (score, cut, median) = (some(cells[3]), cells[8] == "1", number(cells[9]));
    Stat { at, score, deltas, ratio: some(ratio), cut, median }
}

/// Compares two lists, and says where they differ first.
pub fn same<T: PartialEq + std::fmt::Debug>(found: &[T], known: &[T], what: &str) {
    let place = found.iter().zip(known).position(|(found, known)| found != known);
    if let Some(place) = place {
        panic!("{what}: {:?} at place {place}, and not {:?}", found[place], known[place]);
    }
    assert_eq!(found.len(), known.len(), "{what}");
}

/// A whole picture: it begins and ends as one, and shows something.
pub fn is_picture(text: &str) -> bool {
    text.contains("<svg") && text.trim_end().ends_with("</svg>") && !text.contains("NaN")
}
