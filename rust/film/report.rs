//! The clips of a film: as a table for people, as comma-separated values, as JSON. Frames are counted from 1.
use crate::frame::Format;
use crate::number::{counted, exact, short};
use crate::plan::{Plan, Row};
use crate::record::{Clip, Film, Settings};
use crate::timecode::{seconds, timecode};
use mawerodu::{Components, FilterMode};
use std::fmt::Write as _;
use std::io::{self, Write};

/// One line a clip, and a last line that says what was cut and how. Where the film was not read to its end, or is
/// damaged, a line more says so.
pub fn table(film: &Film, out: &mut dyn Write) -> io::Result<()> {
    let head = ["clip", "frame", "start", "microseconds", "end", "microseconds", "length"].map(String::from);
    let clips = film.clips();
    let rows: Vec<[String; 7]> = std::iter::once(head).chain(clips.iter().map(row)).collect();
    let widths = rows.iter().fold([0; 7], widened);
    for row in &rows {
        writeln!(out, "{}", aligned(row, &widths))?;
    }
    writeln!(out, "{}", summary(film, clips.len()))?;
    if let Some(lacks) = film.lacks() {
        writeln!(out, "{lacks}")?;
    }
    Ok(())
}

/// Widths that are enough for a line too.
fn widened(mut widths: [usize; 7], row: &[String; 7]) -> [usize; 7] {
    for (width, cell) in widths.iter_mut().zip(row) {
        *width = cell.len().max(*width);
    }
    widths
}

fn row(clip: &Clip) -> [String; 7] {
    [
        clip.number.to_string(),
        (clip.first + 1).to_string(),
        timecode(clip.start),
        clip.start.to_string(),
        timecode(clip.end),
        clip.end.to_string(),
        timecode(length(clip)),
    ]
}

/// The cells of a line, each at the right of its column.
fn aligned(row: &[String; 7], widths: &[usize; 7]) -> String {
    let cells = row.iter().zip(widths).map(|(cell, &width)| format!("{cell:>width$}"));
    cells.collect::<Vec<_>>().join("  ")
}

/// The time from the first frame of a clip to its end, in microseconds; below 0 where stamps fall.
fn length(clip: &Clip) -> i128 {
    i128::from(clip.end) - i128::from(clip.start)
}

/// A line on the whole film, such as `2 clips, 1 cut, 50 frames of 640x480, content detector, threshold 27`.
pub fn summary(film: &Film, clips: usize) -> String {
    let (detector, threshold) = match &film.settings {
        Settings::Content(options) => ("content", options.threshold),
        Settings::Adaptive(options) => ("adaptive", options.threshold),
    };
    let threshold = match &film.plan {
        Some(plan) => format!("light plan of {}", counted(plan.rows().len(), "row")),
        None => format!("threshold {}", short(threshold)),
    };
    format!(
        "{}, {}, {} of {}, {detector} detector, {threshold}",
        counted(clips, "clip"),
        counted(clips.saturating_sub(1), "cut"),
        counted(film.frames.len(), "frame"),
        film.size
    )
}

/// The columns of PySceneDetect's list of scenes, and behind them the exact microseconds.
pub fn csv(film: &Film, out: &mut dyn Write) -> io::Result<()> {
    let head = "Scene Number,Start Frame,Start Timecode,Start Time (seconds),End Frame,End Timecode,\
                End Time (seconds),Length (frames),Length (timecode),Length (seconds),\
                Start (us),End (us),Length (us)";
    writeln!(out, "{head}")?;
    for clip in film.clips() {
        writeln!(out, "{}", record(&clip))?;
    }
    Ok(())
}

fn record(clip: &Clip) -> String {
    let cells = [
        clip.number.to_string(),
        (clip.first + 1).to_string(),
        timecode(clip.start),
        seconds(clip.start),
        (clip.first + clip.frames).to_string(),
        timecode(clip.end),
        seconds(clip.end),
        clip.frames.to_string(),
        timecode(length(clip)),
        seconds(length(clip)),
        clip.start.to_string(),
        clip.end.to_string(),
        length(clip).to_string(),
    ];
    cells.join(",")
}

/// One object: the film, the settings by the names of the wrapper, the cuts and the clips. JSON has no infinite
/// numbers: such a setting is a string, `"inf"` or `"-inf"`.
pub fn json(film: &Film, out: &mut dyn Write) -> io::Result<()> {
    let clips = film.clips();
    let cuts: Vec<String> = clips.iter().skip(1).map(|clip| clip.start.to_string()).collect();
    let fault = film.fault.as_ref().map_or("null".to_string(), |fault| quoted(&fault.0));
    let (detector, settings) = settings(film);
    writeln!(out, "{{\n  \"film\": {},", quoted(&film.name))?;
    writeln!(out, "  \"width\": {},\n  \"height\": {},", film.size.width, film.size.height)?;
    writeln!(out, "  \"format\": \"{}\",\n  \"frames\": {},", format_name(film.format), film.frames.len())?;
    writeln!(out, "  \"end_us\": {},\n  \"detector\": \"{detector}\",", film.end)?;
    writeln!(out, "  \"settings\": {{\n    {}\n  }},", settings.join(",\n    "))?;
    writeln!(out, "  \"complete\": {},\n  \"fault\": {fault},", film.fault.is_none())?;
    writeln!(out, "  \"cuts\": [{}],", cuts.join(", "))?;
    out.write_all(b"  \"clips\": [")?;
    for clip in &clips {
        let before = if clip.number == 1 { "" } else { "," };
        write!(out, "{before}\n    {}", object(clip))?;
    }
    let after = if clips.is_empty() { "" } else { "\n  " };
    writeln!(out, "{after}]\n}}")
}

fn object(clip: &Clip) -> String {
    format!(
        "{{\"number\": {}, \"first_frame\": {}, \"frames\": {}, \"start_us\": {}, \"end_us\": {}, \
         \"length_us\": {}, \"start\": \"{}\", \"end\": \"{}\"}}",
        clip.number,
        clip.first + 1,
        clip.frames,
        clip.start,
        clip.end,
        length(clip),
        timecode(clip.start),
        timecode(clip.end)
    )
}

fn format_name(format: Format) -> &'static str {
    match format {
        Format::Bgr24 => "bgr24",
        Format::Gray => "gray",
    }
}

/// The detector and its settings, each with its name.
fn settings(film: &Film) -> (&'static str, Vec<String>) {
    match &film.settings {
        Settings::Content(o) => {
            let mode = match o.filter_mode {
                FilterMode::Merge => "merge",
                FilterMode::Suppress => "suppress",
            };
            let plan = film.plan.as_ref().map_or("null".to_string(), rows);
            let own = [format!("\"filter_mode\": \"{mode}\""), format!("\"plan\": {plan}")];
            ("content", all_settings(o.threshold, o.min_duration, own, o.weights, o.kernel_size, o.initial_cut))
        }
        Settings::Adaptive(o) => {
            let own = [
                format!("\"window_width\": {}", o.window_width),
                format!("\"min_content_val\": {}", float(o.min_content_val)),
            ];
            ("adaptive", all_settings(o.threshold, o.min_duration, own, o.weights, o.kernel_size, o.initial_cut))
        }
    }
}

/// The rows of a light plan, as a list.
fn rows(plan: &Plan) -> String {
    let object =
        |row: &Row| format!("{{\"from\": {}, \"to\": {}, \"threshold\": {}}}", row.from, row.to, row.threshold);
    let rows: Vec<String> = plan.rows().iter().map(object).collect();
    format!("[{}]", rows.join(", "))
}

/// The settings that both detectors have, around those of one of them.
fn all_settings<const N: usize>(
    threshold: f64,
    min_duration: u64,
    own: [String; N],
    weights: Components,
    kernel_size: Option<u32>,
    initial_cut: bool,
) -> Vec<String> {
    let [hue, saturation, luma, edges] = [weights.hue, weights.saturation, weights.luma, weights.edges].map(float);
    let mut all = vec![format!("\"threshold\": {}", float(threshold)), format!("\"min_duration\": {min_duration}")];
    all.extend(own);
    all.push(format!(
        "\"weights\": {{\"hue\": {hue}, \"saturation\": {saturation}, \"luma\": {luma}, \"edges\": {edges}}}"
    ));
    all.push(format!("\"kernel_size\": {}", kernel_size.map_or("null".to_string(), |size| size.to_string())));
    all.push(format!("\"initial_cut\": {initial_cut}"));
    all
}

fn float(value: f64) -> String {
    if value.is_finite() {
        exact(value)
    } else {
        format!("\"{value}\"")
    }
}

/// A text as a JSON string.
fn quoted(text: &str) -> String {
    let mut quoted = String::from('"');
    for character in text.chars() {
        match character {
            '"' => quoted.push_str("\\\""),
            '\\' => quoted.push_str("\\\\"),
            '\n' => quoted.push_str("\\n"),
            '\r' => quoted.push_str("\\r"),
            '\t' => quoted.push_str("\\t"),
            control if control < ' ' => {
                // a String takes all that is written
                let _ = write!(quoted, "\\u{:04x}", u32::from(control));
            }
            other => quoted.push(other),
        }
    }
    quoted.push('"');
    quoted
}

/// Films for the tests of all that is written.
#[cfg(test)]
pub mod sample {
    use crate::frame::{Format, Size};
    use crate::plan::Plan;
    use crate::record::{Film, Frame, Settings};
    use mawerodu::{AdaptiveOptions, Components, ContentOptions};

    pub fn frame(at: i64, score: Option<f64>, components: [f64; 4], cut: bool) -> Frame {
        let [hue, saturation, luma, edges] = components;
        let components = Components { hue, saturation, luma, edges };
        Frame { at, score, components, ratio: None, median: Some(40), threshold: None, cut }
    }

    /// Four frames with a cut at the third, which is brighter.
    pub fn content() -> Film {
        let mut film = Film {
            name: "demo".to_string(),
            size: Size { width: 640, height: 480 },
            format: Format::Bgr24,
            settings: Settings::Content(ContentOptions::default()),
            plan: None,
            frames: vec![
                frame(0, None, [0.0; 4], false),
                frame(33_367, Some(1.0 / 3.0), [1.0, 0.0, 0.0, 0.0], false),
                frame(1_500_000, Some(85.0), [10.5, 44.5, 200.0, 0.0], true),
                frame(1_533_400, Some(0.0), [0.0; 4], false),
            ],
            end: 1_566_767,
            ended: true,
            fault: None,
        };
        film.frames[2..].iter_mut().for_each(|frame| frame.median = Some(240));
        film
    }

    /// The same by a light plan of two rows.
    pub fn planned() -> Film {
        let plan = Plan::of("0,99,8\n100,255,27\n");
        let mut film = Film { plan, ..content() };
        for (frame, threshold) in film.frames.iter_mut().zip([8.0, 8.0, 27.0, 27.0]) {
            frame.threshold = Some(threshold);
        }
        film
    }

    pub fn adaptive() -> Film {
        let options = AdaptiveOptions { window_width: 3, ..AdaptiveOptions::default() };
        let mut film = Film { settings: Settings::Adaptive(options), ..content() };
        film.frames[2].ratio = Some(255.0);
        film
    }

    /// Frames of a 25th of a second with these scores after the first frame, and cuts at these places, in order.
    pub fn scored(scores: &[f64], cuts: &[usize]) -> Film {
        let scores = std::iter::once(None).chain(scores.iter().copied().map(Some));
        let frames: Vec<Frame> = scores
            .enumerate()
            .map(|(place, score)| frame(place as i64 * 40_000, score, [0.0; 4], cuts.binary_search(&place).is_ok()))
            .collect();
        Film { end: frames.len() as i64 * 40_000, frames, ..content() }
    }
}

#[cfg(test)]
mod tests {
    use super::*;
    use crate::frame::Fault;
    use crate::record::Frame;
    use mawerodu::{AdaptiveOptions, ContentOptions};

    type Writer = fn(&Film, &mut dyn Write) -> io::Result<()>;

    fn written(writer: Writer, film: &Film) -> String {
        let mut out = Vec::new();
        writer(film, &mut out).unwrap();
        String::from_utf8(out).unwrap()
    }

    fn with_fault() -> Film {
        let fault = Some(Fault("the film ends in the middle of frame 5".to_string()));
        Film { ended: false, fault, ..sample::content() }
    }

    fn empty() -> Film {
        Film { frames: Vec::new(), end: 0, ..sample::adaptive() }
    }

    #[test]
    fn a_table() {
        let lines = "
clip  frame         start  microseconds           end  microseconds        length
   1      1  00:00:00.000             0  00:00:01.500       1500000  00:00:01.500
   2      3  00:00:01.500       1500000  00:00:01.567       1566767  00:00:00.067
2 clips, 1 cut, 4 frames of 640x480, content detector, threshold 27
";
        assert_eq!(written(table, &sample::content()), lines[1..]);
        let last = "incomplete: the film ends in the middle of frame 5; these are the clips up to there\n";
        assert_eq!(written(table, &with_fault()), lines[1..].to_string() + last);
        let last = "damaged: the film ends in the middle of frame 5; frames may be missing or wrong\n";
        assert_eq!(written(table, &Film { ended: true, ..with_fault() }), lines[1..].to_string() + last);
    }

    #[test]
    fn a_table_by_a_light_plan() {
        let text = written(table, &sample::planned());
        assert!(
            text.ends_with("2 clips, 1 cut, 4 frames of 640x480, content detector, light plan of 2 rows\n"),
            "{text}"
        );
    }

    #[test]
    fn a_table_of_no_frames() {
        let lines = "
clip  frame  start  microseconds  end  microseconds  length
0 clips, 0 cuts, 0 frames of 640x480, adaptive detector, threshold 3
";
        assert_eq!(written(table, &empty()), lines[1..]);
    }

    #[test]
    fn a_table_of_a_long_film_is_aligned_and_narrow() {
        let at = [0, 7_200_000_000, 86_399_999_999];
        let frame = |at| sample::frame(at, Some(0.0), [0.0; 4], at > 0);
        let film = Film { frames: at.map(frame).to_vec(), end: 86_400_000_000, ..sample::content() };
        let text = written(table, &film);
        let widths: Vec<usize> = text.lines().take(4).map(str::len).collect();
        assert!(widths.iter().all(|&width| width == widths[0] && width < 100), "{text}");
    }

    #[test]
    fn a_csv() {
        let lines = "\
Scene Number,Start Frame,Start Timecode,Start Time (seconds),End Frame,End Timecode,End Time (seconds),\
Length (frames),Length (timecode),Length (seconds),Start (us),End (us),Length (us)
1,1,00:00:00.000,0.000000,2,00:00:01.500,1.500000,2,00:00:01.500,1.500000,0,1500000,1500000
2,3,00:00:01.500,1.500000,4,00:00:01.567,1.566767,2,00:00:00.067,0.066767,1500000,1566767,66767
";
        assert_eq!(written(csv, &sample::content()), lines);
        assert_eq!(written(csv, &empty()), lines.lines().next().unwrap().to_string() + "\n");
    }

    #[test]
    fn a_json_object() {
        let text = r#"{
  "film": "demo",
  "width": 640,
  "height": 480,
  "format": "bgr24",
  "frames": 4,
  "end_us": 1566767,
  "detector": "content",
  "settings": {
    "threshold": 27.0,
    "min_duration": 1000000,
    "filter_mode": "merge",
    "plan": null,
    "weights": {"hue": 1.0, "saturation": 1.0, "luma": 1.0, "edges": 0.0},
    "kernel_size": null,
    "initial_cut": true
  },
  "complete": false,
  "fault": "the film ends in the middle of frame 5",
  "cuts": [1500000],
  "clips": [
    {"number": 1, "first_frame": 1, "frames": 2, "start_us": 0, "end_us": 1500000, "length_us": 1500000, "start": "00:00:00.000", "end": "00:00:01.500"},
    {"number": 2, "first_frame": 3, "frames": 2, "start_us": 1500000, "end_us": 1566767, "length_us": 66767, "start": "00:00:01.500", "end": "00:00:01.567"}
  ]
}
"#;
        assert_eq!(written(json, &with_fault()), text);
    }

    #[test]
    fn a_json_object_of_no_frames() {
        let text = written(json, &empty());
        for part in [
            "  \"detector\": \"adaptive\",\n",
            "    \"window_width\": 3,\n    \"min_content_val\": 15.0,\n",
            "  \"complete\": true,\n  \"fault\": null,\n  \"cuts\": [],\n  \"clips\": []\n}\n",
        ] {
            assert!(text.contains(part), "{text}");
        }
    }

    #[test]
    fn json_of_all_settings() {
        let options = ContentOptions {
            threshold: f64::NEG_INFINITY,
            min_duration: u64::MAX,
            weights: Components { hue: -0.5, saturation: 1e-300, luma: 0.1, edges: -0.0 },
            filter_mode: FilterMode::Suppress,
            kernel_size: Some(7),
            initial_cut: false,
        };
        let of = |settings_of| settings(&Film { settings: settings_of, ..sample::planned() }).1;
        let all = of(Settings::Content(options)).join("\n");
        let lines = r#"
"threshold": "-inf"
"min_duration": 18446744073709551615
"filter_mode": "suppress"
"plan": [{"from": 0, "to": 99, "threshold": 8}, {"from": 100, "to": 255, "threshold": 27}]
"weights": {"hue": -0.5, "saturation": 1e-300, "luma": 0.1, "edges": -0.0}
"kernel_size": 7
"initial_cut": false"#;
        assert_eq!(all, lines[1..]);
        let options = AdaptiveOptions { min_content_val: f64::INFINITY, ..AdaptiveOptions::default() };
        assert_eq!(of(Settings::Adaptive(options))[3], "\"min_content_val\": \"inf\"");
    }

    #[test]
    fn strings_are_escaped() {
        assert_eq!(quoted("a\"b\\c\n\t\r\u{1}\u{1f}\u{7f}é😀"), "\"a\\\"b\\\\c\\n\\t\\r\\u0001\\u001f\u{7f}é😀\"");
        let film = Film { name: "a\"b\n".to_string(), ..sample::content() };
        assert!(written(json, &film).contains("\"film\": \"a\\\"b\\n\","));
    }

    #[test]
    fn the_farthest_stamps() {
        let frames: Vec<Frame> = [i64::MAX, i64::MIN].map(|at| sample::frame(at, None, [0.0; 4], true)).to_vec();
        let film = Film { frames, end: i64::MAX, ..sample::content() };
        let text = written(csv, &film);
        assert!(text.contains(",-18446744073709551615\n") && text.contains(",18446744073709551615\n"), "{text}");
        assert!(written(table, &film).contains("-2562047788:00:54.776"));
        assert!(written(json, &film).contains("\"length_us\": -18446744073709551615,"));
    }

    #[test]
    fn a_full_disk_is_told() {
        for writer in [table as Writer, csv, json] {
            let film = sample::content();
            let length = written(writer, &film).len();
            assert!(writer(&film, &mut vec![0u8; length].as_mut_slice()).is_ok());
            assert!(writer(&film, &mut vec![0u8; length - 1].as_mut_slice()).is_err());
        }
    }
}
