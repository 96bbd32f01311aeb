//! Films that ffmpeg decodes. They are made with the ffmpeg on the PATH; where there is none, each test says that it
//! was left out, and passes.
use crate::films::{Scenes, NTSC, PAL};
use crate::lists::{self, clips, known, stamps, List};
use crate::program::{call, started, text, Room};
use std::ffi::OsStr;
use std::io::Write;
use std::os::unix::ffi::OsStrExt;
use std::path::Path;
use std::process::{Command, Stdio};

const SCENES: Scenes = Scenes { width: 64, height: 48, lengths: &[33, 47, 35, 40] };

/// Whether ffmpeg is there. If it is not, this says that a test was left out.
fn ffmpeg_is_there(test: &str) -> bool {
    let mut command = Command::new("ffmpeg");
    let version = started(command.arg("-version").stdout(Stdio::null()).stderr(Stdio::null()));
    let there = version.and_then(|mut child| child.wait()).is_ok();
    if !there {
        // past the harness, which keeps what a passing test prints
        let _ = writeln!(std::io::stderr(), "LEFT OUT, there is no ffmpeg: {test}");
    }
    there
}

/// Runs ffmpeg on frames of `SCENES` in BGR, so many a second.
fn encoded(rate: &str, words: &str, file: &Path) {
    let line = format!("-f rawvideo -pix_fmt bgr24 -video_size 64x48 -framerate {rate} -i - {words}");
    ffmpeg(&line, &SCENES.bgr24(), file);
}

/// Runs ffmpeg in the folder of a file to write, with the words of a line.
fn ffmpeg(line: &str, input: &[u8], file: &Path) {
    let mut command = Command::new("ffmpeg");
    command.args("-hide_banner -loglevel error -y".split_whitespace()).args(line.split_whitespace());
    command.arg(file).current_dir(file.parent().expect("it is in a room")).stdin(Stdio::piped());
    let mut child = started(&mut command).expect("ffmpeg has to start");
    child.stdin.take().expect("its input is a pipe").write_all(input).expect("ffmpeg has to read all");
    assert!(child.wait().expect("it ends").success(), "ffmpeg {line}");
}

/// What is said of a film that is read well.
fn found(file: &Path, words: &str) -> List {
    let ended = call(words.split_whitespace()).word("--json").word(file).run();
    lists::json(&ended.well())
}

/// Compares with what is known of a film but for its end, which may be a microsecond beside it: it is the last stamp
/// and the length of a frame, both rounded.
fn compare(mut found: List, known: List, what: &str) {
    let ends = (found.clips.last_mut(), known.clips.last());
    if let (Some(found), Some(known)) = ends {
        assert!(found.end.abs_diff(known.end) <= 1, "{what}: the end is {}, and not {}", found.end, known.end);
        found.end = known.end;
    }
    assert_eq!(found, known, "{what}");
}

/// A film without losses, in a container with stamps in milliseconds.
const LOSSLESS: &str = "-c:v ffv1 -pix_fmt bgr0 -f matroska";

#[test]
fn a_decoded_film_is_cut_where_its_scenes_change() {
    if !ffmpeg_is_there("a film without losses, and films with losses") {
        return;
    }
    let room = Room::new();
    let cases = [
        ("one.mkv", "25", PAL, LOSSLESS),
        ("two.mp4", "25", PAL, "-c:v mpeg4 -q:v 2"),
        ("three.mp4", "30000/1001", NTSC, "-c:v mpeg4 -q:v 2 -bf 2"),
        ("four.avi", "30000/1001", NTSC, "-c:v mjpeg -q:v 2"),
    ];
    for (name, given, rate, words) in cases {
        let file = room.file(name);
        encoded(given, words, &file);
        for detector in ["", "--mode suppress", "--detector adaptive"] {
            compare(found(&file, detector), known(&SCENES, rate), &format!("{name} {detector}"));
        }
    }
}

#[test]
fn a_film_without_losses_has_the_scores_of_its_frames() {
    if !ffmpeg_is_there("the scores of a decoded film") {
        return;
    }
    let room = Room::new();
    let (file, decoded, raw) = (room.file("film.mkv"), room.file("decoded.csv"), room.file("raw.csv"));
    encoded("25", LOSSLESS, &file);
    let table = call([&file]).word("--stats").word(&decoded).run();
    assert_eq!((table.status, &*table.said), (Some(0), ""), "BGR frames need no note");
    let words = "- --raw 64x48 --rate 25 --format bgr24 --stats";
    let same = call(words.split_whitespace()).word(&raw).bytes(&SCENES.bgr24()).run();
    assert_eq!(same.well(), table.out);
    let lines = |file| lists::stats(&text(file), None);
    lists::same(&lines(&decoded), &lines(&raw), "a line of the stats");
}

/// The frames come in uneven steps.
#[test]
fn a_film_with_a_variable_rate_keeps_its_stamps() {
    if !ffmpeg_is_there("a film with a variable rate") {
        return;
    }
    let room = Room::new();
    // a millisecond is one tick
    let at = |frame: usize| 40 * frame + 7 * (frame % 3) + if frame >= 60 { 1500 } else { 0 };
    let words = "-vf setpts=40*N+7*mod(N\\,3)+1500*gte(N\\,60)";
    let own: Vec<i64> = (0..SCENES.frames()).map(|frame| at(frame) as i64 * 1000).collect();
    let (made, copied) = (room.file("film.mkv"), room.file("film.nut"));
    encoded("1000", &format!("{words} -c:v mpeg4 -q:v 2"), &made);
    ffmpeg("-i film.mkv -c copy", &[], &copied);
    for file in [made, copied] {
        let stats = room.file("stats.csv");
        let ended = call(["--json"]).word(&file).word("--stats").word(&stats).run();
        let list = lists::json(&ended.well());
        let stamps: Vec<i64> = lists::stats(&text(&stats), None).iter().map(|line| line.at).collect();
        lists::same(&stamps, &own, &file.to_string_lossy());
        let end = list.clips[list.clips.len() - 1].end;
        assert!(end > own[own.len() - 1], "{file:?}: the last frame lasts");
        assert_eq!(list.clips, clips(&SCENES.cuts(), &[&own[..], &[end]].concat()), "{file:?}");
    }
}

/// Two frames with one stamp are no fault. (Stamps that fall are mended by ffmpeg when it writes a film.)
#[test]
fn stamps_that_repeat() {
    if !ffmpeg_is_there("stamps that repeat") {
        return;
    }
    let room = Room::new();
    let (file, stats) = (room.file("film.mkv"), room.file("stats.csv"));
    // a millisecond is one tick
    encoded("1000", &format!("-vf setpts=80*floor(N/2) -vsync passthrough {LOSSLESS}"), &file);
    let ended = call(["--json"]).word(&file).word("--stats").word(&stats).run();
    let list = lists::json(&ended.well());
    let stamps: Vec<i64> = lists::stats(&text(&stats), None).iter().map(|line| line.at).collect();
    let own: Vec<i64> = (0..SCENES.frames() as i64).map(|frame| frame / 2 * 80_000).collect();
    lists::same(&stamps, &own, "stamps");
    let starts: Vec<usize> = list.clips.iter().skip(1).map(|clip| clip.first - 1).collect();
    assert_eq!(starts, SCENES.cuts(), "a cut is put to its own frame");
}

#[test]
fn a_film_is_made_smaller_but_not_larger() {
    if !ffmpeg_is_there("--scale") {
        return;
    }
    let room = Room::new();
    let file = room.file("film.mkv");
    encoded("25", LOSSLESS, &file);
    for (scale, size) in [("32", "32x24"), ("33", "33x25"), ("64", "64x48"), ("1000", "64x48"), ("1", "1x1")] {
        let list = found(&file, &format!("--scale {scale}"));
        assert_eq!(list, List { size: size.into(), ..known(&SCENES, PAL) }, "{scale}");
    }
}

#[test]
fn a_film_over_the_largest_size_needs_a_scale() {
    if !ffmpeg_is_there("a film over the largest size") {
        return;
    }
    let room = Room::new();
    let (file, wide) = (room.file("film.mkv"), Scenes { lengths: &[2], ..Scenes::new(4098, 2) });
    let line = format!("-f rawvideo -pix_fmt bgr24 -video_size 4098x2 -framerate 25 -i - {LOSSLESS}");
    ffmpeg(&line, &wide.bgr24(), &file);
    call([&file]).run().refused(1, &["4098x2", "4096", "--scale"]);
    assert_eq!(found(&file, "--scale 2049").size, "2049x1");
}

/// Two streams of JPEG pictures, one behind the other.
#[test]
fn the_size_of_a_decoded_film_changes_in_the_middle() {
    if !ffmpeg_is_there("a change of size") {
        return;
    }
    let room = Room::new();
    let (first, second) = (room.file("first.mjpeg"), room.file("second.mjpeg"));
    encoded("25", "-c:v mjpeg -q:v 2 -f mjpeg", &first);
    encoded("25", "-c:v mjpeg -q:v 2 -vf scale=96:72 -f mjpeg", &second);
    let both = [std::fs::read(&first).unwrap(), std::fs::read(&second).unwrap()].concat();
    let file = room.with("both.mjpeg", &both);
    let ended = call(["--json"]).word(&file).run();
    ended.refused(1, &["64x48", "96x72", "frame 156"]);
    let list = lists::json(&ended.out);
    assert_eq!(List { fault: None, ..list }.clips.len(), SCENES.lengths.len());
}

#[test]
fn a_decoded_film_that_is_not_whole() {
    if !ffmpeg_is_there("a film that is not whole") {
        return;
    }
    let room = Room::new();
    let whole = room.file("film.mkv");
    encoded("25", LOSSLESS, &whole);
    let bytes = std::fs::read(&whole).unwrap();
    let file = room.with("torn.mkv", &bytes[..bytes.len() * 4 / 5]);
    let ended = call(["--csv"]).word(&file).run();
    ended.refused(1, &["ffmpeg"]);
    let known = clips(&SCENES.cuts(), &stamps(SCENES.frames(), PAL));
    let found = lists::csv(&ended.out);
    assert!(found.len() >= 3 && found[..2] == known[..2], "what was found before is written: {ended:?}");
    for part in [10, 300] {
        let file = room.with("start.mkv", &bytes[..part]);
        call(["--csv"]).word(&file).run().refused(1, &["start.mkv"]);
    }
}

/// Nearly all frames come, and some are not what they were.
#[test]
fn a_film_that_is_damaged_in_the_middle() {
    if !ffmpeg_is_there("a film that is damaged") {
        return;
    }
    let room = Room::new();
    let whole = room.file("film.avi");
    encoded("25", "-c:v ffv1 -slicecrc 1 -pix_fmt bgr0 -f avi", &whole);
    let mut bytes = std::fs::read(&whole).unwrap();
    let middle = bytes.len() / 2;
    bytes[middle..middle + 40].iter_mut().for_each(|byte| *byte ^= 0x55);
    let file = room.with("damaged.avi", &bytes);
    let table = call([&file]).run();
    table.refused(1, &["ffmpeg reported: "]);
    let last = table.out.lines().last().unwrap_or_default();
    assert!(
        last.starts_with("damaged: ffmpeg reported: ") && last.ends_with("frames may be missing or wrong"),
        "{last}"
    );
    let list = lists::json(&call(["--json"]).word(&file).run().out);
    assert!(list.frames > 140 && list.fault.is_some() && list.clips.len() >= 4, "{list:?}");
}

#[test]
fn files_that_are_no_films() {
    if !ffmpeg_is_there("files that are no films") {
        return;
    }
    let room = Room::new();
    let mut sound =
        b"RIFF\x24\x10\0\0WAVEfmt \x10\0\0\0\x01\0\x01\0\x40\x1f\0\0\x80\x3e\0\0\x02\0\x10\0data\0\x10\0\0".to_vec();
    sound.extend([0; 4096]);
    let files = [
        room.with("text.mp4", "a text, and no film\n".repeat(1000).as_bytes()),
        room.with("empty.mp4", b""),
        room.with("zeros.mkv", &[0; 100_000]),
        room.with("sound.wav", &sound),
    ];
    for file in files {
        let name = file.file_name().unwrap().to_string_lossy().into_owned();
        let ended = call(["--csv"]).word(&file).run();
        ended.refused(1, &[&name]);
        assert!(ended.out.is_empty() || lists::csv(&ended.out).is_empty(), "{ended:?}");
    }
}

#[test]
fn names_of_all_kinds() {
    if !ffmpeg_is_there("names of all kinds") {
        return;
    }
    let room = Room::new();
    let made = room.file("made.mkv");
    encoded("25", LOSSLESS, &made);
    let names = [
        &b"-film.mkv"[..],
        b"--json",
        b"http:film.mkv",
        b"a film.mkv",
        b"film%03d.mkv",
        b"pipe:0",
        b"film'\";$x.mkv",
        b"-",
        b"f\xffilm.mkv",
    ];
    for name in names.map(OsStr::from_bytes) {
        std::fs::copy(&made, room.file(name)).unwrap();
        // `-` alone is standard input
        let file = if name == "-" { OsStr::new("./-") } else { name };
        let ended = call(["--json", "--"]).word(file).within(room.folder()).run();
        let text = ended.well();
        assert_eq!(lists::object(&text).of("film").text(), file.to_string_lossy());
        assert_eq!(lists::json(&text), known(&SCENES, PAL), "{name:?}");
    }
}

/// A file that is named as standard input is that of the caller.
#[test]
fn standard_input_by_its_name() {
    if !ffmpeg_is_there("standard input by its name") {
        return;
    }
    let room = Room::new();
    let made = room.file("made.mkv");
    encoded("25", LOSSLESS, &made);
    let bytes = std::fs::read(&made).unwrap();
    let ended = call(["/dev/stdin", "--json"]).bytes(&bytes).run();
    assert_eq!(lists::json(&ended.well()), known(&SCENES, PAL));
}

/// yuv4mpeg2 as ffmpeg writes it.
#[test]
fn what_ffmpeg_pipes_is_read() {
    if !ffmpeg_is_there("yuv4mpeg2 from ffmpeg") {
        return;
    }
    let room = Room::new();
    for space in ["yuv420p", "yuv422p", "yuv444p", "gray", "yuvj420p"] {
        let file = room.file("film.y4m");
        encoded("30000/1001", &format!("-pix_fmt {space} -f yuv4mpegpipe"), &file);
        let ended = call(["-", "--json"]).bytes(&std::fs::read(&file).unwrap()).run();
        assert_eq!(lists::json(&ended.well()), known(&SCENES, NTSC), "{space}");
    }
    let file = room.file("deep.y4m");
    encoded("25", "-pix_fmt yuv420p10 -strict -1 -f yuv4mpegpipe", &file);
    call(["-"]).bytes(&std::fs::read(&file).unwrap()).run().refused(1, &["420p10"]);
}

#[test]
fn outputs_that_cannot_be_made_are_told_before_a_file_is_decoded() {
    let room = Room::new();
    let file = room.with("film.mp4", b"no film");
    let missing = room.file("missing").join("stats.csv");
    let ended = call([file.as_os_str(), "--stats".as_ref(), missing.as_os_str()]).run();
    ended.refused(1, &["missing"]);
    assert!(!ended.says(&["ffmpeg"]), "{ended:?}");
}
