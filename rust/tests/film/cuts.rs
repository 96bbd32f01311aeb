//! Cuts are reported where the scenes change, with exact stamps, and nowhere else; and all lists say the same.
use crate::films::{Rate, Scenes, LONG, NTSC, PAL, SPACES};
use crate::json::Value;
use crate::lists::{self, known, List};
use crate::program::{film, Room};

/// The detectors, each with the words that choose it.
const DETECTORS: [&str; 4] =
    ["", "--mode suppress", "--detector adaptive", "--detector adaptive --window 4 --threshold 2.5"];

/// What `--json` says of a film that is read well.
fn found(words: &str, film_bytes: &[u8]) -> List {
    lists::json(&film(&format!("- --json {words}"), film_bytes).well())
}

/// All colour spaces of a film of this size.
fn each_space(width: usize, height: usize) {
    let scenes = Scenes::new(width, height);
    for (number, space) in SPACES.into_iter().enumerate() {
        for rate in [PAL, NTSC] {
            let bytes = scenes.y4m(space, rate);
            for detector in [DETECTORS[number % 2], DETECTORS[2 + number % 2]] {
                assert_eq!(found(detector, &bytes), known(&scenes, rate), "C{space} {rate:?} {detector}");
            }
        }
    }
}

#[test]
fn y4m_in_each_colour_space() {
    each_space(48, 32);
}

#[test]
fn y4m_of_odd_sizes() {
    each_space(33, 17);
    each_space(1, 1);
    each_space(2, 5);
}

#[test]
fn y4m_by_each_detector() {
    let scenes = Scenes { lengths: &[40, 29, 26, 51, 30, 33, 27], ..Scenes::new(40, 24) };
    let bytes = scenes.y4m("420jpeg", PAL);
    for detector in DETECTORS {
        assert_eq!(found(detector, &bytes), known(&scenes, PAL), "{detector}");
    }
}

#[test]
fn raw_frames() {
    for (width, height) in [(48, 32), (33, 17)] {
        let scenes = Scenes::new(width, height);
        for (rate, given) in [(PAL, "25"), (NTSC, "30000/1001"), (Rate(2997, 100), "29.97")] {
            for (format, bytes) in [("gray", scenes.gray()), ("bgr24", scenes.bgr24())] {
                for detector in DETECTORS {
                    let words = format!("--raw {width}x{height} --format {format} --rate {given} {detector}");
                    assert_eq!(found(&words, &bytes), known(&scenes, rate), "{words}");
                }
            }
        }
    }
}

#[test]
fn a_header_in_any_order_and_parameters_of_frames() {
    let scenes = Scenes::new(20, 10);
    let mut bytes = b"YUV4MPEG2 C422 A0:0 XYSCSS=422 Ip F25:1 H10 W20 XCOLORRANGE=FULL\n".to_vec();
    for (number, frame) in scenes.y4m_of("422", PAL, 0..scenes.frames())[scenes.header("422", PAL).len()..]
        .chunks(scenes.y4m_bytes("422"))
        .enumerate()
    {
        bytes.extend(if number % 3 == 0 { &b"FRAME Ip Xmore=1\n"[..] } else { &b"FRAME\n"[..] });
        bytes.extend(&frame[b"FRAME\n".len()..]);
    }
    assert_eq!(found("", &bytes), known(&scenes, PAL));
}

#[test]
fn the_rate_that_is_given_overrules_that_of_the_film() {
    let scenes = Scenes::new(12, 12);
    assert_eq!(found("--rate 30000/1001", &scenes.y4m("", PAL)), known(&scenes, NTSC));
    for rate in ["F0:0", ""] {
        let header = scenes.header("mono", PAL).replace("F25:1", rate);
        let mut bytes = header.into_bytes();
        bytes.extend(&scenes.y4m("mono", PAL)[scenes.header("mono", PAL).len()..]);
        assert_eq!(found("--rate=25", &bytes), known(&scenes, PAL), "{rate}");
        film("-", &bytes).refused(1, &["--rate"]);
    }
}

#[test]
fn two_films_of_one_size_are_one() {
    let scenes = Scenes::new(24, 18);
    let mut bytes = scenes.y4m_of("420jpeg", PAL, 0..60);
    bytes.extend(scenes.y4m_of("420jpeg", PAL, 60..scenes.frames()));
    assert_eq!(found("", &bytes), known(&scenes, PAL));
}

#[test]
fn the_largest_sides_and_a_film_of_one_frame() {
    for (width, height) in [(4096, 1), (1, 4096)] {
        let scenes = Scenes { lengths: &[1], ..Scenes::new(width, height) };
        assert_eq!(found("", &scenes.y4m("420jpeg", PAL)), known(&scenes, PAL));
        let raw = format!("--raw {width}x{height} --rate 25 --format bgr24");
        assert_eq!(found(&raw, &scenes.bgr24()), known(&scenes, PAL));
    }
}

/// Frames of many megabytes come in many reads.
#[test]
fn large_frames() {
    let scenes = Scenes { lengths: &[2, 2], ..Scenes::new(1920, 1080) };
    let bytes = scenes.y4m("420jpeg", Rate(1, 1));
    assert_eq!(found("", &bytes), known(&scenes, Rate(1, 1)));
}

#[test]
fn the_lists_agree() {
    let scenes = Scenes::new(32, 20);
    for (bytes, input, rate) in
        [(scenes.y4m("422", NTSC), "-", NTSC), (scenes.bgr24(), "- --raw 32x20 --rate 25 --format bgr24", PAL)]
    {
        for detector in ["", "--detector adaptive"] {
            let room = Room::new();
            let words = format!("{input} {detector} --stats stats.csv");
            let table = room.film(&words, &bytes).well();
            let json = room.film(&format!("{words} --json"), &bytes).well();
            let csv = room.film(&format!("{words} --csv"), &bytes).well();
            let known = known(&scenes, rate);
            assert_eq!(lists::table(&table), known);
            assert_eq!(lists::json(&json), known);
            assert_eq!(lists::csv(&csv), known.clips);
            let lines = lists::stats(&room.text("stats.csv"), if detector.is_empty() { None } else { Some(2) });
            let cuts: Vec<usize> = (0..lines.len()).filter(|&place| lines[place].cut).collect();
            assert_eq!((lines.len(), cuts), (scenes.frames(), scenes.cuts()));
            joined(&known);
        }
    }
}

/// Each clip starts where the one before ends, and together they are the film.
fn joined(list: &List) {
    for pair in list.clips.windows(2) {
        assert_eq!((pair[0].end, pair[0].first + pair[0].frames), (pair[1].start, pair[1].first));
    }
    let (first, last) = (&list.clips[0], &list.clips[list.clips.len() - 1]);
    let lengths: i64 = list.clips.iter().map(|clip| clip.end - clip.start).sum();
    let frames: usize = list.clips.iter().map(|clip| clip.frames).sum();
    assert_eq!((first.first, frames, lengths), (1, list.frames, last.end - first.start));
}

#[test]
fn an_old_file_is_written_anew() {
    let (room, scenes) = (Room::new(), Scenes::new(16, 16));
    room.with("stats.csv", &[b'x'; 100_000]);
    room.with("plot.svg", &[b'x'; 10_000_000]);
    room.film("- --stats stats.csv --plot plot.svg", &scenes.y4m("mono", PAL)).well();
    assert_eq!(lists::stats(&room.text("stats.csv"), None).len(), scenes.frames());
    let plot = room.text("plot.svg");
    assert!(lists::is_picture(&plot) && plot.starts_with('<'));
}

#[test]
fn the_settings_that_were_used_are_listed() {
    let scenes = Scenes { lengths: LONG, ..Scenes::new(8, 8) };
    let words =
        "--threshold 26.5 --min-duration 0.25s --weights 0.5,0,-1,1e-3 --mode suppress --kernel 5 --initial-cut no";
    let json = film(&format!("- --json {words}"), &scenes.y4m("", PAL)).well();
    let film_said = lists::object(&json);
    let settings = film_said.of("settings");
    let numbers = ["threshold", "min_duration", "kernel_size"].map(|name| settings.of(name).number::<f64>());
    assert_eq!(numbers, [26.5, 250_000.0, 5.0]);
    let weights = ["hue", "saturation", "luma", "edges"].map(|name| settings.of("weights").of(name).number::<f64>());
    assert_eq!(weights, [0.5, 0.0, -1.0, 1e-3]);
    assert_eq!((settings.of("filter_mode").text(), settings.of("initial_cut")), ("suppress", &Value::Bool(false)));
    let kind = ["film", "format", "detector"].map(|name| film_said.of(name).text().to_string());
    assert_eq!(kind, ["-", "gray", "content"]);
}
