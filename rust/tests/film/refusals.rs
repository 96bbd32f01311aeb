//! Settings and command lines that are refused, the help and the version.
use crate::films::{Scenes, PAL};
use crate::lists;
use crate::program::{call, film, text, Input};
use std::path::Path;

#[test]
fn settings_are_refused_with_the_number_of_the_library() {
    let bytes = Scenes::new(4, 4).y4m("mono", PAL);
    let cases = [
        ("--weights inf,0,0,0", "6", "not finite"),
        ("--weights 0,0,nan,0", "6", "not finite"),
        ("--weights 0,0,1048577,0", "6", "2^20"),
        ("--detector adaptive --weights 0,-inf,1,0", "6", "not finite"),
        ("--weights 0,0,0,0", "7", "all weights are zero"),
        ("--kernel 4", "8", "kernel"),
        ("--kernel 1", "8", "kernel"),
        ("--detector adaptive --kernel 0", "8", "kernel"),
        ("--threshold nan", "9", "NaN"),
        ("--detector adaptive --threshold NaN", "9", "NaN"),
        ("--detector adaptive --min-content nan", "9", "NaN"),
        ("--detector adaptive --window 0", "10", "window"),
        ("--detector adaptive --window 65", "11", "64"),
    ];
    for (words, number, what) in cases {
        let ended = film(&format!("- {words}"), &bytes);
        ended.refused(2, &["refused", what]);
        let told = ended.said.split(|c: char| !c.is_ascii_alphanumeric()).any(|word| word == number);
        assert!(told && ended.out.is_empty(), "{words}: {ended:?}");
    }
}

#[test]
fn the_settings_at_their_limits_are_accepted() {
    let scenes = Scenes::new(4, 4);
    let bytes = scenes.y4m("mono", PAL);
    for words in [
        "--weights 0,0,1048576,0",
        "--weights -1048576,0,0,0",
        "--threshold inf",
        "--threshold -inf",
        "--kernel 3",
        "--kernel 4294967295",
        "--detector adaptive --window 1",
        "--detector adaptive --window 64",
        "--detector adaptive --min-content inf",
        "--min-duration 18446744073709551615us",
        "--min-duration 0",
    ] {
        let json = film(&format!("- --json {words}"), &bytes).well();
        assert_eq!(lists::json(&json).frames, scenes.frames(), "{words}");
    }
    let json = film("- --json --threshold inf", &bytes).well();
    assert_eq!(lists::object(&json).of("settings").of("threshold").text(), "inf");
}

#[test]
fn command_lines_that_are_refused() {
    let lines = [
        "",
        "--nope",
        "- --nope",
        "- -x",
        "- -",
        "a b",
        "- --csv --json",
        "- --csv=1",
        "- --threshold",
        "- --threshold abc",
        "- --threshold 27,5",
        "- --threshold=",
        "- --detector both",
        "- --mode both",
        "- --mode merge --detector adaptive",
        "- --plan",
        "- --plan room.plan --detector adaptive",
        "- --dim",
        "film.mp4 --dim",
        "--demo --dim=yes",
        "- --window 3",
        "- --min-content 3",
        "- --weights 1,2,3",
        "- --weights 1,2,3,4,5",
        "- --min-duration -1",
        "- --min-duration 1.0000001",
        "- --min-duration 99999999999999s",
        "- --min-duration 18446744073709551616us",
        "- --kernel -3",
        "- --kernel 3.0",
        "- --detector adaptive --window 4294967296",
        "- --initial-cut maybe",
        "- --rate 0",
        "- --rate 25/0",
        "- --rate x",
        "- --scale 320",
        "film.mp4 --scale 0",
        "film.mp4 --scale -1",
        "film.mp4 --rate 25",
        "film.mp4 --format gray",
        "film.mp4 --raw 4x4 --rate 25 --format gray",
        "- --format gray",
        "- --raw 4x4 --rate 25",
        "- --raw 4x4 --format gray",
        "- --raw 4 --rate 25 --format gray",
        "- --raw 4x4x4 --rate 25 --format gray",
        "- --raw 4x4 --rate 25 --format yuv420p",
        "--raw 4x4 --rate 25 --format gray",
        "--demo -",
        "--demo film.mp4",
        "--demo --rate 25",
        "--demo --scale 100",
        "- --stats",
        "- --plot",
    ];
    for line in lines {
        // the input does not end: it must not be waited for
        let ended = call(line.split_whitespace()).input(Input::Held(&[])).run();
        ended.refused(2, &["--help"]);
        assert_eq!(ended.out, "", "{line}");
    }
}

#[test]
fn what_is_refused_is_named() {
    for (line, word) in [("- --nope", "--nope"), ("- --mode both", "both"), ("- --threshold abc", "abc")] {
        film(line, &[]).refused(2, &[word]);
    }
}

#[test]
fn the_help_is_a_page_with_two_examples() {
    for line in ["--help", "-h", "film.mp4 --csv --help"] {
        let ended = film(line, &[]);
        assert_eq!((ended.status, &*ended.said), (Some(0), ""), "{line}");
        let examples = ended.out.lines().filter(|line| line.starts_with("    ") && line.contains("./film ")).count();
        assert!(examples >= 2 && ended.out.lines().count() <= 60, "{}", ended.out);
        for flag in [
            "--demo",
            "--raw",
            "--scale",
            "--detector",
            "--plan",
            "--weights",
            "--json",
            "--stats",
            "--plot",
            "--version",
        ] {
            assert!(ended.out.contains(flag), "{flag}");
        }
    }
}

#[test]
fn the_version_is_that_of_the_tree() {
    let said = film("--version", &[]).well();
    let numbers: Vec<&str> = said.trim_end().strip_prefix("film ").unwrap().split('.').collect();
    assert!(numbers.len() == 3 && numbers.iter().all(|number| number.parse::<u32>().is_ok()), "{said}");
    if let Some(tree) = std::env::var_os("TREE") {
        assert_eq!(said.trim_end(), format!("film {}", text(&Path::new(&tree).join("VERSION")).trim_end()));
    }
}
