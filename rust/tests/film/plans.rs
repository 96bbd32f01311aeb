//! The light plan: medians, thresholds by them, and plans that are refused.
use crate::films::{Lot, Rate, Scenes, PAL};
use crate::json::Value;
use crate::lists::{self, Stat};
use crate::model::{self, Content, Scored};
use crate::program::{Ended, Room};

/// The value in the middle of all that a plane has.
fn median(plane: &[u8]) -> u8 {
    let mut sorted = plane.to_vec();
    sorted.sort_unstable();
    sorted[plane.len() / 2]
}

/// What `--stats` says of a film by this plan, and how the run ended.
fn planned(words: &str, plan: &str, bytes: &[u8]) -> (Vec<Stat>, Ended) {
    let room = Room::new();
    room.with("room.plan", plan.as_bytes());
    let ended = room.film(&format!("{words} --plan room.plan --stats stats.csv"), bytes);
    assert_eq!(ended.status, Some(0), "{}", ended.said);
    (lists::stats(&room.text("stats.csv"), None), ended)
}

#[test]
fn medians_of_each_kind_of_frame() {
    for (width, height) in [(7, 5), (1, 1), (2, 3)] {
        let scenes = Scenes::new(width, height);
        let value =
            |frame| scenes.bgr(frame).chunks(3).filter_map(|pixel| pixel.iter().copied().max()).collect::<Vec<_>>();
        let room = Room::new();
        for detector in ["", "--detector adaptive"] {
            let medians = |words: &str, bytes: &[u8]| {
                room.film(&format!("- --stats stats.csv {words} {detector}"), bytes).well();
                let lines = lists::stats(&room.text("stats.csv"), (!detector.is_empty()).then_some(2));
                lines.iter().map(|line| line.median).collect::<Vec<_>>()
            };
            let known = |plane: &dyn Fn(usize) -> Vec<u8>| {
                (0..scenes.frames()).map(|frame| median(&plane(frame))).collect::<Vec<_>>()
            };
            assert_eq!(medians("", &scenes.y4m("420jpeg", PAL)), known(&|frame| scenes.luma(frame)));
            let raw = format!("--raw {width}x{height} --rate 25 --format bgr24");
            assert_eq!(medians(&raw, &scenes.bgr24()), known(&value));
        }
    }
}

/// Rows of neighbouring medians by lot, each with its threshold, in an order by lot.
fn rows(lot: &mut Lot) -> Vec<[u8; 3]> {
    let mut ends: Vec<u8> = (0..lot.below(6)).map(|_| lot.below(255) as u8).chain([255]).collect();
    ends.sort_unstable();
    ends.dedup();
    let mut from = 0;
    let mut rows = Vec::new();
    for to in ends {
        rows.insert(lot.below(rows.len() as u64 + 1) as usize, [from, to, [0, 5, 27, 60, 255][lot.below(5) as usize]]);
        from = to.saturating_add(1);
    }
    rows
}

fn text(rows: &[[u8; 3]]) -> String {
    rows.iter().map(|[from, to, threshold]| format!("{from},{to},{threshold}\n")).collect()
}

/// A film of three pixels: two that go up and down, and one that is still, so that the median is that of all three.
fn film(lot: &mut Lot) -> Vec<[u8; 3]> {
    let mut frame = [100, 100, lot.below(256) as u8];
    let step = |_| {
        let place = lot.below(5) as usize;
        if place < 2 {
            frame[place] = lot.below(256) as u8;
        }
        frame
    };
    (0..120).map(step).collect()
}

#[test]
fn cuts_follow_the_row_of_each_frames_own_median() {
    let rate = Rate(10, 1);
    let (mut helds, mut others) = (0, 0);
    for seed in 1..=100 {
        let mut lot = Lot::new(seed + 5000);
        let (rows, frames) = (rows(&mut lot), film(&mut lot));
        let settings = Content {
            threshold: 27.0,
            min_duration: [0, 300_000, 1_000_000][lot.below(3) as usize],
            suppress: lot.below(2) == 0,
            initial_cut: lot.below(2) == 0,
        };
        let sum = |a: &[u8; 3], b: &[u8; 3]| a.iter().zip(b).map(|(&a, &b)| u32::from(a.abs_diff(b))).sum::<u32>();
        let score =
            |place: usize| place.checked_sub(1).map(|before| f64::from(sum(&frames[place], &frames[before])) / 3.0);
        let scored: Vec<Scored> = (0..frames.len()).map(|place| (rate.stamp(place), score(place))).collect();
        let threshold = |place: usize| {
            let median = median(&frames[place]);
            rows.iter().find(|row| (row[0]..=row[1]).contains(&median)).map_or(f64::NAN, |row| f64::from(row[2]))
        };
        let (cuts, held) = model::content_by(&settings, &scored, threshold);
        let Content { min_duration, suppress, initial_cut, .. } = settings;
        let (mode, initial) = (if suppress { "suppress" } else { "merge" }, if initial_cut { "yes" } else { "no" });
        let words = format!(
            "- --raw 3x1 --rate 10 --format gray --min-duration {min_duration}us --mode {mode} --initial-cut {initial}"
        );
        let (lines, ended) = planned(&words, &text(&rows), &frames.concat());
        let what = format!("{words} {rows:?}");
        lists::same(&lines.iter().map(|line| (line.at, line.score)).collect::<Vec<_>>(), &scored, &what);
        let found: Vec<usize> = (0..lines.len()).filter(|&place| lines[place].cut).collect();
        lists::same(&found, &cuts, &what);
        assert_eq!(ended.says(&["merge", "pending"]), held.is_some(), "{what}: {}", ended.said);
        helds += usize::from(held.is_some());
        others += usize::from(cuts != model::content(&settings, &scored).0);
    }
    assert!(helds > 3 && others > 50, "{helds} {others}");
}

#[test]
fn one_row_is_the_same_as_its_threshold() {
    let (room, scenes) = (Room::new(), Scenes::new(24, 18));
    let bytes = scenes.y4m("mono", PAL);
    room.with("room.plan", b"0,255,60\n");
    room.with("none.plan", b"");
    let stats = |words: &str| {
        let csv = room.film(&format!("- --csv --stats stats.csv {words}"), &bytes).well();
        (csv, room.text("stats.csv"))
    };
    assert_eq!(stats("--plan room.plan --threshold 1"), stats("--threshold 60"));
    // the empty text is no plan
    assert_eq!(stats("--plan none.plan"), stats(""));
}

#[test]
fn the_plan_is_told() {
    let (room, scenes) = (Room::new(), Scenes::new(16, 12));
    let bytes = scenes.y4m("mono", PAL);
    room.with("room.plan", b"100,255,27\n0,99,8\n");
    let table = room.film("- --plan room.plan --plot plot.svg", &bytes).well();
    assert!(table.contains(" content detector, light plan of 2 rows\n"), "{table}");
    let plot = room.text("plot.svg");
    assert!(lists::is_picture(&plot) && plot.contains(">threshold by the light plan, 8 to 27<"));
    let plan = |words: &str| {
        let json = lists::object(&room.film(&format!("- --json {words}"), &bytes).well());
        json.of("settings").of("plan").clone()
    };
    assert_eq!(plan(""), Value::Null);
    let row = |row: &Value| ["from", "to", "threshold"].map(|name| row.of(name).number::<u8>());
    let rows: Vec<[u8; 3]> = plan("--plan room.plan").list().iter().map(row).collect();
    assert_eq!(rows, [[100, 255, 27], [0, 99, 8]]);
}

#[test]
fn plans_are_refused_with_the_number_of_the_library() {
    let (room, bytes) = (Room::new(), Scenes::new(4, 4).y4m("mono", PAL));
    let ones: String = (0..17).map(|median| format!("{median},{median},1\n")).collect();
    let cases = [
        ("0,99,8\n100,255,27", "20", "row 2 has no line feed"),
        ("0,99,8\r\n100,255,27\r\n", "20", "row 1 is '0,99,8\\r'"),
        ("from,to,threshold\n0,255,27\n", "20", "row 1 is 'from,to,threshold'"),
        ("0,255,256\n", "20", "row 1 is '0,255,256'"),
        ("0,099,8\n100,255,27\n", "20", "row 1 is '0,099,8'"),
        ("0,99,8\n255,100,27\n", "20", "row 2 goes from 255 to 100"),
        (&ones, "20", "more than 16 rows"),
        (&"0,99,8\n".repeat(100_000), "20", "more than 16 rows"),
        (&"9".repeat(100_000), "20", "row 1 is longer"),
        ("0,100,8\n100,255,27\n", "21", "rows 1 and 2 both have the median 100"),
        ("0,99,8\n100,254,27\n", "22", "no row has the median 255"),
    ];
    for (plan, number, what) in cases {
        room.with("room.plan", plan.as_bytes());
        let ended = room.film("- --plan room.plan", &bytes);
        ended.refused(2, &["refused", &format!("by {number}: "), "room.plan", what]);
        assert!(ended.out.is_empty() && ended.said.lines().count() == 1, "{ended:?}");
        // other settings are refused first
        room.film("- --plan room.plan --threshold nan", &bytes).refused(2, &["by 9: "]);
    }
}

#[test]
fn plans_that_cannot_be_read_are_told() {
    let (room, bytes) = (Room::new(), Scenes::new(4, 4).y4m("mono", PAL));
    for file in ["none.plan", "."] {
        let ended = room.film(&format!("- --plan {file} --stats stats.csv"), &bytes);
        ended.refused(2, &["the plan", file, "can't be read"]);
        assert!(ended.out.is_empty() && !room.file("stats.csv").exists(), "{ended:?}");
    }
    // it does not end, and what it has is longer than a plan
    room.film("- --plan /dev/zero", &bytes).refused(2, &["by 20: ", "row 1 is longer"]);
}
