//! The film that the program makes itself.
use crate::lists;
use crate::program::{call, film, text, Room};
use std::env;
use std::path::Path;

#[test]
fn the_demo_is_the_same_each_time_and_as_stored() {
    let room = Room::new();
    let runs = ["one.svg", "two.svg"].map(|name| {
        let plot = room.file(name);
        let table = call(["--demo", "--plot"]).word(&plot).run().well();
        (table, text(&plot))
    });
    assert_eq!(runs[0], runs[1]);
    let list = lists::table(&runs[0].0);
    assert!(list.clips.len() > 3 && list.fault.is_none() && lists::is_picture(&runs[0].1));
    let Some(tree) = env::var_os("TREE") else { return };
    let stored = |name: &str| text(&Path::new(&tree).join(name));
    assert_eq!(runs[0].0, stored("examples/film_demo.stdout"), "make it again: ./film --demo");
    assert!(runs[0].1 == stored("docs/demo.svg"), "make it again: ./film --demo --plot docs/demo.svg");
}

/// The shots that follow each other in the dim room are found by the plan alone, and the shadow by neither.
#[test]
fn a_plan_for_the_dim_demo() {
    let room = Room::new();
    room.with("room.plan", b"0,79,5\n80,255,27\n");
    let starts = |words: &str| {
        let line = format!("--demo --dim --weights 0,0,1,0 --mode suppress --json {words}");
        let list = lists::json(&room.film(&line, &[]).well());
        assert_eq!(list.frames, 475);
        list.clips.iter().skip(1).map(|clip| clip.first).collect::<Vec<_>>()
    };
    assert_eq!(starts("--plan room.plan"), [101, 176, 251, 326, 401]);
    assert_eq!(starts(""), [101, 176, 401]);
    assert_eq!(starts("--threshold 5"), [41, 71, 101, 176, 251, 326, 401]);
}

#[test]
fn both_detectors_cut_the_demo() {
    for words in ["", "--mode suppress", "--detector adaptive"] {
        let list = lists::json(&film(&format!("--demo --json {words}"), &[]).well());
        let starts: Vec<usize> = list.clips.iter().map(|clip| clip.first).collect();
        // the first two changes of scene
        assert!(starts.starts_with(&[1, 101]) && starts.contains(&201), "{words}: {starts:?}");
        assert_eq!((list.frames, &*list.size), (600, "320x180"));
    }
}
