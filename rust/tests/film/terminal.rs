//! What is said on a terminal. `script` makes one; where it is not there the test says that it was left out, and passes.
use crate::films::{Scenes, PAL};
use crate::program::{program, started, Room};
use std::io::Write;
use std::process::{Command, Stdio};

/// Runs a line of the shell on a terminal, and returns what is seen on it.
fn seen(line: &str, room: &Room) -> Option<String> {
    let mut command = Command::new("script");
    command.args(["-qec", line, "/dev/null"]).current_dir(room.folder()).stdin(Stdio::null());
    let child = started(command.stdout(Stdio::piped()).stderr(Stdio::null())).ok()?;
    let output = child.wait_with_output().ok().filter(|output| output.status.success())?;
    Some(String::from_utf8_lossy(&output.stdout).into_owned())
}

/// The film comes in two parts with a pause between, so that there is time for the line.
#[test]
fn the_progress_is_shown_on_a_terminal_and_nowhere_else() {
    let (room, scenes) = (Room::new(), Scenes::new(8, 8));
    let bytes = scenes.y4m("mono", PAL);
    room.with("first", &bytes[..bytes.len() / 2]);
    room.with("second", &bytes[bytes.len() / 2..]);
    std::os::unix::fs::symlink(program(), room.file("film")).expect("a link can be made");
    let Some(all) = seen("(cat first; sleep 0.5; cat second) | ./film - --weights 0,0,1,0 >clips", &room) else {
        let _ = writeln!(std::io::stderr(), "LEFT OUT, there is no script: the progress on a terminal");
        return;
    };
    assert!(all.starts_with('\r') && all.contains(" frames, ") && all.contains(" frames a second"), "{all:?}");
    assert!(all.ends_with(" \r"), "the line is written over in the end: {all:?}");
    let all = seen("(cat first; sleep 0.5; cat second) | ./film - --weights 0,0,1,0 2>said >clips; cat said", &room);
    assert_eq!(all.as_deref(), Some(""));
}
