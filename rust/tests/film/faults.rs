//! What goes wrong with a film or with what is written: each ends with a clear line and status 1, and what was found
//! before is written.
use crate::films::{Scenes, NTSC, PAL};
use crate::lists::{self, known_until, List};
use crate::program::{call, film, program, started, text, Ended, Input, Output, Room};
use std::os::unix::fs::PermissionsExt;
use std::process::{Command, Stdio};

const SCENES: Scenes = Scenes { width: 24, height: 14, lengths: &[33, 47, 35, 40] };

/// Runs a film that ends in a fault after some frames. The fault has all of these words, and the clips, the stats and
/// the plot are there up to it.
fn torn(words: &str, bytes: &[u8], known: &List, what: &[&str]) {
    let room = Room::new();
    let line = format!("- {words} --stats stats.csv --plot plot.svg");
    let ended = room.film(&format!("{line} --json"), bytes);
    ended.refused(1, what);
    let list = lists::json(&ended.out);
    let fault = list.fault.clone().expect("the list says that it is not whole");
    assert!(ended.says(&[&fault]), "{fault}: {}", ended.said);
    assert_eq!(List { fault: None, ..list }, *known, "{words}");
    let lines = lists::stats(&room.text("stats.csv"), None);
    assert_eq!(lines.len(), known.frames);
    assert_eq!(lines.iter().filter(|line| line.cut).count(), known.clips.len() - 1);
    assert!(lists::is_picture(&room.text("plot.svg")));
    let table = room.film(&line, bytes);
    table.refused(1, what);
    assert_eq!(lists::table(&table.out).clips, known.clips);
    assert_eq!(lists::csv(&room.film(&format!("{line} --csv"), bytes).out), known.clips);
}

#[test]
fn a_y4m_frame_that_is_not_whole() {
    for (space, rate) in [("", PAL), ("420jpeg", NTSC), ("422", PAL), ("444", PAL), ("mono", PAL)] {
        let whole = SCENES.y4m_of(space, rate, 0..90);
        let next = SCENES.y4m_of(space, rate, 90..91);
        let frame = &next[next.len() - SCENES.y4m_bytes(space)..];
        let luma = 24 * 14;
        for length in [1, 5, 6, 7, 6 + luma / 2, 6 + luma, 6 + luma + 1, frame.len() - 1] {
            if length < frame.len() {
                let bytes = [&whole[..], &frame[..length]].concat();
                torn("", &bytes, &known_until(&SCENES, rate, 90), &["frame 91"]);
            }
        }
    }
}

#[test]
fn a_raw_frame_that_is_not_whole() {
    for (format, bytes, size) in [("gray", SCENES.gray(), 24 * 14), ("bgr24", SCENES.bgr24(), 3 * 24 * 14)] {
        for part in [1, size / 2, size - 1] {
            let words = format!("--raw 24x14 --rate 25 --format {format}");
            torn(&words, &bytes[..85 * size + part], &known_until(&SCENES, PAL, 85), &["frame 86"]);
        }
    }
}

#[test]
fn the_size_or_the_colours_change_in_the_middle() {
    let first = SCENES.y4m_of("420jpeg", PAL, 0..70);
    let larger = Scenes { width: 48, height: 28, ..SCENES }.y4m("420jpeg", PAL);
    let known = known_until(&SCENES, PAL, 70);
    torn("", &[&first[..], &larger].concat(), &known, &["24x14", "48x28", "frame 71"]);
    torn("", &[&first[..], &SCENES.y4m("444", PAL)].concat(), &known, &["frame 71"]);
    torn("", &[&first[..], &SCENES.y4m("420jpeg", NTSC)].concat(), &known, &["frame 71"]);
}

#[test]
fn something_else_where_a_frame_should_be() {
    let first = SCENES.y4m_of("420jpeg", PAL, 0..70);
    let long = format!("FRAME {}\n", "x".repeat(1 << 20));
    for other in ["FRAMES\n", "frame\n", "\n", "something else that is no frame at all", "YUV4MPEG2 W24\n", &long] {
        torn("", &[&first[..], other.as_bytes()].concat(), &known_until(&SCENES, PAL, 70), &["frame 71"]);
    }
}

/// A run that finds nothing: status 1, and no clip is listed.
fn nothing(line: &str, bytes: &[u8], what: &[&str]) {
    let ended = film(&format!("{line} --csv"), bytes);
    ended.refused(1, what);
    assert!(ended.out.is_empty() || lists::csv(&ended.out).is_empty(), "{ended:?}");
}

#[test]
fn input_that_is_no_film() {
    let whole = SCENES.y4m("420jpeg", PAL);
    nothing("-", b"", &[]);
    for length in [1, 9, 10, 15, 20, 25] {
        nothing("-", &whole[..length], &[]);
    }
    nothing("-", &SCENES.bgr24(), &["YUV4MPEG2", "--raw"]);
    nothing("-", "a text, and no film\n".repeat(1000).as_bytes(), &["YUV4MPEG2"]);
    nothing("-", &[0; 100_000], &["YUV4MPEG2"]);
    let long = format!("YUV4MPEG2 W4 H4 F25:1 X{}", "x".repeat(10 << 20));
    nothing("-", long.as_bytes(), &[]);
}

/// What can't become a film is refused although more may come: nothing is read without end.
#[test]
fn what_is_no_film_is_not_waited_for() {
    let (header, whole) = (SCENES.header("mono", PAL), SCENES.y4m("mono", PAL));
    let long = [b'x'; 100_000];
    for (start, what) in [(&[][..], "YUV4MPEG2"), (&header.as_bytes()[..10], "header"), (&whole, "frame 156")] {
        let line = if start == whole { &b"FRAME "[..] } else { &[] };
        let bytes = [start, line, &long].concat();
        call(["-"]).input(Input::Held(&bytes)).run().refused(1, &[what]);
    }
    let resized = [&whole[..], Scenes { width: 25, ..SCENES }.header("mono", PAL).as_bytes()].concat();
    call(["-"]).input(Input::Held(&resized)).run().refused(1, &["24x14", "25x14"]);
}

#[test]
fn a_film_without_frames() {
    nothing("-", SCENES.header("420jpeg", PAL).as_bytes(), &["no frames"]);
    nothing("- --raw 4x4 --rate 25 --format gray", b"", &["no frames"]);
}

#[test]
fn headers_that_are_refused() {
    let refused = [
        ("YUV4MPEG2 W4097 H16 F25:1\n", "4097x16"),
        ("YUV4MPEG2 W16 H4097 F25:1\n", "16x4097"),
        ("YUV4MPEG2 W4294967295 H4294967295 F25:1\n", "4096"),
        ("YUV4MPEG2 W0 H16 F25:1\n", "0x16"),
        ("YUV4MPEG2 W99999999999999999999 H16 F25:1\n", ""),
        ("YUV4MPEG2 W-4 H16 F25:1\n", ""),
        ("YUV4MPEG2 H16 F25:1\n", ""),
        ("YUV4MPEG2 W16 F25:1\n", ""),
        ("YUV4MPEG2 W16 H16 F25:0\n", ""),
        ("YUV4MPEG2 W16 H16 Fx\n", ""),
        ("YUV4MPEG2 W16 H16 F25:1 C420p10\n", "420p10"),
        ("YUV4MPEG2 W16 H16 F25:1 C444alpha\n", "444alpha"),
        ("YUV4MPEG2 W16 H16 F25:1 C411\n", "411"),
        ("YUV4MPEG2 W16 H16 F25:1 Cmono16\n", "mono16"),
        ("YUV4MPEG3 W16 H16 F25:1\n", ""),
    ];
    for (header, word) in refused {
        let bytes = [header.as_bytes(), &[b'x'; 10_000]].concat();
        nothing("-", &bytes, &[word]);
    }
    for size in ["4097x16", "16x4097", "0x16", "16x0", "4294967295x4294967295"] {
        nothing(&format!("- --raw {size} --rate 25 --format gray"), &[0; 1000], &[size]);
    }
}

#[test]
fn files_that_cannot_be_read() {
    let room = Room::new();
    let missing = room.file("missing.mp4");
    call([&missing]).run().refused(1, &["missing.mp4"]);
    call([room.folder()]).run().refused(1, &[&room.folder().to_string_lossy()]);
    call([missing.join("more")]).run().refused(1, &["missing.mp4"]);
    call([""]).run().refused(1, &[]);
}

#[test]
fn without_ffmpeg_a_file_is_no_film() {
    let room = Room::new();
    let file = room.with("film.mp4", b"no film");
    let folder = room.folder().to_string_lossy().into_owned();
    for path in ["", &*folder] {
        call([&file]).path(path).run().refused(1, &["ffmpeg", "PATH"]);
    }
    assert!(call(["--demo", "--csv"]).path("").run().well().lines().count() > 1);
}

/// Runs of each list to a standard output that can't be written. The two files are written all the same.
fn unwritten(out: Output, err: Output) -> [Ended; 3] {
    let (bytes, room) = (SCENES.y4m("420jpeg", PAL), Room::new());
    ["", "--csv", "--json"].map(|list| {
        let line = format!("- {list} --weights 0,0,1,0 --stats {list}stats --plot {list}plot");
        let run = call(line.split_whitespace()).bytes(&bytes).within(room.folder());
        let ended = run.out(out).err(err).run();
        assert_eq!(ended.status, Some(1), "{line}: {ended:?}");
        assert_eq!(lists::stats(&room.text(&format!("{list}stats")), None).len(), SCENES.frames());
        assert!(lists::is_picture(&room.text(&format!("{list}plot"))));
        ended
    })
}

#[test]
fn standard_output_that_nobody_reads() {
    for ended in unwritten(Output::Unread, Output::Kept) {
        ended.refused(1, &["standard output"]);
    }
    for word in ["--help", "--version"] {
        call([word]).out(Output::Unread).run().refused(1, &["standard output"]);
    }
}

#[test]
fn nobody_reads_anything() {
    for err in [Output::Unread, Output::Full] {
        unwritten(Output::Unread, err);
        unwritten(Output::Full, err);
        assert_eq!(call(["--nope"]).err(err).run().status, Some(2));
        let bytes = SCENES.y4m_of("420jpeg", PAL, 0..50);
        let ended = call(["-", "--csv"]).bytes(&bytes).err(err).run();
        assert_eq!((ended.status, lists::csv(&ended.out).len()), (Some(0), 2), "a note that nobody reads is no fault");
        let ended = call(["-", "--csv"]).bytes(&bytes[..bytes.len() - 1]).err(err).run();
        assert_eq!((ended.status, lists::csv(&ended.out).len()), (Some(1), 2));
    }
}

#[test]
fn a_full_disk() {
    for ended in unwritten(Output::Full, Output::Kept) {
        ended.refused(1, &["standard output"]);
    }
    call(["--help"]).out(Output::Full).run().refused(1, &["standard output"]);
    let (bytes, room) = (SCENES.y4m("mono", PAL), Room::new());
    let ended = room.film("- --csv --stats /dev/full --plot plot.svg", &bytes);
    ended.refused(1, &["/dev/full"]);
    assert!(lists::csv(&ended.out).len() == 4 && lists::is_picture(&room.text("plot.svg")));
    let ended = room.film("- --csv --plot /dev/full --stats stats.csv", &bytes);
    ended.refused(1, &["/dev/full"]);
    let lines = lists::stats(&room.text("stats.csv"), None);
    assert_eq!((lists::csv(&ended.out).len(), lines.len()), (4, SCENES.frames()));
}

#[test]
fn a_film_that_is_not_whole_on_a_full_disk_says_both() {
    let whole = SCENES.y4m("mono", PAL);
    let ended = call(["-"]).bytes(&whole[..whole.len() - 1]).out(Output::Full).run();
    ended.refused(1, &["standard output"]);
    ended.refused(1, &["frame 155"]);
}

#[test]
fn outputs_that_cannot_be_made_are_told_before_the_film_is_read() {
    let room = Room::new();
    let missing = room.file("missing").join("file");
    for flag in ["--stats", "--plot"] {
        for file in [&*missing, room.folder()] {
            // the input does not end: it must not be waited for
            let ended = call(["-", flag]).word(file).input(Input::Held(&[])).run();
            ended.refused(1, &[&file.to_string_lossy()]);
            assert_eq!(ended.out, "");
        }
    }
}

#[test]
fn nothing_is_written_over_the_film_or_another_output() {
    let room = Room::new();
    let kept = room.with("film.mp4", b"the film");
    for flag in ["--stats", "--plot"] {
        call([kept.as_os_str(), flag.as_ref(), kept.as_os_str()]).run().refused(1, &["film.mp4"]);
    }
    assert_eq!(text(&kept), "the film");
    std::os::unix::fs::symlink(&kept, room.file("link")).expect("a link can be made");
    call([kept.as_os_str(), "--plot".as_ref(), "link".as_ref()]).within(room.folder()).run().refused(1, &["film.mp4"]);
    for (stats, plot) in [("both", "both"), ("other", "./other"), ("link", "film.mp4")] {
        let words = ["-", "--stats", stats, "--plot", plot];
        call(words).within(room.folder()).input(Input::Held(&[])).run().refused(1, &[plot]);
    }
    assert_eq!(text(&kept), "the film");
    let nowhere = "- --stats /dev/null --plot /dev/null";
    film(nowhere, &SCENES.y4m("mono", PAL)).well();
}

/// Before the film is read nothing is taken from a file that stands there, and a new one goes again.
#[test]
fn a_run_that_reads_no_frame_leaves_the_outputs_as_they_were() {
    let room = Room::new();
    let (old, new) = (room.with("old.csv", b"an old file"), room.file("new.svg"));
    for (words, status) in [("missing.mp4", 1), ("- --threshold nan", 2), ("-", 1), ("- --rate 0", 2)] {
        let run = call(words.split_whitespace()).word("--stats").word(&old).word("--plot").word(&new);
        run.bytes(b"no film").within(room.folder()).run().refused(status, &[]);
        assert_eq!((&*text(&old), new.exists()), ("an old file", false), "{words}");
    }
}

/// A line of the shell in a folder where `./film` is the program.
fn shell(room: &Room, line: &str) -> (Option<i32>, String) {
    let _ = std::os::unix::fs::symlink(program(), room.file("film"));
    let mut command = Command::new("sh");
    command.args(["-c", line]).current_dir(room.folder()).stdin(Stdio::null()).stdout(Stdio::null());
    let child = started(command.stderr(Stdio::piped())).expect("there is a shell");
    let ended = child.wait_with_output().expect("it ends");
    (ended.status.code(), String::from_utf8_lossy(&ended.stderr).into_owned())
}

#[test]
fn nothing_is_written_over_the_film_on_standard_input() {
    let (room, bytes) = (Room::new(), SCENES.y4m("mono", PAL));
    let kept = room.with("film.y4m", &bytes);
    let (status, said) = shell(&room, "./film - --stats film.y4m <film.y4m");
    assert!(status == Some(1) && said.contains("film.y4m would be written over"), "{status:?} {said}");
    assert_eq!(std::fs::read(kept).ok(), Some(bytes));
}

/// A stand-in for ffmpeg that tells of one frame, writes it, and ends with a status that is not 0.
#[test]
fn an_ffmpeg_that_fails_is_a_fault() {
    let room = Room::new();
    room.with("film.mp4", b"a film");
    let tells = "[Parsed_showinfo_1 @ 0x1] [info]";
    let lines = [
        "#!/bin/sh",
        &format!("echo '{tells} config in time_base: 1/25, frame_rate: 25/1' >&2"),
        &format!("echo '{tells} n:   0 pts:      0 pts_time:0       fmt:bgr24 s:2x1 i:P' >&2"),
        "printf abcdef",
        "exit 3",
    ];
    let ffmpeg = room.with("ffmpeg", (lines.join("\n") + "\n").as_bytes());
    std::fs::set_permissions(ffmpeg, std::fs::Permissions::from_mode(0o755)).expect("it can be made a program");
    let (status, said) = shell(&room, "PATH=$PWD:$PATH ./film film.mp4 --json --stats stats.csv");
    assert!(status == Some(1) && said.contains("ffmpeg ended with exit status: 3"), "{status:?} {said}");
    assert_eq!(lists::stats(&room.text("stats.csv"), None).len(), 1);
}
