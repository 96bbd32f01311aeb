//! Compares the proved functions with the Rust. `compare/run` builds and starts it; README.md says what it does.
//!
//! driver ROOT [--seed N] [--count N]    compares; ROOT is the repository's root
//! driver ROOT --write                   writes the programs' stored outputs anew, and the stored input of `cuts`
//! driver ROOT --time                    times both sides, and OpenCV where it is installed
mod adaptive_lists;
#[cfg(rattle)]
mod border;
#[cfg(rattle)]
mod compare;
mod content_lists;
#[cfg(rattle)]
mod edges;
mod filter_rules;
#[cfg(rattle)]
mod foreign;
mod generator;
#[cfg(rattle)]
mod list_kinds;
mod list_rules;
mod lists;
mod operations;
#[cfg(rattle)]
mod pixel;
#[cfg(rattle)]
mod plan_medians;
mod plan_rules;
#[cfg(rattle)]
mod plan_texts;
#[cfg(rattle)]
mod rattle;
mod replay;
mod replay_filter;
mod replay_list;
mod replay_plan;
#[cfg(rattle)]
mod rules;
mod rust;
mod session;
#[cfg(rattle)]
mod session_inputs;
#[cfg(rattle)]
mod sessions;
#[cfg(rattle)]
mod sitting_lists;
#[cfg(rattle)]
mod station;
mod stored_input;
mod sums;
mod table;
#[cfg(rattle)]
mod time;
#[cfg(rattle)]
mod time_calls;
#[cfg(rattle)]
mod time_film;
#[cfg(rattle)]
mod time_lists;
#[cfg(rattle)]
mod time_opencv;
#[cfg(rattle)]
mod time_plans;
#[cfg(rattle)]
mod time_rates;
#[cfg(rattle)]
mod time_stack;
#[cfg(rattle)]
mod time_stages;
#[cfg(rattle)]
mod time_threads;
#[cfg(rattle)]
mod wrapper;

use std::path::{Path, PathBuf};
use std::process::ExitCode;

fn stored(root: &Path, program: &str) -> PathBuf {
    root.join("crates").join(program).join("stdout")
}

/// The oracle's outputs: of the replay programs and `marks`, and of the session's programs on their stored inputs. `session_cases`
/// writes one line more, about chunks of 1 to 300 bytes.
fn outputs(root: &Path) -> Vec<(&'static str, String)> {
    let session = |program: &str| {
        let path = root.join("crates").join(program).join("stdin");
        let input = std::fs::read(&path).unwrap_or_else(|e| panic!("{}: {e}", path.display()));
        String::from_utf8(session::output(&input, &mut session::Seen::default())).expect("digits and commas")
    };
    let mut outputs = replay::outputs().to_vec();
    outputs.push(("cuts", session("cuts")));
    outputs.push(("session_cases", session("session_cases") + "the same in chunks of each size below 301\n"));
    outputs
}

fn write_file(path: &Path, bytes: &[u8]) -> std::io::Result<()> {
    std::fs::write(path, bytes).inspect_err(|e| eprintln!("{}: {e}", path.display()))?;
    println!("wrote {}", path.display());
    Ok(())
}

fn write_all(root: &Path) -> std::io::Result<()> {
    write_file(&root.join("crates/cuts/stdin"), &stored_input::cuts())?;
    outputs(root).iter().try_for_each(|(program, output)| write_file(&stored(root, program), output.as_bytes()))
}

fn write(root: &Path) -> ExitCode {
    if write_all(root).is_ok() { ExitCode::SUCCESS } else { ExitCode::FAILURE }
}

/// The stored outputs beside the oracle's, line by line, and the stored input of `cuts` beside the one that is made here.
fn replays(root: &Path) -> table::Row {
    let mut row = table::Row::new("stored outputs of the programs, lines");
    let input = std::fs::read(root.join("crates/cuts/stdin")).unwrap_or_default();
    row.compare(input.len() as u64, || "the input of cuts".into(), true, input == stored_input::cuts());
    for (program, output) in outputs(root) {
        let text = std::fs::read_to_string(stored(root, program)).unwrap_or_default();
        let count = output.lines().count().max(text.lines().count());
        for i in 0..count {
            let input = || format!("{program}, line {}", i + 1);
            row.compare(i as u64, input, output.lines().nth(i), text.lines().nth(i));
        }
    }
    row
}

/// The number after a word, or another where the word is not there.
#[cfg(rattle)]
fn number(words: &[String], word: &str, other: u64) -> u64 {
    let Some(place) = words.iter().position(|w| w == word) else { return other };
    words.get(place + 1).and_then(|n| n.parse().ok()).unwrap_or_else(|| panic!("{word} wants a number"))
}

#[cfg(rattle)]
fn rows(root: &Path, words: &[String]) -> Vec<table::Row> {
    let which = compare::Lists {
        seed: number(words, "--seed", 6),
        content: number(words, "--count", 250_000),
        adaptive: number(words, "--count", 200_000),
    };
    let mut rows = compare::rows(which);
    rows.extend(wrapper::rows(which));
    rows.extend(border::rows());
    rows.extend(foreign::rows(which.seed));
    rows.extend(plan_texts::rows(which.seed, number(words, "--count", 300_000)));
    rows.push(plan_medians::row());
    rows.extend(sitting_lists::rows(which.seed, number(words, "--count", 120_000)));
    rows.extend(edges::rows());
    rows.extend(sessions::rows(root));
    rows.push(replays(root));
    rows
}

/// Built without the archive: the stored outputs alone.
#[cfg(not(rattle))]
fn rows(root: &Path, _: &[String]) -> Vec<table::Row> {
    println!("built without the Rattle side: only the stored outputs are compared");
    vec![replays(root)]
}

fn main() -> ExitCode {
    let words: Vec<String> = std::env::args().skip(1).collect();
    let root = Path::new(words.first().expect("the repository's root"));
    if words.get(1).is_some_and(|word| word == "--write") {
        return write(root);
    }
    #[cfg(rattle)]
    if words.get(1).is_some_and(|word| word == "--time") {
        time::print(root);
        return ExitCode::SUCCESS;
    }
    if table::print(&rows(root, &words)) { ExitCode::SUCCESS } else { ExitCode::FAILURE }
}
