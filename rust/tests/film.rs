//! Tests of the program `./film`: they run it as a process, on films that they make themselves, and compare what it
//! writes with what is known of these films.
//!
//! The environment variable FILM names the program; under cargo it is the one that cargo has built. ROOM names a folder
//! for what the tests write; without it that is the system's folder for such files. If TREE names the source tree, its
//! stored output of the demo is compared too. No other tool is needed; the tests of films that ffmpeg decodes run where
//! it is on the PATH, and say so where it is not.

#[path = "film/cuts.rs"]
mod cuts;
#[path = "film/decoded.rs"]
mod decoded;
#[path = "film/demo.rs"]
mod demo;
#[path = "film/faults.rs"]
mod faults;
#[path = "film/films.rs"]
mod films;
#[path = "film/json.rs"]
mod json;
#[path = "film/lists.rs"]
mod lists;
#[path = "film/model.rs"]
mod model;
#[path = "film/plans.rs"]
mod plans;
#[path = "film/program.rs"]
mod program;
#[path = "film/refusals.rs"]
mod refusals;
#[path = "film/scores.rs"]
mod scores;
#[path = "film/terminal.rs"]
mod terminal;
