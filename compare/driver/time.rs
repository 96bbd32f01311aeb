//! Times in one run: the library here, the scalar path of the Rust, and OpenCV where it is installed, on the same
//! pictures. This file has the clock, the tables of nanoseconds per pixel, and the order of what is printed.
use crate::time_film::Film;
use crate::time_opencv::{OpenCv, Times};
use crate::{time_calls, time_lists, time_plans, time_rates, time_stack, time_stages, time_threads};
use std::path::Path;

/// Calls that count.
const RUNS: u32 = 15;
/// Whole frame calls are timed in so many rounds.
pub const ROUNDS: u32 = 3;
/// The size whose stages are timed too.
const STAGES: (u32, u32) = (1920, 1080);
const SIZES: [(u32, u32); 2] = [(640, 480), STAGES];

#[repr(C)]
struct Time {
    seconds: i64,
    nanos: i64,
}

unsafe extern "C" {
    fn clock_gettime(clock: i32, time: *mut Time) -> i32;
}

/// The thread's own time in nanoseconds, so that other work on the machine is not counted.
fn now() -> f64 {
    const CLOCK_THREAD_CPUTIME_ID: i32 = 3;
    let mut time = Time { seconds: 0, nanos: 0 };
    assert_eq!(unsafe { clock_gettime(CLOCK_THREAD_CPUTIME_ID, &mut time) }, 0);
    time.seconds as f64 * 1e9 + time.nanos as f64
}

/// The least time of a call over n, in nanoseconds: per pixel, or per operation. The first two calls are not counted.
pub fn best(n: usize, mut call: impl FnMut(usize)) -> f64 {
    let mut least = f64::INFINITY;
    for i in 0..RUNS as usize + 2 {
        let start = now();
        call(i);
        let time = now() - start;
        least = if i < 2 { least } else { least.min(time) };
    }
    least / n as f64
}

/// The least time of two calls, over rounds in turn, so that a disturbance that lasts does not meet one of them alone.
pub fn in_turn(n: usize, mut one: impl FnMut(usize), mut other: impl FnMut(usize)) -> [f64; 2] {
    let mut least = [f64::INFINITY; 2];
    for _ in 0..ROUNDS {
        least = [least[0].min(best(n, &mut one)), least[1].min(best(n, &mut other))];
    }
    least
}

/// A number, or a dash where there is none.
fn cell(number: Option<f64>) -> String {
    number.map_or("-".into(), |number| format!("{number:.3}"))
}

/// A table of nanoseconds per pixel: by the Rust, by OpenCV, and here, and the quotient of the last and each other. OpenCV
/// has columns only where it is installed.
pub struct Table<'a> {
    times: Option<&'a Times>,
}

impl<'a> Table<'a> {
    pub fn new(title: &str, times: Option<&'a Times>) -> Self {
        let table = Table { times };
        println!();
        table.line(title, ["Rust", "OpenCV", "Rattle", "to Rust", "to OpenCV"].map(String::from));
        table
    }

    fn line(&self, name: &str, [rust, opencv, rattle, to_rust, to_opencv]: [String; 5]) {
        match self.times {
            Some(_) => println!("{name:<36} {rust:>10} {opencv:>10} {rattle:>10} {to_rust:>10} {to_opencv:>10}"),
            None => println!("{name:<36} {rust:>10} {rattle:>10} {to_rust:>10}"),
        }
    }

    /// A call; the key is the name that OpenCV's time of it has.
    pub fn row(&self, name: &str, key: &str, rust: f64, rattle: f64) {
        let opencv = self.times.and_then(|times| times.get(key)).copied();
        let to_opencv = opencv.map(|time| rattle / time);
        self.line(name, [Some(rust), opencv, Some(rattle), Some(rattle / rust), to_opencv].map(cell));
    }

    /// A stage, which has the same name by OpenCV. Where OpenCV has no such stage there is no time of it.
    pub fn stage(&self, name: &str, rust: f64, rattle: f64) {
        self.row(name, name, rust, rattle);
    }

    /// What OpenCV alone has.
    pub fn alone(&self, name: &str) {
        if let Some(&time) = self.times.and_then(|times| times.get(name)) {
            self.line(name, [None, Some(time), None, None, None].map(cell));
        }
    }
}

fn tables(opencv: Option<&OpenCv>, film: &Film) {
    let times = opencv.map(|opencv| opencv.times(film));
    time_calls::print(film, times.as_ref());
    time_plans::print(film);
    if (film.width, film.height) == STAGES {
        time_stages::print(film, times.as_ref());
    }
}

pub fn print(root: &Path) {
    let opencv = OpenCv::found(root);
    println!(
        "times are the thread's own, the best of {RUNS}, of frame calls of {ROUNDS} rounds of that; in nanoseconds per pixel; one thread"
    );
    match &opencv {
        Some(opencv) => println!("OpenCV {}, by {}", opencv.version, opencv.python),
        None => println!("OpenCV is not installed (no Python imports cv2): the tables have no column for it"),
    }
    time_rates::print();
    time_rates::print_sizes();
    time_threads::print();
    time_stack::print();
    for (width, height) in SIZES {
        Film::both(width, height).for_each(|film| tables(opencv.as_ref(), &film));
    }
    [0, 64, 511].into_iter().for_each(time_lists::print);
}
