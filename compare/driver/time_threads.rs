//! Detectors worked by one thread and by two, by the clock. The library keeps no state of its own, so that two threads
//! with a detector each do not wait for one another. The numbers mean something where nothing else runs.
use crate::time_calls::{Detector, content_detector};
use crate::time_film::{Film, Kind};
use crate::time_rates::CALLS;
use mawerodu::sys::CONTENT_WORDS;
use std::thread;
use std::time::Instant;

const DETECTORS: usize = 8;
const RUNS: u32 = 9;

/// A detector and a film of its own.
type Work = (Detector<CONTENT_WORDS>, Film);

/// The frames that each detector gets in a run, so that a run of any kind takes some tenths of a second.
fn frames(kind: Kind, edges: bool) -> usize {
    match (kind, edges) {
        (Kind::Luma, false) => 160,
        (_, false) => 24,
        (_, true) => 12,
    }
}

/// A frame of each detector after the other, then the next frame of each.
fn work(part: &mut [Work], kind: Kind, frames: usize) {
    for i in 0..frames {
        part.iter_mut().for_each(|(detector, film)| detector.call(kind, film, i));
    }
}

/// Frames a second with so many threads, each with as many of the detectors.
fn rate(works: &mut [Work], kind: Kind, frames: usize, threads: usize) -> f64 {
    let (each, all) = (works.len() / threads, works.len() * frames);
    let start = Instant::now();
    thread::scope(|scope| {
        for part in works.chunks_mut(each) {
            scope.spawn(move || work(part, kind, frames));
        }
    });
    all as f64 / start.elapsed().as_secs_f64()
}

/// The most frames a second by one thread and by two, in turn.
fn rates(film: &Film, kind: Kind, edges: bool) -> [f64; 2] {
    let mut works: Vec<Work> = (0..DETECTORS).map(|_| (content_detector(film, edges, None), film.clone())).collect();
    let mut most = [0.0f64; 2];
    for _ in 0..RUNS {
        most = [1, 2].map(|threads| most[threads - 1].max(rate(&mut works, kind, frames(kind, edges), threads)));
    }
    most
}

pub fn print() {
    for film in Film::both(1280, 720) {
        let title = format!("{}, {DETECTORS} detectors", film.title());
        println!("\n{title:<36} {:>12} {:>12} {:>12}", "one thread", "two threads", "quotient");
        for (name, kind, edges) in CALLS {
            let [one, two] = rates(&film, kind, edges);
            println!("{name:<36} {one:>12.1} {two:>12.1} {:>12.3}", two / one);
        }
    }
    println!("frames a second of all detectors by the clock, best of {RUNS}, on {} cores", cores());
}

fn cores() -> usize {
    thread::available_parallelism().map_or(1, |count| count.get())
}
