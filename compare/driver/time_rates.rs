//! Frames a second, and how the time of a pixel grows with the frame's size: content detectors of the station library.
use crate::time::{ROUNDS, best};
use crate::time_calls::content_detector;
use crate::time_film::{Film, Kind};

const SIZES: [(u32, u32); 4] = [(640, 480), (1280, 720), (1920, 1080), (3840, 2160)];

/// The calls whose frames a second are told: name, kind of frame, and whether edges count.
pub const CALLS: [(&str, Kind, bool); 4] = [
    ("BGR", Kind::Bgr, false),
    ("BGR, edges", Kind::Bgr, true),
    ("luma", Kind::Luma, false),
    ("luma, edges", Kind::Luma, true),
];

/// Nanoseconds per pixel of a call.
fn time(film: &Film, kind: Kind, edges: bool) -> f64 {
    let mut detector = content_detector(film, edges, None);
    let times = (0..ROUNDS).map(|_| best(film.n(), |i| detector.call(kind, film, i)));
    times.fold(f64::INFINITY, f64::min)
}

/// Megabytes that a detector is lent for frames of this size: store, scratch and magnitudes.
fn megabytes(film: &Film) -> f64 {
    let station = content_detector(film, true, None).station;
    let magnitudes = size_of_val(&station.magnitudes[..]);
    (station.store.len() + station.scratch.len() + magnitudes) as f64 / 1e6
}

/// The table of frames a second.
pub fn print() {
    let [a, b, c, d] = CALLS.map(|(name, ..)| name);
    println!("\n{:<36} {a:>12} {b:>12} {c:>12} {d:>12} {:>12}", "frames a second", "MB lent");
    for film in SIZES.into_iter().flat_map(|(width, height)| Film::both(width, height)) {
        let [a, b, c, d] = CALLS.map(|(_, kind, edges)| 1e9 / (time(&film, kind, edges) * film.n() as f64));
        println!("{:<36} {a:>12.1} {b:>12.1} {c:>12.1} {d:>12.1} {:>12.2}", film.title(), megabytes(&film));
    }
}

/// With edges on a small frame and on the largest, and the quotient.
pub fn print_sizes() {
    println!("\n{:<36} {:>12} {:>12} {:>12}", "with edges, ns a pixel", "640 x 480", "4096 x 4096", "quotient");
    for (small, large) in Film::both(640, 480).zip(Film::both(4096, 4096)) {
        for (name, kind) in [("luma", Kind::Luma), ("BGR", Kind::Bgr)] {
            let [few, many] = [&small, &large].map(|film| time(film, kind, true));
            let title = format!("{name}, {}", small.picture);
            println!("{title:<36} {few:>12.3} {many:>12.3} {:>12.3}", many / few);
        }
    }
}
