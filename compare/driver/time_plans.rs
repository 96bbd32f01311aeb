//! What a light plan costs: whole content calls under a plan of sixteen rows beside the same calls without one, in turn,
//! through the station library; and the median of a frame alone.
use crate::plan_rules::{Plan, Row};
use crate::station;
use crate::time::{best, in_turn};
use crate::time_calls::{content_detector, planned_detector};
use crate::time_film::Film;
use crate::time_rates::CALLS;
use std::hint::black_box;

fn sixteen() -> Plan {
    let rows: Vec<Row> = (0..16).map(|i| Row::new(16 * i, 16 * i + 15, 4 * i + 4)).collect();
    Plan::of(&rows)
}

/// The table of one film, in nanoseconds per pixel.
pub fn print(film: &Film) {
    println!("\n{:<36} {:>10} {:>10} {:>10} {:>10}", film.title(), "no plan", "a plan", "more", "quotient");
    for (name, kind, edges) in CALLS {
        let mut without = content_detector(film, edges, None);
        let mut with = planned_detector(film, edges, sixteen());
        let [few, many] = in_turn(film.n(), |i| without.call(kind, film, i), |i| with.call(kind, film, i));
        println!("{name:<36} {few:>10.3} {many:>10.3} {:>10.3} {:>10.3}", many - few, many / few);
    }
    let (width, height) = (film.width, film.height);
    let median = best(film.n(), |i| {
        black_box(station::luma_median(black_box(film.planes(i)[0]), width, height, width));
    });
    println!("{:<36} {:>10} {median:>10.3}", "luma_median", "");
}
