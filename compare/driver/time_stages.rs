//! The stages of a frame call, timed by their own functions, on the first frame of a film.
use crate::time::{Table, best};
use crate::time_film::Film;
use crate::time_opencv::Times;
use crate::{rattle, rust};
use std::hint::black_box;

/// Stages that make planes of the frame's bytes, and the sum of differences of two planes.
fn planes(table: &Table, film: &Film) {
    let (n, width, height) = (film.n(), film.width, film.height);
    let (bgr, a, b) = (&film.frames[0], film.planes(0)[0], film.planes(1)[0]);
    let (mut planes, mut packed) = (vec![0; 3 * n], vec![0; n]);
    table.stage(
        "bgr_to_hsv_planes",
        best(n, |_| rust::bgr_to_hsv_planes_into(black_box(&mut planes), black_box(bgr), width, height, 3 * width)),
        best(n, |_| {
            rattle::bgr_to_hsv_planes(black_box(&mut planes), black_box(bgr), width, height, 3 * width);
        }),
    );
    table.stage(
        "copy_plane",
        best(n, |_| rust::copy_plane_into(black_box(&mut packed), black_box(a), width, height, width)),
        best(n, |_| {
            rattle::copy_plane(black_box(&mut packed), black_box(a), width, height, width);
        }),
    );
    table.stage(
        "mean_abs_diff",
        best(n, |_| {
            black_box(rust::mean_abs_diff(black_box(a), black_box(b)));
        }),
        best(n, |_| {
            black_box(rattle::mean_abs_diff(black_box(a), black_box(b)));
        }),
    );
}

/// Stages of the edges, and the whole edge plane.
fn edges(table: &Table, film: &Film) {
    let (n, width, height, luma) = (film.n(), film.width, film.height, film.planes(0)[0]);
    let (mut mag, mut dir, mut plane) = (vec![0; n], vec![0; n], vec![0; n]);
    table.stage(
        "median_u8",
        best(n, |_| {
            black_box(rust::median(black_box(luma)));
        }),
        best(n, |_| {
            black_box(rattle::median(black_box(luma)));
        }),
    );
    table.stage(
        "sobel",
        best(n, |_| rust::sobel_into(black_box(&mut mag), black_box(&mut dir), black_box(luma), width, height)),
        best(n, |_| {
            rattle::sobel(black_box(&mut mag), black_box(&mut dir), black_box(luma), width, height);
        }),
    );
    let mut detector = rust::edge_detector(width, height, 13);
    table.stage(
        "edge_plane, k 13",
        best(n, |_| rust::edge_plane_again(black_box(&mut detector), black_box(luma))),
        best(n, |_| {
            rattle::edge_plane(black_box(&mut plane), black_box(&mut mag), black_box(luma), width, height, 13);
        }),
    );
}

/// The table of stages. Canny and dilation are no stages of their own here: OpenCV's times of them stand alone.
pub fn print(film: &Film, times: Option<&Times>) {
    let table = Table::new(&format!("{}, stages", film.title()), times);
    planes(&table, film);
    edges(&table, film);
    table.alone("Canny");
    table.alone("dilate, k 13");
}
