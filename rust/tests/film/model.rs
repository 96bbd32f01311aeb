//! Which frames are cuts, by the rules of `mawerodu.h` ("Cuts"), worked out from the scores a second time.

/// A frame: its stamp, and its score if it has one.
pub type Scored = (i64, Option<f64>);

pub struct Content {
    pub threshold: f64,
    pub min_duration: u64,
    pub suppress: bool,
    pub initial_cut: bool,
}

pub struct Adaptive {
    pub threshold: f64,
    pub min_duration: u64,
    pub window: usize,
    pub min_content: f64,
    pub initial_cut: bool,
}

/// Whether a stamp is at least this long after another.
fn past(at: i64, before: i64, least: u64) -> bool {
    i128::from(at) - i128::from(before) >= i128::from(least)
}

fn seed(first: i64, min_duration: u64, initial_cut: bool) -> i64 {
    if initial_cut {
        first.saturating_sub_unsigned(min_duration)
    } else {
        first
    }
}

/// The places of the frames that are cuts, and the stamp of the cut that a merge holds back at the end.
pub fn content(settings: &Content, frames: &[Scored]) -> (Vec<usize>, Option<i64>) {
    content_by(settings, frames, |_| settings.threshold)
}

/// The same where each frame, by its place, has a threshold of its own.
pub fn content_by(
    settings: &Content,
    frames: &[Scored],
    threshold: impl Fn(usize) -> f64,
) -> (Vec<usize>, Option<i64>) {
    let mut cuts = Vec::new();
    let (mut last, mut last_place) = (None, 0);
    let mut merge = None;
    for (place, &(at, score)) in frames.iter().enumerate() {
        let Some(score) = score else { continue };
        let above = score >= threshold(place);
        let before = *last.get_or_insert(seed(at, settings.min_duration, settings.initial_cut));
        let late = past(at, before, settings.min_duration);
        if settings.suppress {
            if above && late {
                cuts.push(place);
                last = Some(at);
            }
            continue;
        }
        if above {
            (last, last_place) = (Some(at), place);
        }
        match merge {
            None if above && late => cuts.push(place),
            None if above && !cuts.is_empty() => merge = Some(at),
            Some(start)
                if !above && late && (past(before, start, settings.min_duration) || settings.min_duration == 0) =>
            {
                cuts.push(last_place);
                merge = None;
            }
            _ => {}
        }
    }
    let ends = |start| last.filter(|&last| past(last, start, settings.min_duration) || settings.min_duration == 0);
    (cuts, merge.and_then(ends))
}

/// The ratio of each frame that is judged, and the places of those that are cuts.
pub fn adaptive(settings: &Adaptive, frames: &[Scored]) -> (Vec<Option<f64>>, Vec<usize>) {
    let scored: Vec<(usize, i64, f64)> =
        frames.iter().enumerate().filter_map(|(place, &(at, score))| Some((place, at, score?))).collect();
    let full = 2 * settings.window + 1;
    let (mut ratios, mut cuts) = (vec![None; frames.len()], Vec::new());
    let (mut sum, mut last) = (0.0, None);
    for next in 0..scored.len() {
        sum += scored[next].2;
        if next >= full {
            sum -= scored[next - full].2;
        }
        if next + 1 < full {
            continue;
        }
        let (place, at, target) = scored[next - settings.window];
        let ratio = ratio((sum - target) / (2 * settings.window) as f64, target, settings.min_content);
        ratios[place] = Some(ratio);
        let before = *last.get_or_insert(seed(at, settings.min_duration, settings.initial_cut));
        let enough = ratio >= settings.threshold && target >= settings.min_content;
        if enough && past(at, before, settings.min_duration) {
            cuts.push(place);
            last = Some(at);
        }
    }
    (ratios, cuts)
}

fn ratio(average: f64, target: f64, min_content: f64) -> f64 {
    if average.abs() >= 1e-5 {
        (target / average).min(255.0)
    } else if target >= min_content {
        255.0
    } else {
        0.0
    }
}
