//! Scores, ratios and cuts are those of the rules, worked out a second time from the pixels.
use crate::films::{pixel, Lot, Rate, Scenes, PAL};
use crate::lists::{self, Stat};
use crate::model::{self, Adaptive, Content, Scored};
use crate::program::{film, Ended, Room};

/// What `--stats` says of a film, and how the run ended.
fn stats(words: &str, bytes: &[u8], window: Option<usize>) -> (Vec<Stat>, Ended) {
    let room = Room::new();
    let ended = room.film(&format!("{words} --stats stats.csv"), bytes);
    assert_eq!(ended.status, Some(0), "{}", ended.said);
    (lists::stats(&room.text("stats.csv"), window), ended)
}

/// The mean absolute difference of two planes.
fn difference(before: &[u8], after: &[u8]) -> f64 {
    let sum: u64 = before.iter().zip(after).map(|(&a, &b)| u64::from(a.abs_diff(b))).sum();
    sum as f64 / before.len() as f64
}

/// Frames of luma that have nothing in common.
fn random(width: usize, height: usize, frames: usize) -> Vec<Vec<u8>> {
    let mut lot = Lot::new((width * height) as u64);
    (0..frames).map(|_| (0..width * height).map(|_| lot.below(256) as u8).collect()).collect()
}

fn luma_scores(width: usize, height: usize) {
    let frames = random(width, height, 40);
    let known: Vec<f64> = frames.windows(2).map(|pair| difference(&pair[0], &pair[1])).collect();
    let raw = format!("- --raw {width}x{height} --rate 25 --format gray");
    for (weights, by) in [("", 1.0), ("--weights 1,1,1,0", 3.0), ("--weights 0,0,-2,0", -1.0)] {
        let (lines, _) = stats(&format!("{raw} {weights}"), &frames.concat(), None);
        assert_eq!((lines.len(), lines[0].score, lines[0].deltas), (40, None, [None; 4]));
        for (line, known) in lines[1..].iter().zip(&known) {
            assert_eq!(line.score.map(f64::to_bits), Some((known / by).to_bits()), "{weights} {line:?}");
            assert_eq!(line.deltas, [Some(0.0), Some(0.0), Some(*known), Some(0.0)]);
        }
    }
}

#[test]
fn scores_of_luma_frames_are_exact() {
    luma_scores(7, 5);
    luma_scores(64, 3);
    luma_scores(1, 1);
}

/// Scenes in colour, before which a white bar stands that moves now and then: it has edges.
fn barred(scenes: &Scenes) -> Vec<Vec<u8>> {
    let white = |frame: usize, place: usize| (place / 3 % scenes.width) / 8 == frame / 12 % 4;
    let bar = |frame: usize, (place, byte)| if white(frame, place) { 255 } else { byte };
    let barred = |frame| scenes.bgr(frame).into_iter().enumerate().map(|byte| bar(frame, byte)).collect();
    (0..scenes.frames()).map(barred).collect()
}

#[test]
fn scores_of_bgr_frames_fit_their_components() {
    let scenes = Scenes::new(48, 36);
    let (frames, weights) = (barred(&scenes), [0.75, -0.5, 2.0, 0.125]);
    let words = "- --raw 48x36 --rate 25 --format bgr24 --weights 0.75,-0.5,2,0.125";
    let (lines, _) = stats(words, &frames.concat(), None);
    let value = |frame: &[u8]| frame.chunks(3).filter_map(|pixel| pixel.iter().copied().max()).collect::<Vec<_>>();
    let size: f64 = weights.iter().map(|weight: &f64| weight.abs()).sum();
    let mut most = [0.0f64; 4];
    for (pair, line) in frames.windows(2).zip(&lines[1..]) {
        let deltas = line.deltas.map(Option::unwrap);
        assert_eq!(deltas[2], difference(&value(&pair[0]), &value(&pair[1])), "{line:?}");
        let [h, s, l, e] = [0, 1, 2, 3].map(|plane| deltas[plane] * weights[plane]);
        assert_eq!(line.score, Some((h + s + l + e) / size), "{line:?}");
        most = [0, 1, 2, 3].map(|plane| most[plane].max(deltas[plane]));
    }
    assert!(most.iter().all(|&delta| delta > 5.0 && delta <= 255.0), "each plane changes: {most:?}");
}

#[test]
fn edges_are_looked_at_only_if_they_have_a_weight_and_by_the_kernel_that_is_set() {
    let scenes = Scenes { lengths: &[10, 10], ..Scenes::new(40, 30) };
    let edges = |words: &str| {
        let (lines, _) = stats(&format!("- {words}"), &scenes.y4m("mono", PAL), None);
        (lines[10].deltas[3].unwrap(), lines[10].score.unwrap())
    };
    let (off, _) = edges("--weights 0,0,1,0");
    let (three, score) = edges("--weights 0,0,0,1 --kernel 3");
    let (nine, _) = edges("--weights 0,0,0,1 --kernel 9");
    assert!(off == 0.0 && three > 0.0 && score == three && nine != three, "{off} {three} {nine}");
}

/// Luma of a film of one pixel: still for some frames, and sometimes another.
fn walk(lot: &mut Lot, frames: usize) -> Vec<u8> {
    let still = 2 + lot.below(12);
    let mut luma = 100;
    let step = |_| {
        luma = if lot.below(still) == 0 { lot.below(256) as u8 } else { luma };
        luma
    };
    (0..frames).map(step).collect()
}

const RATES: [Rate; 3] = [Rate(10, 1), Rate(24000, 1001), Rate(7, 3)];
/// Three frames share a stamp.
const FAST: Rate = Rate(3_000_000, 1);

/// A film by lot, with its stamps and scores.
fn lot_film(lot: &mut Lot, rate: Rate) -> (Vec<u8>, Vec<Scored>) {
    let luma = walk(lot, 150);
    let score = |place: usize| place.checked_sub(1).map(|before| f64::from(luma[place].abs_diff(luma[before])));
    let frames = (0..luma.len()).map(|place| (rate.stamp(place), score(place))).collect();
    (pixel(&luma, rate), frames)
}

/// The places of the frames that are cuts.
fn cuts_of(lines: &[Stat]) -> Vec<usize> {
    (0..lines.len()).filter(|&place| lines[place].cut).collect()
}

fn scored(lines: &[Stat]) -> Vec<Scored> {
    lines.iter().map(|line| (line.at, line.score)).collect()
}

/// Settings of the content detector by lot, and the words that set them.
fn content(lot: &mut Lot, rate: Rate) -> (Content, String) {
    let durations = if rate == FAST { [0, 1, 2, 3, 6] } else { [0, 300_000, 500_000, 1_000_000, 2_500_000] };
    let settings = Content {
        threshold: [1.0, 27.0, 90.0, 0.0, 300.0][lot.below(5) as usize],
        min_duration: durations[lot.below(5) as usize],
        suppress: lot.below(3) == 0,
        initial_cut: lot.below(2) == 0,
    };
    let Content { threshold, min_duration, suppress, initial_cut } = settings;
    let (mode, initial) = (if suppress { "suppress" } else { "merge" }, if initial_cut { "yes" } else { "no" });
    let words =
        format!("- --threshold {threshold} --min-duration {min_duration}us --mode {mode} --initial-cut {initial}");
    (settings, words)
}

#[test]
fn cuts_of_the_content_detector_follow_the_rules() {
    let (mut merged, mut helds) = (0, 0);
    for seed in 1..=120 {
        let mut lot = Lot::new(seed);
        let rate = if seed > 60 { FAST } else { RATES[lot.below(3) as usize] };
        let (settings, words) = content(&mut lot, rate);
        let (bytes, frames) = lot_film(&mut lot, rate);
        let (cuts, held) = model::content(&settings, &frames);
        let (lines, ended) = stats(&words, &bytes, None);
        lists::same(&scored(&lines), &frames, &words);
        lists::same(&cuts_of(&lines), &cuts, &words);
        let told = held.map_or("not listed".to_string(), lists::timecode);
        assert_eq!(ended.says(&["merge", "pending", &told]), held.is_some(), "{words}: {}", ended.said);
        let plain = model::content(&Content { suppress: true, ..settings }, &frames).0;
        merged += usize::from(cuts != plain);
        helds += usize::from(held.is_some());
    }
    assert!(merged > 10 && helds > 4 && helds < 110, "{merged} {helds}");
}

/// Settings of the adaptive detector by lot, and the words that set them.
fn adaptive(lot: &mut Lot, rate: Rate) -> (Adaptive, String) {
    let durations = if rate == FAST { [0, 1, 2, 5] } else { [0, 500_000, 1_000_000, 2_500_000] };
    let settings = Adaptive {
        threshold: [3.0, 1.5, 0.0, 8.0][lot.below(4) as usize],
        min_duration: durations[lot.below(4) as usize],
        window: [1, 2, 5, 64][lot.below(4) as usize],
        min_content: [15.0, 0.0, 60.0][lot.below(3) as usize],
        initial_cut: lot.below(2) == 0,
    };
    let Adaptive { threshold, min_duration, window, min_content, initial_cut } = settings;
    let initial = if initial_cut { "yes" } else { "no" };
    let words = format!(
        "- --detector adaptive --threshold {threshold} --min-duration {min_duration}us --window {window} \
         --min-content {min_content} --initial-cut {initial}"
    );
    (settings, words)
}

#[test]
fn ratios_and_cuts_of_the_adaptive_detector_follow_the_rules() {
    let mut count = 0;
    for seed in 1..=120 {
        let mut lot = Lot::new(seed + 1000);
        let rate = if seed > 60 { FAST } else { RATES[lot.below(3) as usize] };
        let (settings, words) = adaptive(&mut lot, rate);
        let (bytes, frames) = lot_film(&mut lot, rate);
        let (ratios, cuts) = model::adaptive(&settings, &frames);
        let (lines, ended) = stats(&words, &bytes, Some(settings.window));
        let written: Vec<Option<f64>> = lines.iter().map(|line| line.ratio).collect();
        lists::same(&scored(&lines), &frames, &words);
        lists::same(&written, &ratios, &words);
        lists::same(&cuts_of(&lines), &cuts, &words);
        assert!(!ended.says(&["merge"]), "{}", ended.said);
        count += cuts.len();
    }
    assert!(count > 120, "{count}");
}

/// The first change is a cut, at 1.0 s. The second starts a merge, which the third joins at 2.5 s, a minimum later;
/// then the film ends. A merge that is shorter holds no cut back.
#[test]
fn a_cut_that_is_held_back_at_the_end_is_told() {
    let film_of = |third: usize| {
        let luma = |frame: usize| if (10..15).contains(&frame) || frame >= third { 200 } else { 50 };
        pixel(&(0..30).map(luma).collect::<Vec<u8>>(), Rate(10, 1))
    };
    let told = |words: &str, third: usize| {
        let ended = film(words, &film_of(third));
        assert_eq!(ended.status, Some(0), "{}", ended.said);
        ended.says(&["merge", "pending", "00:00:02.500", "--mode suppress"])
    };
    assert!(told("-", 25) && !ended_with_merge(&film_of(24)));
    for words in ["- --mode suppress", "- --detector adaptive", "- --threshold 151", "- --min-duration 0.5s"] {
        assert!(!told(words, 25), "{words}");
    }
}

fn ended_with_merge(bytes: &[u8]) -> bool {
    film("-", bytes).says(&["merge"])
}

#[test]
fn luma_frames_without_weights_are_told() {
    let (scenes, words) = (Scenes::new(6, 6), ["luma", "0,0,1,0", "--weights"]);
    let raw = "- --raw 6x6 --rate 25 --format";
    let (gray, bgr) = (scenes.gray(), scenes.bgr24());
    for detector in ["", "--detector adaptive"] {
        assert!(film(&format!("- {detector}"), &scenes.y4m("", PAL)).says(&words));
        assert!(film(&format!("{raw} gray {detector}"), &gray).says(&words));
        for (line, bytes) in [("gray --weights 0,0,1,0", &gray), ("gray --weights 1,1,1,0", &gray), ("bgr24", &bgr)] {
            let ended = film(&format!("{raw} {line} {detector}"), bytes);
            assert_eq!((ended.status, &*ended.said), (Some(0), ""), "{line}");
        }
    }
}
