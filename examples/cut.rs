// Cuts a film of four frames of one pixel, with the content detector's default settings: a cut at 400000. Then the state, the
// settings and the refusals, what luma frames want, the sums that a score comes from, the adaptive detector on a longer
// film, and a list of cuts.
use mawerodu::{
    AdaptiveDetector, AdaptiveOptions, Components, ContentDetector, ContentOptions, CutList, FilterMode, Refusal, Sums,
};

const FILM: [(i64, u8); 4] = [(0, 0), (400000, 200), (900000, 0), (2000000, 0)];

fn main() -> Result<(), Refusal> {
    // the default settings, to show what they do with luma frames: a film of luma frames wants those of luma_frames()
    let mut detector = ContentDetector::new();
    println!("frame,answer,cut");
    for (i, (ts, luma)) in FILM.iter().enumerate() {
        match detector.process_luma(&[*luma], 1, 1, 1, *ts) {
            Ok(answer) => match answer.cut {
                Some(cut) => println!("{i},0,{cut}"),
                None => println!("{i},0,-"),
            },
            Err(Refusal(number)) => println!("{i},{number},-"),
        }
    }

    // a detector can be made only with a library of the wrapper's version
    assert_eq!(mawerodu::version(), mawerodu::VERSION);

    // a refused frame changes nothing
    let before = *detector.state();
    assert_eq!(detector.process_luma(&[0], 2, 1, 2, 0), Err(Refusal(3)));
    assert_eq!(detector.state(), &before);
    // a state can be read back; words that are not a state are refused
    assert!(ContentDetector::from_state(&before).is_ok());
    assert_eq!(ContentDetector::from_state(&[0; 34]).err(), Some(Refusal(15)));
    // settings: a set kernel size of 0 is refused like any other below 3
    for kernel_size in [0, 1, 2, 4] {
        let options = ContentOptions { kernel_size: Some(kernel_size), ..ContentOptions::default() };
        assert_eq!(ContentDetector::with_options(options).err(), Some(Refusal(8)));
    }
    let wide = AdaptiveOptions { window_width: 65, ..AdaptiveOptions::default() };
    assert_eq!(AdaptiveDetector::with_options(wide).err(), Some(Refusal(11)));

    // luma frames score a third of their luma difference at default weights, and all of it at luma-only weights
    for (weights, score) in [(Components::DEFAULT_WEIGHTS, 30.0), (Components::LUMA_ONLY_WEIGHTS, 90.0)] {
        let mut detector = ContentDetector::with_options(ContentOptions { weights, ..ContentOptions::default() })?;
        assert_eq!(detector.process_luma(&[10], 1, 1, 1, 0)?.score, None);
        assert_eq!(detector.process_luma(&[100], 1, 1, 1, 40000)?.score, Some(score));
    }
    luma_frames()?;

    // two pixels: hue differs by 10 and 5, saturation by 0 and 3, value by 20 and 22, so the score is (7.5 + 1.5 + 21) / 3
    let mut detector = ContentDetector::new();
    let first = detector.process_hsv(&[10, 30], &[50, 60], &[100, 120], 2, 1, 2, 0)?;
    let second = detector.process_hsv(&[20, 35], &[50, 63], &[120, 98], 2, 1, 2, 40000)?;
    println!("score {:?}, {:?}", second.score, second.sums);
    // without a score, and without pixels, all five are 0
    assert_eq!((first.score, first.sums), (None, Sums::default()));
    detector.process_luma(&[], 0, 0, 0, 80000)?;
    let empty = detector.process_luma(&[], 0, 0, 0, 120000)?;
    assert_eq!((empty.score, empty.sums), (Some(0.0), Sums::default()));

    let window = AdaptiveOptions { window_width: 1, ..AdaptiveOptions::luma_only() };
    let mut adaptive = AdaptiveDetector::with_options(window)?;
    let mut cuts = Vec::new();
    for (i, luma) in [10u8, 11, 12, 42, 43, 44, 45].iter().enumerate() {
        if let Some(cut) = adaptive.process_luma(&[*luma], 1, 1, 1, i as i64 * 40000)?.cut {
            cuts.push(cut);
        }
    }
    println!("adaptive cuts {cuts:?}");
    list_of_cuts()
}

// With the settings for luma frames a luma difference of 27 is a cut (content), or one of 15 that stands out
// (adaptive). One less is none. With the default settings it takes three times as much.
fn luma_frames() -> Result<(), Refusal> {
    let (plain, luma) = (ContentOptions::default(), ContentOptions::luma_only());
    for (options, difference, cut) in
        [(luma, 27, Some(40000)), (luma, 26, None), (plain, 81, Some(40000)), (plain, 80, None)]
    {
        let mut detector = ContentDetector::with_options(options)?;
        detector.process_luma(&[100], 1, 1, 1, 0)?;
        assert_eq!(detector.process_luma(&[100 + difference], 1, 1, 1, 40000)?.cut, cut);
    }
    let (plain, luma) = (AdaptiveOptions::default(), AdaptiveOptions::luma_only());
    for (options, difference, cut) in
        [(luma, 15, Some(120000)), (luma, 14, None), (plain, 45, Some(120000)), (plain, 44, None)]
    {
        let mut detector = AdaptiveDetector::with_options(options)?;
        let mut last = None;
        for (i, luma) in [100, 100, 100, 100 + difference, 100 + difference, 100 + difference].iter().enumerate() {
            last = detector.process_luma(&[*luma], 1, 1, 1, i as i64 * 40000)?.cut;
        }
        assert_eq!(last, cut);
    }
    Ok(())
}

// A list of the cuts at 400000, 1400000 and 2400000, a second apart: in Suppress none of one stretch is refused.
fn list_of_cuts() -> Result<(), Refusal> {
    let options = ContentOptions { filter_mode: FilterMode::Suppress, ..ContentOptions::luma_only() };
    let mut detector = ContentDetector::with_options(options)?;
    let mut list = CutList::new(options.min_duration);
    for (ts, luma) in [(0, 100), (400000, 130), (900000, 100), (1400000, 130), (2400000, 100)] {
        if let Some(cut) = detector.process_luma(&[luma], 1, 1, 1, ts)?.cut {
            list.add(cut)?;
        }
    }
    println!("{list:?}");
    println!("900000: nearest {:?}, clip {}", list.nearest(900000), list.clip(900000));
    println!("from there on {:?}", &list.stamps()[list.span(900000, i64::MAX)]);
    // a stored list can be read back; what is not a list is refused
    let mut stored = CutList::from_words(list.words(), list.memory())?;
    assert_eq!(CutList::from_words(&[0; 3], list.memory()).err(), Some(Refusal(15)));
    assert_eq!(CutList::from_words(list.words(), &[0; 512]).err(), Some(Refusal(15)));
    // too close to a stamp before or after it, and absent: nothing changes
    for ts in [1399999, 1400000, 3399999] {
        assert_eq!(stored.add(ts), Err(Refusal(17)));
    }
    assert_eq!(stored.remove(1399999), Err(Refusal(19)));
    assert_eq!((stored.words(), stored.memory()), (list.words(), list.memory()));
    stored.remove(1400000)?;
    assert_eq!((stored.stamps(), stored.len(), stored.min_duration()), (&[400000, 2400000][..], 2, 1000000));
    stored.empty();
    assert!(stored.is_empty() && stored.nearest(0).is_none() && stored.span(i64::MIN, i64::MAX) == (0..0));
    // 512 stamps and no more
    let mut full = CutList::new(0);
    for ts in 0..512 {
        full.add(ts)?;
    }
    assert_eq!((full.add(511), full.add(512)), (Err(Refusal(17)), Err(Refusal(18))));
    Ok(())
}
