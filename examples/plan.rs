// A light plan, as in plan.c: a film of luma frames of a desk, first in a dim room, then with the lamp on. A new page
// in the dim room and a cloud in the light are the same luma difference of 12, and only the page should be a cut. It
// prints what plan.c prints, so that plan_c.stdout is what it must print too.
use mawerodu::{luma_median, ContentDetector, ContentOptions, FilterMode, Refusal};

const WIDTH: u32 = 8;
const HEIGHT: u32 = 6;
const PIXELS: usize = (WIDTH * HEIGHT) as usize;

// The time, the luma of the desk, and what happens.
const FILM: [(i64, u8, &str); 5] = [
    (0, 40, "a page in the dim room"),
    (2000000, 52, "a new page"),
    (4000000, 180, "the lamp goes on"),
    (6000000, 192, "a cloud goes"),
    (8000000, 193, "as it was"),
];

// Frames whose median is up to 99 have the threshold 8, all others 27.
const PLAN: &str = "0,99,8\n100,255,27\n";

// A desk of this luma, with a pen on it that is black.
fn drawn(luma: u8) -> Vec<u8> {
    let mut frame = vec![luma; PIXELS];
    frame[WIDTH as usize + 1..WIDTH as usize + 3].fill(0);
    frame
}

fn settled(threshold: f64, plan: &str) -> Result<ContentDetector, Refusal> {
    let options = ContentOptions { threshold, filter_mode: FilterMode::Suppress, ..ContentOptions::luma_only() };
    ContentDetector::with_plan(options, plan)
}

fn main() -> Result<(), Refusal> {
    // what a plan has to be written for: a plane has a median, and so has the last frame of a detector
    let mut detector = settled(27.0, "")?;
    assert_eq!(detector.last_luma_median(), None);
    for (ts, luma, what) in FILM {
        let median = luma_median(&drawn(luma), WIDTH, HEIGHT, WIDTH)?;
        detector.process_luma(&drawn(luma), WIDTH, HEIGHT, WIDTH, ts)?;
        assert_eq!(detector.last_luma_median(), Some(median));
        println!("{ts}: median {median}, {what}");
    }
    detector.clear();
    assert_eq!(detector.last_luma_median(), None);
    assert_eq!(luma_median(&[], 0, 0, 0), Ok(255));
    assert_eq!(luma_median(&[0; 3], 2, 2, 2), Err(Refusal(3)));

    for (name, threshold, plan) in [("threshold 27", 27.0, ""), ("threshold 8", 8.0, ""), ("by the plan", 27.0, PLAN)] {
        let mut detector = settled(threshold, plan)?;
        print!("{name}:");
        for (ts, luma, _) in FILM {
            if let Some(cut) = detector.process_luma(&drawn(luma), WIDTH, HEIGHT, WIDTH, ts)?.cut {
                print!(" {cut}");
            }
        }
        println!();
    }

    // the luma of a BGR frame is its value, the largest of B, G and R
    let mut detector = ContentDetector::new();
    detector.process_bgr(&[20, 45, 30].repeat(PIXELS), WIDTH, HEIGHT, 3 * WIDTH, 0)?;
    println!("bgr: median {}", detector.last_luma_median().unwrap_or_default());

    // the plan stays through a clear, and is in the words of the state
    let mut detector = settled(27.0, PLAN)?;
    detector.clear();
    println!("plan:{}", detector.plan().replace('\n', ";"));
    assert_eq!(ContentDetector::from_state(detector.state())?.plan(), PLAN);
    for text in ["0,99,8\n100,255,27", "0,99,8\n200,100,27\n", "0,100,8\n100,255,27\n", "0,99,8\n100,254,27\n"] {
        if let Err(refusal) = settled(27.0, text) {
            println!("{refusal}");
        }
    }
    println!("plan:{}", settled(27.0, "")?.plan());
    // other settings are refused first
    assert_eq!(settled(f64::NAN, "no plan").err(), Some(Refusal(9)));

    // one row for all medians is the same as its threshold
    let (mut by_row, mut by_threshold) = (settled(27.0, "0,255,12\n")?, settled(12.0, "")?);
    for (ts, luma, _) in FILM {
        let [row, threshold] = [&mut by_row, &mut by_threshold]
            .map(|detector| detector.process_luma(&drawn(luma), WIDTH, HEIGHT, WIDTH, ts));
        assert_eq!(row?, threshold?);
    }
    Ok(())
}
