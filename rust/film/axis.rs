//! Where a plot has its times and values, and the round numbers at its axes.
use crate::number::short;
use crate::record::Film;
use crate::timecode::clock;

/// The width of the sheet, and the left and right end of what is drawn over time.
pub const WIDTH: f64 = 1200.0;
pub const LEFT: f64 = 70.0;
pub const RIGHT: f64 = 1140.0;

/// The columns between these ends.
pub const COLUMNS: usize = 1070;

/// The times of a film from left to right: the least stamp, and the microseconds up to the greatest stamp or the end.
pub struct Time {
    from: i128,
    span: i128,
}

/// A time at the axis.
pub struct TimeTick {
    pub x: f64,
    pub text: String,
}

impl Time {
    /// A film of one moment, or of none, gets a second.
    pub fn of(film: &Film) -> Time {
        let stamps = || film.frames.iter().map(|frame| i128::from(frame.at));
        let (from, last) = (stamps().min().unwrap_or(0), stamps().max().unwrap_or(0));
        let to = last.max(i128::from(film.end));
        Time { from, span: if to > from { to - from } else { SECOND } }
    }

    fn since(&self, at: i128) -> i128 {
        (at - self.from).clamp(0, self.span)
    }

    pub fn x(&self, at: i64) -> f64 {
        self.place(i128::from(at))
    }

    fn place(&self, at: i128) -> f64 {
        LEFT + self.since(at) as f64 / self.span as f64 * (RIGHT - LEFT)
    }

    /// The column of a stamp, below `COLUMNS`.
    pub fn column(&self, at: i64) -> usize {
        let column = self.since(i128::from(at)) * COLUMNS as i128 / self.span;
        usize::try_from(column).unwrap_or(0).min(COLUMNS - 1)
    }

    /// Round times, at most nine.
    pub fn ticks(&self) -> Vec<TimeTick> {
        let step = time_steps().find(|step| self.span / step <= 8).unwrap_or(self.span);
        let digits = match step {
            step if step % SECOND == 0 => 0,
            step if step % 1000 == 0 => 3,
            _ => 6,
        };
        let first = (self.from + step - 1).div_euclid(step) * step;
        let ticks = (0..9).map(|number| first + number * step).filter(|&at| at <= self.from + self.span);
        ticks.map(|at| TimeTick { x: self.place(at), text: clock(at, digits) }).collect()
    }
}

const SECOND: i128 = 1_000_000;

/// Round times in rising order, in microseconds: the last is over half of what two stamps can be apart.
fn time_steps() -> impl Iterator<Item = i128> {
    let decimal = |unit: i128, powers: u32| {
        (0..powers).flat_map(move |power| [1, 2, 5].map(|digit| digit * unit * 10i128.pow(power)))
    };
    let between = [10, 15, 30, 60, 120, 300, 600, 900, 1800].map(|seconds| seconds * SECOND);
    decimal(1, 7).chain(between).chain(decimal(3600 * SECOND, 10))
}

/// The values of a panel from its bottom to its top.
pub struct Axis {
    pub top: f64,
    pub bottom: f64,
    /// Its ends, on the scale.
    low: f64,
    high: f64,
    logarithmic: bool,
}

/// A value at the axis.
pub struct Tick {
    pub value: f64,
    pub text: String,
}

/// Scores and ratios are not beyond 255 in size. What is beyond this is drawn as if it were this.
const MOST: f64 = 1000.0;

/// The least length of an axis.
const LEAST: f64 = 0.01;

/// The sizes of ticks of a logarithmic axis.
const LOGARITHMIC: [f64; 12] = [0.0, 0.5, 1.0, 2.0, 5.0, 10.0, 20.0, 50.0, 100.0, 200.0, 500.0, 1000.0];

impl Axis {
    /// An axis with 0, these values, and the limits that they are compared with, but for those that are far from all of
    /// them.
    pub fn new(
        values: impl Iterator<Item = f64>,
        limits: impl Iterator<Item = f64>,
        logarithmic: bool,
        top: f64,
        bottom: f64,
    ) -> Axis {
        let widened = |(least, most): (f64, f64), value: f64| (least.min(value), most.max(value));
        let (least, most) = values.fold((0.0, 0.0), widened);
        let near = (10.0 * most.max(-least).max(3.0)).min(MOST);
        let (least, most) = limits.filter(|limit| limit.abs() <= near).fold((least, most), widened);
        let (low, high) = (scaled(least, logarithmic) * 1.05, scaled(most, logarithmic) * 1.05);
        Axis { top, bottom, low, high: high.max(low + LEAST), logarithmic }
    }

    pub fn y(&self, value: f64) -> f64 {
        let part = (scaled(value, self.logarithmic) - self.low) / (self.high - self.low);
        self.bottom - part.clamp(0.0, 1.0) * (self.bottom - self.top)
    }

    /// Whether a value is between the ends.
    pub fn shows(&self, value: f64) -> bool {
        self.beyond(value).is_empty()
    }

    /// Words for a value that is not between the ends.
    pub fn beyond(&self, value: f64) -> &'static str {
        let place = scaled(value, self.logarithmic);
        if value > MOST || place > self.high {
            " (above what is shown)"
        } else if value < -MOST || place < self.low {
            " (below what is shown)"
        } else {
            ""
        }
    }

    /// Round values, in rising order.
    pub fn ticks(&self) -> Vec<Tick> {
        if self.logarithmic {
            return self.logarithmic_ticks();
        }
        let step = round_step((self.high - self.low) / 8.0);
        let digits = (-step.log10()).ceil().clamp(0.0, 9.0) as usize;
        let (first, last) = ((self.low / step).ceil() as i64, (self.high / step).floor() as i64);
        let tick = |number: i64| number as f64 * step;
        (first..=last).map(tick).map(|value| Tick { value, text: format!("{value:.digits$}") }).collect()
    }

    /// Those that are far enough from each other, the same on both sides of 0.
    fn logarithmic_ticks(&self) -> Vec<Tick> {
        let room = 20.0 / (self.bottom - self.top) * (self.high - self.low);
        let mut free = 0.0;
        let mut sizes = Vec::new();
        for size in LOGARITHMIC {
            let place = scaled(size, true);
            if place >= free {
                sizes.push(size);
                free = place + room;
            }
        }
        let below = sizes.iter().skip(1).rev().map(|size| -size);
        let values = below.chain(sizes.iter().copied()).filter(|&value| self.shows(value));
        values.map(|value| Tick { value, text: short(value) }).collect()
    }
}

/// A value on the scale: itself, or the logarithm of 1 and its size, with its sign.
fn scaled(value: f64, logarithmic: bool) -> f64 {
    let value = value.clamp(-MOST, MOST);
    if logarithmic {
        value.signum() * value.abs().ln_1p()
    } else {
        value
    }
}

/// The least of 1, 2 and 5 with some zeros that is at least this.
fn round_step(least: f64) -> f64 {
    let power = 10f64.powf(least.log10().floor());
    [1.0, 2.0, 5.0].map(|digit| digit * power).into_iter().find(|&step| step >= least).unwrap_or(10.0 * power)
}

#[cfg(test)]
mod tests {
    use super::*;
    use crate::report::sample;

    fn time(from: i64, to: i64) -> Time {
        Time { from: i128::from(from), span: i128::from(to) - i128::from(from) }
    }

    fn times(from: i64, to: i64) -> Vec<String> {
        time(from, to).ticks().into_iter().map(|tick| tick.text).collect()
    }

    fn values(axis: &Axis) -> Vec<String> {
        axis.ticks().into_iter().map(|tick| tick.text).collect()
    }

    fn axis(values: &[f64], limit: f64, logarithmic: bool) -> Axis {
        Axis::new(values.iter().copied(), std::iter::once(limit), logarithmic, 100.0, 300.0)
    }

    #[test]
    fn round_times() {
        assert_eq!(times(0, 5_000_000)[..3], ["00:00:00", "00:00:01", "00:00:02"]);
        assert_eq!(times(0, 1_000_000)[..3], ["00:00:00.000", "00:00:00.200", "00:00:00.400"]);
        assert_eq!(times(0, 7_200_000_000)[..3], ["00:00:00", "00:15:00", "00:30:00"]);
        assert_eq!(times(7, 9), ["00:00:00.000007", "00:00:00.000008", "00:00:00.000009"]);
        assert_eq!(times(-1_500_000, 500_000)[..2], ["-00:00:01.500", "-00:00:01.000"]);
        assert_eq!(times(i64::MIN, i64::MAX)[2], "00:00:00");
        for span in (0..64).map(|power| (u64::MAX >> power) / 2) {
            let count = times(-1, i64::try_from(span).unwrap_or(i64::MAX)).len();
            assert!((2..=9).contains(&count), "{span} {count}");
        }
    }

    #[test]
    fn times_go_from_left_to_right() {
        let time = time(i64::MIN, i64::MAX);
        assert_eq!((time.x(i64::MIN), time.x(i64::MAX)), (LEFT, RIGHT));
        assert_eq!((time.column(i64::MIN), time.column(0), time.column(i64::MAX)), (0, COLUMNS / 2, COLUMNS - 1));
    }

    #[test]
    fn the_time_of_a_film() {
        let mut film = sample::content();
        let of = |film: &Film| (Time::of(film).from, Time::of(film).span);
        assert_eq!(of(&film), (0, 1_566_767));
        film.end = i64::MIN;
        assert_eq!(of(&film), (0, 1_533_400));
        film.frames.truncate(1);
        assert_eq!(of(&film), (0, SECOND));
        film.frames.clear();
        assert_eq!(of(&film), (0, SECOND));
    }

    #[test]
    fn round_values() {
        assert_eq!(values(&axis(&[1.0, 95.6], 27.0, false)), ["0", "20", "40", "60", "80", "100"]);
        assert_eq!(values(&axis(&[-2.0, 2.0], 1.0, false)), ["-2", "-1", "0", "1", "2"]);
        assert_eq!(values(&axis(&[], f64::INFINITY, false))[..2], ["0.000", "0.002"]);
        assert_eq!(values(&axis(&[255.0], 3.0, true)), ["0", "1", "5", "10", "20", "50", "100", "200"]);
        assert_eq!(values(&axis(&[-255.0, 255.0], 3.0, true)), ["-100", "-20", "-5", "0", "5", "20", "100"]);
        let steps = [0.3, 1.0, 1.1, 4.9, 5.1, 99.0].map(round_step);
        assert_eq!(steps.map(|step| (step * 10.0).round() / 10.0), [0.5, 1.0, 2.0, 5.0, 10.0, 100.0]);
    }

    #[test]
    fn near_limits_are_shown() {
        for (limit, words) in
            [(27.0, ""), (30.0, ""), (31.0, " (above what is shown)"), (-31.0, " (below what is shown)")]
        {
            assert_eq!(axis(&[2.0], limit, false).beyond(limit), words);
        }
        let axis = axis(&[f64::INFINITY], 5000.0, false);
        assert!(!axis.shows(5000.0) && axis.shows(1000.0));
    }

    #[test]
    fn values_go_from_the_bottom_to_the_top() {
        for logarithmic in [false, true] {
            let axis = axis(&[-5.0, 200.0], 3.0, logarithmic);
            let places = [f64::NEG_INFINITY, -5.0, 0.0, 1.0, 3.0, 200.0].map(|value| axis.y(value));
            assert!(places.windows(2).all(|pair| pair[0] > pair[1]), "{places:?}");
            assert!(places.iter().all(|place| (100.0..=300.0).contains(place)));
            assert_eq!(axis.y(f64::INFINITY), 100.0);
        }
    }
}
