//! Microseconds as timecodes and as seconds. A length can take more than an `i64`: the difference of two stamps.

/// `HH:MM:SS.mmm`, to the nearest millisecond, and from half a millisecond on away from 0. Hours have as many digits as
/// they need, and what comes before 0 has a minus sign.
pub fn timecode(micros: impl Into<i128>) -> String {
    clock(micros.into(), 3)
}

/// The same with this number of digits behind the point, at most 6; with none there is no point.
pub fn clock(micros: i128, digits: u32) -> String {
    let digits = digits.min(6);
    let (unit, parts) = (10u128.pow(6 - digits), 10u128.pow(digits));
    let whole = (micros.unsigned_abs() + unit / 2) / unit;
    let sign = if micros < 0 && whole > 0 { "-" } else { "" };
    let (seconds, part) = (whole / parts, whole % parts);
    let (hours, minutes, seconds) = (seconds / 3600, seconds / 60 % 60, seconds % 60);
    let text = format!("{sign}{hours:02}:{minutes:02}:{seconds:02}");
    if digits == 0 {
        return text;
    }
    format!("{text}.{part:0width$}", width = digits as usize)
}

/// Seconds with six digits behind the point: just the same number.
pub fn seconds(micros: impl Into<i128>) -> String {
    let micros = micros.into();
    let (sign, size) = (if micros < 0 { "-" } else { "" }, micros.unsigned_abs());
    format!("{sign}{}.{:06}", size / 1_000_000, size % 1_000_000)
}

#[cfg(test)]
mod tests {
    use super::*;

    #[test]
    fn to_the_nearest_millisecond() {
        let cases = [
            (0i64, "00:00:00.000"),
            (499, "00:00:00.000"),
            (500, "00:00:00.001"),
            (1_499, "00:00:00.001"),
            (33_367, "00:00:00.033"),
            (59_999_499, "00:00:59.999"),
            (59_999_500, "00:01:00.000"),
            (3_599_999_500, "01:00:00.000"),
            (86_400_000_000, "24:00:00.000"),
            (360_000_000_000, "100:00:00.000"),
            (45_296_789_000, "12:34:56.789"),
        ];
        for (micros, text) in cases {
            assert_eq!(timecode(micros), text);
        }
    }

    #[test]
    fn before_zero_and_at_the_ends() {
        assert_eq!(timecode(-1_500_000), "-00:00:01.500");
        assert_eq!(timecode(-500), "-00:00:00.001");
        assert_eq!(timecode(-499), "00:00:00.000");
        assert_eq!(timecode(i64::MAX), "2562047788:00:54.776");
        assert_eq!(timecode(i64::MIN), "-2562047788:00:54.776");
        assert_eq!(timecode(i128::from(i64::MAX) - i128::from(i64::MIN)), "5124095576:01:49.552");
        assert!(timecode(i128::MIN).starts_with('-'));
    }

    #[test]
    fn other_numbers_of_digits() {
        assert_eq!(clock(3_725_000_000, 0), "01:02:05");
        assert_eq!(clock(-1_500_000, 0), "-00:00:02");
        assert_eq!(clock(-400_000, 0), "00:00:00");
        assert_eq!(clock(1_000_001, 6), "00:00:01.000001");
        assert_eq!(clock(1_000_001, 7), clock(1_000_001, 6));
    }

    #[test]
    fn seconds_are_exact() {
        let texts = [0, 1, -1, 33_367, -1_500_000, 4_500_000].map(|micros: i64| seconds(micros));
        assert_eq!(texts, ["0.000000", "0.000001", "-0.000001", "0.033367", "-1.500000", "4.500000"]);
        assert_eq!(seconds(i64::MIN), "-9223372036854.775808");
    }
}
