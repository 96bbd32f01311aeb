//! How numbers are written, for people and for programs.

/// A count with its digits in groups of three: `1,234`.
pub fn grouped(count: usize) -> String {
    let mut groups = Vec::new();
    let mut rest = count;
    while rest >= 1000 {
        groups.push(format!("{:03}", rest % 1000));
        rest /= 1000;
    }
    groups.push(rest.to_string());
    groups.reverse();
    groups.join(",")
}

/// A count and what is counted, by its name for one: `1 clip`, `1,234 clips`.
pub fn counted(count: usize, name: &str) -> String {
    let plural = if count == 1 { "" } else { "s" };
    format!("{} {name}{plural}", grouped(count))
}

/// The fewest digits that read back as the same bits, so that it is still seen as a number with a point: `27.0`.
pub fn exact(value: f64) -> String {
    format!("{value:?}")
}

/// The same for people: `27`.
pub fn short(value: f64) -> String {
    let text = exact(value);
    text.strip_suffix(".0").map_or(text.clone(), str::to_string)
}

/// A number in few digits, rounded.
pub fn brief(value: f64) -> String {
    let text = short(value);
    if text.len() <= 6 {
        text
    } else if value.abs() < 10_000.0 {
        short((value * 100.0).round() / 100.0)
    } else {
        format!("{value:.2e}")
    }
}

#[cfg(test)]
mod tests {
    use super::*;

    #[test]
    fn groups_of_three() {
        let texts = [0, 7, 999, 1000, 12005, 123456, 1034567].map(grouped);
        assert_eq!(texts, ["0", "7", "999", "1,000", "12,005", "123,456", "1,034,567"]);
        assert_eq!([0, 1, 2, 1000].map(|count| counted(count, "cut")), ["0 cuts", "1 cut", "2 cuts", "1,000 cuts"]);
    }

    #[test]
    fn floats_read_back() {
        for value in [0.0, -0.0, 27.0, 0.1, 1.0 / 3.0, 5e-324, f64::MAX, 1e16, 123456.789, -1e-7] {
            for text in [exact(value), short(value)] {
                assert_eq!(text.parse::<f64>().map(f64::to_bits), Ok(value.to_bits()), "{text}");
                assert!(text.len() <= 24, "{text}");
            }
        }
        assert_eq!([27.0, 0.5, 1e300, f64::INFINITY].map(exact), ["27.0", "0.5", "1e300", "inf"]);
        assert_eq!([27.0, 0.5, 1e300, f64::NEG_INFINITY].map(short), ["27", "0.5", "1e300", "-inf"]);
    }

    #[test]
    fn few_digits() {
        let values = [27.0, 1.0 / 3.0, -1234.567, 1234567.0, f64::MAX, f64::INFINITY, 1e-300, 5.0000001];
        assert_eq!(values.map(brief), ["27", "0.33", "-1234.57", "1.23e6", "1.80e308", "inf", "1e-300", "5"]);
    }
}
