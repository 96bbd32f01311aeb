//! The light plan: the file with its text, and the threshold that its rows give a frame. Whether a text is a plan the
//! library decides; a second look at one that it has refused finds the row that is at fault, for whoever edits it.
use crate::frame::{whole, Fault};
use mawerodu::{sys, Refusal};
use std::fs::File;
use std::io::Read;
use std::path::Path;

/// A threshold for the frames whose luma median is from `from` to `to`.
#[derive(Clone, Copy, Debug, PartialEq, Eq)]
pub struct Row {
    pub from: u8,
    pub to: u8,
    pub threshold: u8,
}

/// The rows of a plan that a detector has: each median has one.
#[derive(Clone, Debug, PartialEq)]
pub struct Plan {
    rows: Vec<Row>,
}

impl Plan {
    /// By the text that a detector shows; `None` if it has no plan.
    pub fn of(text: &str) -> Option<Plan> {
        let rows: Vec<Row> = text.lines().filter_map(|line| row(line.as_bytes())).collect();
        (!rows.is_empty()).then_some(Plan { rows })
    }

    pub fn rows(&self) -> &[Row] {
        &self.rows
    }

    /// The threshold of a frame with this median.
    pub fn threshold(&self, median: u8) -> f64 {
        let row = self.rows.iter().find(|row| row.has(median));
        row.map_or(0.0, |row| f64::from(row.threshold))
    }
}

impl Row {
    fn has(&self, median: u8) -> bool {
        (self.from..=self.to).contains(&median)
    }
}

/// Reads the text of a plan. Of a file that is longer than any plan no more is read than shows that.
pub fn read(path: &Path) -> Result<Vec<u8>, Fault> {
    let mut text = Vec::new();
    let most = sys::PLAN_TEXT as u64 + 1;
    let read = File::open(path).and_then(|file| file.take(most).read_to_end(&mut text));
    read.map_err(|error| Fault(format!("the plan {} can't be read: {error}", path.display())))?;
    Ok(text)
}

/// What three numbers with commas between them say.
fn row(line: &[u8]) -> Option<Row> {
    let fields: Option<Vec<u8>> = line.split(|&byte| byte == b',').map(field).collect();
    match fields?[..] {
        [from, to, threshold] => Some(Row { from, to, threshold }),
        _ => None,
    }
}

fn field(digits: &[u8]) -> Option<u8> {
    let text = std::str::from_utf8(digits).ok()?;
    whole(text).filter(|number: &u8| number.to_string() == text)
}

/// Where the plan of this file is at fault, which the library has refused by this number, in words that follow those of
/// the refusal.
pub fn place(path: &Path, text: &[u8], refusal: Refusal) -> Option<String> {
    let found = match refusal.0 {
        20 => of_another_shape(text),
        21 => medians(text)
            .find(|(_, rows)| rows.len() > 1)
            .map(|(median, rows)| format!("rows {} and {} both have the median {median}", rows[0], rows[1]))?,
        22 => medians(text)
            .find(|(_, rows)| rows.is_empty())
            .map(|(median, _)| format!("no row has the median {median}"))?,
        _ => return None,
    };
    Some(format!(" ({}: {found})", path.display()))
}

/// The first row that is at fault by itself, or else that there are too many.
fn of_another_shape(text: &[u8]) -> String {
    for (before, line) in text.split_inclusive(|&byte| byte == b'\n').enumerate() {
        let number = before + 1;
        if number > sys::PLAN_ROWS {
            break;
        }
        let Some(line) = line.strip_suffix(b"\n") else {
            // what is read of a long file may end within a row
            let whole = text.len() <= sys::PLAN_TEXT;
            let what = if whole { "has no line feed at its end" } else { "is longer than three numbers are" };
            return format!("row {number} {what}");
        };
        match row(line) {
            None => return format!("row {number} is '{}', and not three numbers from 0 to 255", line.escape_ascii()),
            Some(row) if row.from > row.to => return format!("row {number} goes from {} to {}", row.from, row.to),
            Some(_) => {}
        }
    }
    "it has more than 16 rows".into()
}

/// Each median with the numbers of the rows that have it.
fn medians(text: &[u8]) -> impl Iterator<Item = (u8, Vec<usize>)> + '_ {
    let rows: Vec<Row> = text.split(|&byte| byte == b'\n').filter_map(row).collect();
    (0..=u8::MAX).map(move |median| {
        let having = rows.iter().enumerate().filter(|(_, row)| row.has(median));
        (median, having.map(|(place, _)| place + 1).collect())
    })
}

#[cfg(test)]
mod tests {
    use super::*;

    fn place_of(text: &str, number: u32) -> Option<String> {
        let place = place(Path::new("p"), text.as_bytes(), Refusal(number))?;
        Some(place.strip_prefix(" (p: ").and_then(|place| place.strip_suffix(')')).expect(&place).to_string())
    }

    #[test]
    fn thresholds_of_medians() {
        let plan = Plan::of("100,255,27\n0,99,8\n").unwrap();
        assert_eq!([0, 99, 100, 255].map(|median| plan.threshold(median)), [8.0, 8.0, 27.0, 27.0]);
        assert_eq!(plan.rows()[0], Row { from: 100, to: 255, threshold: 27 });
        assert_eq!(Plan::of(""), None);
    }

    #[test]
    fn the_row_that_is_at_fault_is_named() {
        let shape = |text: &str, what: &str| {
            let place = place_of(text, 20).unwrap();
            assert!(place.contains(what), "{text:?}: {place}");
        };
        shape("0,99,8\n100,255,27", "row 2 has no line feed at its end");
        shape("0,99,8\r\n100,255,27\r\n", "row 1 is '0,99,8\\r'");
        shape("from,to,threshold\n0,255,27\n", "row 1 is 'from,to,threshold'");
        shape("0,99,8\n\n100,255,27\n", "row 2 is ''");
        shape("0,099,8\n", "row 1 is '0,099,8'");
        shape("0,256,8\n", "row 1 is '0,256,8'");
        shape("0,+9,8\n", "row 1 is '0,+9,8'");
        shape("0,99,8.5\n", "row 1 is '0,99,8.5'");
        shape("0,99\n", "row 1 is '0,99'");
        shape("0,99,8,\n", "row 1 is '0,99,8,'");
        shape("0,99,8\n255,100,27\n", "row 2 goes from 255 to 100");
        shape(&"0,0,0\n".repeat(17), "more than 16 rows");
        // what was read of a long file ends within a row
        shape(&"100,255,27\n".repeat(30)[..193], "more than 16 rows");
        shape(&"x".repeat(193), "row 1 is longer than three numbers are");
        shape(&("0,99,8\n".to_string() + &" ".repeat(186)), "row 2 is longer than three numbers are");
        shape("\u{1b}[31m\n", "'\\x1b[31m'");
    }

    #[test]
    fn the_median_that_is_at_fault_is_named() {
        assert_eq!(place_of("0,60,8\n60,255,27\n", 21).unwrap(), "rows 1 and 2 both have the median 60");
        assert_eq!(place_of("0,60,8\n62,255,27\n", 22).unwrap(), "no row has the median 61");
        assert_eq!(place_of("0,254,8\n", 22).unwrap(), "no row has the median 255");
    }

    #[test]
    fn other_numbers_have_no_place_in_the_plan() {
        assert_eq!(place_of("0,60,8\n", 9), None);
        assert_eq!(place_of("0,255,8\n", 21), None);
    }
}
