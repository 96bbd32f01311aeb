//! The light plan by its rules (docs/RULES.md 18): a second reading of its text, its words in a record, and the threshold
//! of a frame. The Rust has no light plan, and none of this is made from the proved code.

/// The most rows of a plan, and the bytes of its longest text.
pub const MOST: usize = 16;
#[cfg(rattle)]
pub const TEXT: usize = 192;
/// The words of a plan: the count, then two for each of the three arrays.
#[cfg(rattle)]
pub const WORDS: usize = 7;

/// Frames with a median from `from` to `to` have this threshold.
#[derive(Clone, Copy, Debug, Default, PartialEq, Eq)]
pub struct Row {
    pub from: u8,
    pub to: u8,
    pub threshold: u8,
}

impl Row {
    pub const fn new(from: u8, to: u8, threshold: u8) -> Self {
        Row { from, to, threshold }
    }

    pub fn has(&self, median: u8) -> bool {
        (self.from..=self.to).contains(&median)
    }
}

/// A field is a number of 8 bits exactly as it is printed: so no leading zero, no sign and no blank.
fn field(text: &[u8]) -> Option<u8> {
    let number: u8 = std::str::from_utf8(text).ok()?.parse().ok()?;
    (number.to_string().as_bytes() == text).then_some(number)
}

/// A row without its line feed.
fn row(line: &[u8]) -> Option<Row> {
    let fields: Option<Vec<u8>> = line.split(|&byte| byte == b',').map(field).collect();
    match fields?[..] {
        [from, to, threshold] => Some(Row { from, to, threshold }),
        _ => None,
    }
}

/// The number that so many rows are refused by, or 0. No rows are no plan.
pub fn refusal(rows: &[Row]) -> u32 {
    let rows_of = |median: u8| rows.iter().filter(|row| row.has(median)).count();
    if rows.is_empty() {
        0
    } else if rows.len() > MOST || rows.iter().any(|row| row.from > row.to) {
        20
    } else if (0..=255).any(|median| rows_of(median) > 1) {
        21
    } else if (0..=255).any(|median| rows_of(median) == 0) {
        22
    } else {
        0
    }
}

/// The rows of a text, or the number that it is refused by. A part without a line feed can only be the last.
pub fn read(text: &[u8]) -> Result<Vec<Row>, u32> {
    let lines = text.split_inclusive(|&byte| byte == b'\n');
    let rows: Option<Vec<Row>> = lines.map(|line| row(line.strip_suffix(b"\n")?)).collect();
    let rows = rows.ok_or(20u32)?;
    match refusal(&rows) {
        0 => Ok(rows),
        number => Err(number),
    }
}

/// The text of rows.
pub fn text(rows: &[Row]) -> Vec<u8> {
    rows.iter().flat_map(|row| format!("{},{},{}\n", row.from, row.to, row.threshold).into_bytes()).collect()
}

/// A plan as a record holds it: of sixteen rows the first `count` are its own. A count over 16 makes a record bad.
#[derive(Clone, Copy, Debug, PartialEq)]
pub struct Plan {
    pub count: u32,
    rows: [Row; MOST],
}

impl Plan {
    pub const NONE: Plan = Plan { count: 0, rows: [Row::new(0, 0, 0); MOST] };

    /// Up to sixteen rows.
    pub fn of(rows: &[Row]) -> Self {
        let mut plan = Plan { count: rows.len() as u32, ..Plan::NONE };
        plan.rows[..rows.len()].copy_from_slice(rows);
        plan
    }

    /// The same with another count.
    pub fn counted(self, count: u32) -> Self {
        Plan { count, ..self }
    }

    /// The rows that there are: sixteen where the count is over that.
    pub fn rows(&self) -> &[Row] {
        &self.rows[..MOST.min(self.count as usize)]
    }

    pub fn refusal(&self) -> u32 {
        if self.count as usize > MOST { 20 } else { refusal(self.rows()) }
    }

    /// The threshold of a frame with this median: the set one where there is no plan.
    pub fn threshold(&self, set: f64, median: u8) -> f64 {
        self.rows().iter().find(|row| row.has(median)).map_or(set, |row| f64::from(row.threshold))
    }
}

#[cfg(rattle)]
impl Plan {
    pub fn is_given(&self) -> bool {
        self.count != 0
    }

    /// A text with so many rows: those past the sixteenth are rows of zeros.
    pub fn text(&self) -> Vec<u8> {
        let more = vec![Row::default(); (self.count as usize).saturating_sub(MOST)];
        text(&[self.rows(), &more].concat())
    }

    /// The words of the plan in a record, as a call writes them: 0 past the count.
    pub fn words(&self) -> [u64; WORDS] {
        let array = |of: fn(&Row) -> u8| {
            let mut bytes = [0; MOST];
            bytes.iter_mut().zip(self.rows()).for_each(|(byte, row)| *byte = of(row));
            let word = |half: usize| u64::from_le_bytes(bytes[8 * half..8 * half + 8].try_into().expect("eight bytes"));
            [word(0), word(1)]
        };
        let ([a, b], [c, d], [e, f]) = (array(|row| row.from), array(|row| row.to), array(|row| row.threshold));
        [self.count as u64, a, b, c, d, e, f]
    }

    /// The plan in words of a record, whose count has 32 bits.
    pub fn of_words(words: &[u64]) -> Self {
        let byte = |array: usize, i: usize| (words[1 + 2 * array + i / 8] >> (8 * (i % 8))) as u8;
        let mut plan = Plan::NONE.counted(words[0] as u32);
        for (i, row) in plan.rows.iter_mut().enumerate() {
            *row = Row::new(byte(0, i), byte(1, i), byte(2, i));
        }
        plan
    }
}

/// The median of a luma plane: the byte at the middle of the sorted ones, 255 where there are none.
pub fn median(luma: &[u8]) -> u8 {
    let mut sorted = luma.to_vec();
    sorted.sort_unstable();
    sorted.get(sorted.len() / 2).copied().unwrap_or(255)
}
