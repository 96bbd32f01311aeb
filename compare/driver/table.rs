//! What was compared, and where the two sides differ.
use std::fmt::Debug;

pub struct Row {
    name: &'static str,
    /// What the proved side is held against, and what is held against it.
    beside: &'static str,
    held: &'static str,
    compared: u64,
    differ: u64,
    smallest: Option<(u64, String)>,
}

impl Row {
    pub fn new(name: &'static str) -> Self {
        Self { name, beside: "the Rust", held: "Rattle", compared: 0, differ: 0, smallest: None }
    }

    /// A row of what the Rust has no counterpart for.
    #[cfg(rattle)]
    pub fn by_rules(name: &'static str) -> Self {
        Self { beside: "the rules", ..Self::new(name) }
    }

    /// A row of the sums that are worked out from the Rust's planes, beside what the Rust itself gives.
    #[cfg(rattle)]
    pub fn of_sums(name: &'static str) -> Self {
        Self { held: "by the sums", ..Self::new(name) }
    }

    /// A row of the filter that the lists have of their own, beside what the Rust itself gives.
    #[cfg(rattle)]
    pub fn of_filter(name: &'static str) -> Self {
        Self { held: "the filter of the lists", ..Self::new(name) }
    }

    /// Counts so many comparisons of one input, of which these differ.
    #[cfg(rattle)]
    pub fn count(&mut self, size: u64, input: impl Fn() -> String, compared: u64, differ: u64) {
        self.compared += compared;
        self.differ += differ;
        if differ > 0 && self.smallest.as_ref().is_none_or(|(least, _)| size < *least) {
            self.smallest = Some((size, format!("{}: {differ} cuts", input())));
        }
    }

    #[cfg(rattle)]
    pub fn differ(&self) -> u64 {
        self.differ
    }

    /// Counts one comparison. Of the inputs that show a difference it keeps the one of least size.
    pub fn compare<T: PartialEq + Debug>(&mut self, size: u64, input: impl Fn() -> String, expected: T, found: T) {
        self.compared += 1;
        if expected == found {
            return;
        }
        self.differ += 1;
        if self.smallest.as_ref().is_none_or(|(least, _)| size < *least) {
            self.smallest = Some((size, format!("{}: {} {expected:?}, {} {found:?}", input(), self.beside, self.held)));
        }
    }
}

/// Prints the table and its last line. Says whether nothing differs.
pub fn print(rows: &[Row]) -> bool {
    for row in rows {
        println!("{:<44} {:>10} compared {:>8} differ", row.name, row.compared, row.differ);
        if let Some((_, input)) = &row.smallest {
            println!("    smallest: {}", input.chars().take(2000).collect::<String>());
        }
    }
    let compared: u64 = rows.iter().map(|row| row.compared).sum();
    let differ: u64 = rows.iter().map(|row| row.differ).sum();
    println!("{compared} compared, {differ} differ");
    differ == 0
}
