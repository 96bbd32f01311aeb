//! The stored input of the program `cuts`: the sample of RULES 11.8, and then frames of 24 × 24 pixels, so many that the program, which
//! reads 65,536 bytes at a time, needs several reads. Scenes of nine lines change between dark and bright; some lines are refused. The
//! last line has no line feed.

const SAMPLE: &str = "0,1,1,0\n400000,1,1,200\n900000,1,1,0\n2000000,1,1,0\n";
const LINES: u64 = 131;
const SIDE: u64 = 24;

/// The luma values of a frame: the scene's level, with a pattern that moves from line to line.
fn values(line: u64) -> Vec<String> {
    let level = if line / 9 % 2 == 0 { 20 } else { 140 };
    (0..SIDE * SIDE).map(|i| (level + (3 * (i % SIDE) + 5 * (i / SIDE) + line) % 8).to_string()).collect()
}

fn line(line: u64) -> String {
    let stamp = 3_000_000 + 300_000 * line;
    let mut values = values(line);
    if line % 13 == 7 {
        return format!("{stamp},5000,0");
    }
    if line % 11 == 5 {
        values.pop();
    }
    format!("{stamp},{SIDE},{SIDE},{}", values.join(","))
}

pub fn cuts() -> Vec<u8> {
    let lines: Vec<String> = (0..LINES).map(line).collect();
    (SAMPLE.to_owned() + &lines.join("\n")).into_bytes()
}
