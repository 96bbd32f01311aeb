//! Texts of light plans through the station library, beside a second reading of them (plan_rules.rs): made by hand, and
//! random. `plan_medians.rs` has the medians.
use crate::generator::Random;
use crate::plan_rules::{self, Plan, Row as PlanRow};
use crate::rules::{CONTENT_DEFAULTS, Own, Settings};
use crate::station::{CONTENT, Station};
use crate::table::Row;

pub fn rows(seed: u64, count: u64) -> Vec<Row> {
    let mut order = Row::by_rules("plans beside other refused settings");
    every_order(&mut order);
    vec![by_hand(), order, at_random(seed, count)]
}

/// One settings call with a text: its number, all words that it leaves, and the text that the reader of the plan gives,
/// which is the very text where that is accepted. The words before the call are not a state.
fn one(row: &mut Row, settings: Settings, text: &[u8]) -> u32 {
    let Own::Content { filter_mode, .. } = settings.own else { panic!("settings of the adaptive detector") };
    let read = plan_rules::read(text);
    let number = first(settings.refusal(), read.as_ref().err().copied().unwrap_or(0));
    let words = match read {
        Ok(rows) if number == 0 => {
            let own = Own::Content { filter_mode, plan: Plan::of(&rows), by_text: true };
            Settings { own, ..settings }.fresh(0, 0)
        }
        _ => CONTENT_DEFAULTS.fresh(0, 0),
    };
    let shown = if number == 0 { text } else { b"" };
    let mut station = Station::blank([0; 3]);
    let found = station.settle_by_text(&settings, text);
    let input = || format!("{} bytes {:?}, {settings:?}", text.len(), text.escape_ascii().to_string());
    let read_back = station.plan_text(&CONTENT).expect("a content state has the reader");
    row.compare(
        text.len() as u64,
        input,
        (number, &words[..], shown, true),
        (found, station.words(), &read_back[..], station.guarded()),
    );
    number
}

fn first(number: u32, other: u32) -> u32 {
    if number == 0 { other } else { number }
}

/// So many rows that have each median once, in order.
fn parted(count: u16) -> Vec<PlanRow> {
    let cut = |i: u16| 256 * i / count;
    (0..count).map(|i| PlanRow::new(cut(i) as u8, (cut(i + 1) - 1) as u8, (37 * i % 256) as u8)).collect()
}

/// Accepted plans that the texts made by hand start from.
fn bases() -> Vec<Vec<PlanRow>> {
    let mut turned = parted(16);
    turned.reverse();
    turned.swap(3, 11);
    let two = vec![PlanRow::new(100, 255, 0), PlanRow::new(0, 99, 255)];
    vec![vec![PlanRow::new(0, 255, 27)], two, parted(3), parted(16), turned]
}

/// What stands where a field should: some are numbers too.
const FIELDS: [&[u8]; 62] = [
    b"",
    b"0",
    b"1",
    b"9",
    b"10",
    b"99",
    b"100",
    b"127",
    b"128",
    b"199",
    b"200",
    b"249",
    b"250",
    b"254",
    b"255",
    b"256",
    b"257",
    b"260",
    b"299",
    b"300",
    b"999",
    b"1000",
    b"2550",
    b"65536",
    b"65791",
    b"4294967296",
    b"4294967551",
    b"18446744073709551615",
    b"18446744073709551616",
    b"18446744073709551617",
    b"18446744073709551871",
    b"340282366920938463463374607431768211456",
    b"00",
    b"01",
    b"007",
    b"000",
    b"0255",
    b"0256",
    b"+1",
    b"-1",
    b"-0",
    b"+",
    b"-",
    b" 1",
    b"1 ",
    b"1 0",
    b"\t1",
    b"1\r",
    b"1.0",
    b"1.",
    b"1e2",
    b"0x1",
    b"1a",
    b"a",
    b"\"1\"",
    b"'1'",
    b"1_0",
    b"\0",
    b"1\0",
    b"\xff",
    b"\xef\xbc\x91", // a wide 1
    b"\xd9\xa1",     // an Arabic 1
];

/// What stands between fields, and what ends a row.
const COMMAS: [&[u8]; 12] = [b"", b",,", b";", b" ,", b", ", b"\t", b".", b"\n", b",\n", b"\0", b"\xff", b",0,"];
const FEEDS: [&[u8]; 16] = [
    b"", b"\n\n", b"\r\n", b"\r", b"\n\r", b"\0", b"\n ", b" \n", b",\n", b"\n,", b";", b"\x0b", b"\x85", b"\xff",
    b"\n\0", b",0\n",
];
/// What stands in front of a text, or behind it.
const AROUND: [&[u8]; 16] = [
    b"\n",
    b"\r\n",
    b"\r",
    b" ",
    b"\t",
    b"\0",
    b"\xff",
    b"\xef\xbb\xbf",
    b"#\n",
    b"from,to,threshold\n",
    b"0",
    b"0,",
    b"0,0",
    b"0,0,0",
    b"0,0,0\n",
    b"1,0,0\n",
];

/// A text by its pieces: each field, and what follows it.
fn pieces(rows: &[PlanRow]) -> Vec<Vec<u8>> {
    let fields = rows.iter().flat_map(|row| [(row.from, b','), (row.to, b','), (row.threshold, b'\n')]);
    fields.flat_map(|(field, end)| [field.to_string().into_bytes(), vec![end]]).collect()
}

/// A base with each of its pieces replaced.
fn replaced(base: &[PlanRow], visit: &mut impl FnMut(&[u8])) {
    let whole = pieces(base);
    for place in 0..whole.len() {
        let others: &[&[u8]] = match place % 6 {
            5 => &FEEDS,
            1 | 3 => &COMMAS,
            _ => &FIELDS,
        };
        for other in others {
            let mut pieces = whole.clone();
            pieces[place] = other.to_vec();
            visit(&pieces.concat());
        }
    }
}

/// A base with other bytes about it, and each of its starts and ends.
fn around(base: &[PlanRow], visit: &mut impl FnMut(&[u8])) {
    let text = plan_rules::text(base);
    for other in AROUND {
        visit(&[other, &text].concat());
        visit(&[&text, other].concat());
    }
    for place in 0..=text.len() {
        visit(&text[..place]);
        visit(&text[place..]);
    }
}

/// A short text with each byte taken out, each replaced by each other, and each put in at each place.
fn each_byte(text: &[u8], visit: &mut impl FnMut(&[u8])) {
    for place in 0..=text.len() {
        for byte in 0..=255u8 {
            visit(&[&text[..place], &[byte], &text[place..]].concat());
            if place < text.len() {
                visit(&[&text[..place], &[byte], &text[place + 1..]].concat());
            }
        }
        visit(&[&text[..place], &text[(place + 1).min(text.len())..]].concat());
    }
}

/// Rows of none to seven fields, and one to forty rows.
fn counts(visit: &mut impl FnMut(&[u8])) {
    for fields in 0..8 {
        let row = vec!["0"; fields].join(",") + "\n";
        visit(row.as_bytes());
        visit((row.clone() + "0,255,1\n").as_bytes());
        visit(("0,255,1\n".to_string() + &row).as_bytes());
    }
    for count in 1..=40 {
        visit("0,255,1\n".repeat(count).as_bytes());
        visit("\n".repeat(count).as_bytes());
        visit(&plan_rules::text(&parted(count as u16)));
        visit(&plan_rules::text(&vec![PlanRow::new(3, 3, 3); count]));
    }
}

/// Every first and last median of a plan of one row, every threshold, and numbers past 255 and with leading zeros.
fn numbers(visit: &mut impl FnMut(&[u8])) {
    for from in 0..=256 {
        for to in 0..=256 {
            visit(format!("{from},{to},9\n").as_bytes());
        }
    }
    for n in 0..1300 {
        for zeros in ["", "0", "00"] {
            visit(format!("0,255,{zeros}{n}\n").as_bytes());
            visit(format!("{zeros}{n},255,1\n").as_bytes());
            visit(format!("0,{zeros}{n},1\n").as_bytes());
        }
    }
}

/// Two rows about every median: whole, with a gap there, with an overlap, with a row that is reversed; in both orders.
fn borders(visit: &mut impl FnMut(&[u8])) {
    for m in 0..=255i32 {
        for (end, start) in [(m - 1, m), (m, m), (m - 1, m + 1), (m + 1, m), (m, m - 1), (m - 2, m + 1)] {
            let low = format!("0,{end},1\n");
            let high = format!("{start},255,2\n");
            visit((low.clone() + &high).as_bytes());
            visit((high + &low).as_bytes());
        }
        for other in [m - 1, m, m + 1] {
            visit(format!("0,255,1\n{m},{other},2\n").as_bytes());
            visit(format!("{m},{other},2\n0,255,1\n").as_bytes());
        }
    }
}

/// A fault of a plan, which turns its text into another.
type Fault = fn(&[u8]) -> Vec<u8>;

fn with(text: &[u8], more: &str) -> Vec<u8> {
    [text, more.as_bytes()].concat()
}

/// A text's rows, each with its line feed.
fn lines(text: &[u8]) -> Vec<&[u8]> {
    text.split_inclusive(|&byte| byte == b'\n').collect()
}

/// The first eight are refused by 20, of the others most by 21 or 22.
const FAULTS: [Fault; 12] = [
    |text| with(text, "0,0\n"),
    |text| with(text, "0,0,256\n"),
    |text| with(text, "00,0,0\n"),
    |text| with(text, "\n"),
    |text| text[..text.len().saturating_sub(1)].to_vec(),
    |text| with(b"0,0,0 \n", std::str::from_utf8(text).expect("digits")),
    |text| with(text, "7,6,0\n"),
    |text| with(text, &"9,8,1\n".repeat(17)),
    |text| with(text, "255,255,0\n"),
    |text| with(text, "0,0,0\n"),
    |text| lines(text).get(1..).unwrap_or_default().concat(),
    |text| lines(text).split_last().map_or(Vec::new(), |(_, others)| others.concat()),
];

/// Each base with one fault, with two, and with three.
fn faults(base: &[PlanRow], visit: &mut impl FnMut(&[u8])) {
    let text = plan_rules::text(base);
    for one in FAULTS {
        visit(&one(&text));
        for two in FAULTS {
            let both = two(&one(&text));
            visit(&both);
            FAULTS.iter().for_each(|three| visit(&three(&both)));
        }
    }
}

/// Texts of a million bytes and more.
fn long(visit: &mut impl FnMut(&[u8])) {
    const MANY: usize = 1 << 20;
    let digits = "9".repeat(4 * MANY);
    let zeros = "0".repeat(MANY);
    for field in [&digits, &zeros, &(zeros.clone() + "1"), &("1".to_string() + &zeros)] {
        visit(format!("{field},255,1\n").as_bytes());
        visit(format!("0,{field},1\n").as_bytes());
        visit(format!("0,255,{field}\n").as_bytes());
        visit(field.as_bytes());
    }
    for part in ["\n", ",", "0,255,1\n", "0,0,0,", "\0", " ", "256,0,0\n"] {
        visit(part.repeat(MANY).as_bytes());
        visit(("0,255,1\n".to_string() + &part.repeat(MANY)).as_bytes());
    }
    visit(&vec![255; 8 * MANY]);
}

fn by_hand() -> Row {
    let mut row = Row::by_rules("plans by texts made by hand");
    let mut visit = |text: &[u8]| _ = one(&mut row, CONTENT_DEFAULTS, text);
    visit(b"");
    for base in bases() {
        replaced(&base, &mut visit);
        around(&base, &mut visit);
        faults(&base, &mut visit);
    }
    bases()[..3].iter().for_each(|base| each_byte(&plan_rules::text(base), &mut visit));
    counts(&mut visit);
    numbers(&mut visit);
    borders(&mut visit);
    long(&mut visit);
    row
}

/// Texts of each number beside settings that are refused by 6 to 9 and by 15, by two of these at once, and by none.
fn every_order(row: &mut Row) {
    let texts: [&[u8]; 7] = [
        b"",
        b"0,255,27\n",
        b"128,255,20\n0,127,9\n",
        b"0,255,27",
        b"1,0,0\n0,255,1\n0,255,1\n",
        b"0,200,1\n200,254,1\n",
        b"1,255,1\n",
    ];
    let weights = [[1.0, 1.0, 1.0, 0.0], [0.0; 4], [f64::NAN, 0.0, 0.0, 0.0]];
    for text in texts {
        for weights in weights {
            for (has_kernel, kernel_size) in [(0, 4), (1, 3), (1, 4)] {
                for threshold in [27.0, -0.0, f64::INFINITY, f64::NAN] {
                    for filter_mode in [0, 1, 2, u32::MAX] {
                        for initial_cut in [0, 1] {
                            let own = Own::content(filter_mode);
                            let base = Settings {
                                threshold,
                                weights,
                                has_kernel,
                                kernel_size,
                                initial_cut,
                                own,
                                ..CONTENT_DEFAULTS
                            };
                            one(row, base, text);
                        }
                    }
                }
            }
        }
    }
}

fn below(random: &mut Random, n: usize) -> usize {
    (random.next() % n as u64) as usize
}

/// Rows that have each median once, in any order: one to sixteen of them, or one in sixteen times seventeen.
fn random_rows(random: &mut Random) -> Vec<PlanRow> {
    let count = if random.next() % 16 == 0 { 17 } else { 1 + below(random, 16) };
    let mut ends: Vec<u8> = Vec::from([255]);
    while ends.len() < count {
        let end = random.next() as u8;
        if !ends.contains(&end) {
            ends.push(end);
        }
    }
    ends.sort_unstable();
    let froms = [0].into_iter().chain(ends.iter().map(|end| end.wrapping_add(1)));
    let mut rows: Vec<PlanRow> =
        froms.zip(&ends).map(|(from, &to)| PlanRow::new(from, to, random.next() as u8)).collect();
    for i in (1..rows.len()).rev() {
        rows.swap(i, below(random, i + 1));
    }
    rows
}

/// A number that is moved by one, a row that is left out or doubled, two rows that meet in one median.
fn change_rows(rows: &mut Vec<PlanRow>, random: &mut Random) {
    if rows.is_empty() {
        return;
    }
    let place = below(random, rows.len());
    let row = &mut rows[place];
    match random.next() % 8 {
        0 => row.from = row.from.wrapping_add(1),
        1 => row.from = row.from.wrapping_sub(1),
        2 => row.to = row.to.wrapping_add(1),
        3 => row.to = row.to.wrapping_sub(1),
        4 => (row.from, row.to) = (row.to, row.from),
        5 => row.threshold = random.next() as u8,
        6 => _ = rows.remove(place),
        _ => rows.push(rows[place]),
    }
}

const ALPHABET: &[u8] = b"0123456789,,,\n\n\r -+.;\0\xff";

/// A byte that is flipped, dropped, doubled, replaced, or put in; two that change places; an end that is cut off.
fn change_bytes(text: &mut Vec<u8>, random: &mut Random) {
    let place = below(random, text.len() + 1);
    let byte = ALPHABET[below(random, ALPHABET.len())];
    if place == text.len() {
        return text.push(byte);
    }
    match random.next() % 8 {
        0 => text[place] ^= 1 << below(random, 8),
        1 => _ = text.remove(place),
        2 => text.insert(place, text[place]),
        3 | 4 => text[place] = byte,
        5 => text.insert(place, byte),
        6 => text.swap(place, place.saturating_sub(1)),
        _ => {
            if random.next() % 8 == 0 {
                text.truncate(place);
            }
        }
    }
}

/// A text: of a plan whose rows are changed up to twice, with bytes that are changed up to three times.
fn random_text(random: &mut Random) -> Vec<u8> {
    let mut rows = random_rows(random);
    for _ in 0..(random.next() % 6).saturating_sub(3) {
        change_rows(&mut rows, random);
    }
    let mut text = plan_rules::text(&rows);
    for _ in 0..(random.next() % 8).saturating_sub(4) {
        change_bytes(&mut text, random);
    }
    text
}

/// Random texts. A number that fewer than one in a hundred of them has counts as a difference.
fn at_random(seed: u64, count: u64) -> Row {
    let mut row = Row::by_rules("plans by random texts");
    let mut random = Random(!seed);
    let mut met = [0u64; 4];
    const NUMBERS: [u32; 4] = [0, 20, 21, 22];
    for _ in 0..count {
        let number = one(&mut row, CONTENT_DEFAULTS, &random_text(&mut random));
        let place = NUMBERS.iter().position(|&n| n == number).expect("a number of the rules");
        met[place] += 1;
    }
    println!("random texts of plans by number: {:?}", NUMBERS.iter().zip(met).collect::<Vec<_>>());
    for (number, met) in NUMBERS.iter().zip(met) {
        row.compare(0, || format!("{number}: met {met} times in {count}"), true, met >= count / 100);
    }
    row
}
