//! Both sides on the same inputs.
use crate::content_lists::{self, Planned, Seen};
use crate::generator::{Generator, Random};
use crate::lists::{self, Listed};
use crate::sums::Scored;
use crate::table::Row;
use crate::{rattle, rust, station};
use core::time::Duration;
use mediatime::Timestamp;
use scenesdetect::adaptive;

const MOST: u32 = 40;
const KINDS: u32 = 4;
const PADDINGS: [u32; 5] = [0, 1, 2, 3, 9];

pub fn rows(which: Lists) -> Vec<Row> {
    let mut rows = vec![
        pixels(),
        bgr_to_hsv_planes(),
        BGR_TO_HSV.wide("bgr_to_hsv_planes, wide rows"),
        copy_plane(),
        differences(),
        sobel_gradients(),
        sobel_planes(),
        luma_and_bgr_frames(),
        hsv_frames(),
        sides(),
        since(),
        subtracted(),
    ];
    rows.extend(content_lists(which));
    rows.extend(adaptive_lists(which));
    rows
}

fn pixels() -> Row {
    let mut row = Row::new("bgr_to_hsv_pixel, every pixel");
    for p in 0..1u32 << 24 {
        let (b, g, r) = ((p >> 16) as u8, (p >> 8) as u8, p as u8);
        let (h, s, v) = rust::bgr_to_hsv_pixel(b, g, r);
        let joined = h as u32 * 65536 + s as u32 * 256 + v as u32;
        let input = || format!("BGR ({b}, {g}, {r}), as h * 65536 + s * 256 + v");
        row.compare(b.max(g).max(r) as u64, input, joined, rattle::bgr_to_hsv_pixel(b, g, r));
    }
    row
}

/// Sizes from 0 to 40 with each padding and kind of content, small ones first.
fn each_plane(mut visit: impl FnMut(u32, u32, u32, u32)) {
    for width in 0..=MOST {
        for height in 0..=MOST {
            for padding in PADDINGS {
                for kind in 0..KINDS {
                    visit(width, height, padding, kind);
                }
            }
        }
    }
}

type Convert = fn(&mut [u8], &[u8], u32, u32, u32) -> u32;

/// Width, height and stride.
type Size = (u32, u32, u32);

/// A conversion of strided rows to `count` planes, with `bytes` bytes to a pixel.
struct Conversion {
    bytes: u32,
    count: usize,
    check: fn(&[u8], u32, u32, u32) -> u32,
    rust: fn(&[u8], u32, u32, u32) -> Vec<u8>,
    rattle: Convert,
}

impl Conversion {
    /// The oracle's answer and what it leaves in a memory that held `before`, of which the first `lent` bytes are
    /// lent. The Rattle side asks for exactly the planes' bytes and otherwise returns 12; a refusal writes nothing.
    fn expected(&self, before: &[u8], lent: usize, src: &[u8], (width, height, stride): Size) -> (u32, Vec<u8>) {
        let mut memory = before.to_vec();
        let refusal = (self.check)(src, width, height, stride);
        if refusal != 0 {
            return (refusal, memory);
        }
        let planes = (self.rust)(src, width, height, stride);
        if lent != planes.len() {
            return (12, memory);
        }
        memory[..lent].copy_from_slice(&planes);
        (0, memory)
    }

    fn one(&self, row: &mut Row, before: &[u8], lent: usize, src: &[u8], size: Size) {
        let (width, height, stride) = size;
        let mut memory = before.to_vec();
        let answer = (self.rattle)(&mut memory[..lent], src, width, height, stride);
        let input = || format!("{width} x {height}, stride {stride}, {lent} bytes lent, src {src:?}");
        let order = width as u64 * height as u64 + stride as u64;
        row.compare(order, input, self.expected(before, lent, src, size), (answer, memory));
    }

    /// Exact lengths, bytes to spare behind the source, a byte short or one too many on either side, a stride one
    /// short. The memory goes on behind what is lent.
    fn all(&self, name: &'static str) -> Row {
        let mut row = Row::new(name);
        let mut generator = Generator(1);
        each_plane(|width, height, padding, kind| {
            let stride = self.bytes * width + padding;
            let need = (height * stride) as usize;
            let planes = self.count * (width * height) as usize;
            let src = generator.shades(need + 3, kind);
            let before = generator.shades(planes + 5, 0);
            let size = (width, height, stride);
            self.one(&mut row, &before, planes, &src[..need], size);
            self.one(&mut row, &before, planes, &src, size);
            self.one(&mut row, &before, planes, &src[..need.saturating_sub(1)], size);
            self.one(&mut row, &before, planes.saturating_sub(1), &src, size);
            self.one(&mut row, &before, planes + 1, &src, size);
            self.one(&mut row, &before, planes, &src, (width, height, (self.bytes * width).saturating_sub(1)));
        });
        row
    }

    /// Rows of 1 to 1,100 pixels, some to 4,096: the proved side works in blocks of 256.
    fn wide(&self, name: &'static str) -> Row {
        let mut row = Row::new(name);
        let mut generator = Generator(3);
        for width in (1..=1100).chain([1920, 2048, 3839, 4095, 4096]) {
            let (height, stride) = (1 + width % 3, self.bytes * width + width % 2);
            let src = generator.shades((height * stride) as usize, width % KINDS);
            let before = generator.shades(self.count * (width * height) as usize + 5, 0);
            self.one(&mut row, &before, before.len() - 5, &src, (width, height, stride));
        }
        row
    }
}

const BGR_TO_HSV: Conversion = Conversion {
    bytes: 3,
    count: 3,
    check: rust::check_bgr,
    rust: rust::bgr_to_hsv_planes,
    rattle: rattle::bgr_to_hsv_planes,
};

fn bgr_to_hsv_planes() -> Row {
    BGR_TO_HSV.all("bgr_to_hsv_planes, answer and memory")
}

fn copy_plane() -> Row {
    let conversion =
        Conversion { bytes: 1, count: 1, check: rust::check_luma, rust: rust::copy_plane, rattle: rattle::copy_plane };
    conversion.all("copy_plane, answer and memory")
}

/// Two planes of one length: every length to 1,700, then frames up to 4,096 x 4,096, the last with the greatest sum.
fn each_pair(mut visit: impl FnMut(&[u8], &[u8])) {
    let mut generator = Generator(2);
    for n in 0..=1700 {
        for kind in 0..KINDS {
            visit(&generator.shades(n, kind), &generator.shades(n, 0));
            visit(&generator.shades(n, kind), &generator.shades(n, kind));
        }
    }
    for n in [65536, 640 * 480, 1920 * 1080, (1 << 24) - 1, 1 << 24] {
        visit(&generator.shades(n, 0), &generator.shades(n, 0));
        visit(&vec![255; n], &vec![0; n]);
        visit(&vec![0; n], &vec![255; n]);
    }
}

fn pair(a: &[u8], b: &[u8]) -> String {
    if a.len() > 2000 {
        return format!("planes of {} bytes", a.len());
    }
    format!("{a:?} and {b:?}")
}

fn differences() -> Row {
    let mut row = Row::new("mean_abs_diff: sum, count and bits");
    each_pair(|a, b| {
        let mean = rust::mean_abs_diff(a, b);
        let expected = [rust::sum_of(mean, a.len()) as u64, a.len() as u64, mean.to_bits()];
        row.compare(a.len() as u64, || pair(a, b), expected, rattle::mean_abs_diff(a, b));
    });
    row
}

/// Both planes of a frame. The memories go on behind what is lent, which is `more` places longer than the planes, or
/// shorter; the Rattle side asks for exactly the planes' places, and otherwise returns 12 and writes nothing.
fn sobel_one(row: &mut Row, input: &[u8], width: u32, height: u32, more: [isize; 2]) {
    let n = input.len();
    let (mut mag, mut dir) = (vec![-7; n + 2], vec![77; n + 2]);
    let (mut rust_mag, mut rust_dir) = (mag.clone(), dir.clone());
    let lent = more.map(|d| n.saturating_add_signed(d));
    let answer = rattle::sobel(&mut mag[..lent[0]], &mut dir[..lent[1]], input, width, height);
    let expected = if lent == [n, n] { 0 } else { 12 };
    if expected == 0 {
        let (mag, dir) = rust::sobel(input, width, height);
        rust_mag[..n].copy_from_slice(&mag);
        rust_dir[..n].copy_from_slice(&dir);
    }
    let text = || {
        if n > 2000 {
            return format!("{width} x {height}");
        }
        format!("{width} x {height}, places lent {lent:?}: {input:?}")
    };
    row.compare(n as u64, text, (expected, rust_mag, rust_dir), (answer, mag, dir));
}

/// Every pair of gradients that bytes can give. With differences across of u, v (corners) and s, t (middles), each
/// from -255 to 255, gx = u + v + 2s and gy = u - v + 2t.
fn sobel_gradients() -> Row {
    let mut row = Row::new("sobel, every attainable pair of gradients");
    for gx in -1020i32..=1020 {
        for gy in (-1020i32..=1020).filter(|gy| (gx - gy) % 2 == 0) {
            let (s, t) = ((gx / 2).clamp(-255, 255), (gy / 2).clamp(-255, 255));
            let (u, v) = ((gx - 2 * s + gy - 2 * t) / 2, (gx - 2 * s - gy + 2 * t) / 2);
            if u.abs() > 255 || v.abs() > 255 {
                continue;
            }
            let up = |d: i32| d.max(0) as u8;
            let down = |d: i32| (-d).max(0) as u8;
            let plane = [down(u), down(t), up(v), down(s), 0, up(s), down(v), up(t), up(u)];
            sobel_one(&mut row, &plane, 3, 3, [0, 0]);
        }
    }
    row
}

fn sobel_planes() -> Row {
    let mut row = Row::new("sobel, answer and planes");
    let mut generator = Generator(3);
    each_plane(|width, height, padding, kind| {
        let input = generator.shades((width * height) as usize, kind);
        sobel_one(&mut row, &input, width, height, [0, 0]);
        if padding == 0 {
            for more in [[-1, 0], [1, 0], [0, -1], [0, 1]] {
                sobel_one(&mut row, &input, width, height, more);
            }
        }
    });
    for (width, height) in [(4096, 3), (3, 4096), (4096, 1), (640, 480), (4096, 4096)] {
        for kind in 0..KINDS {
            let input = generator.shades((width * height) as usize, kind);
            sobel_one(&mut row, &input, width, height, [0, 0]);
        }
    }
    row
}

/// Lengths about `need`.
fn around(need: u64) -> impl Iterator<Item = usize> {
    [0, 1, 2].into_iter().filter_map(move |d| (need + d).checked_sub(1)).map(|n| n as usize)
}

/// Strides about the least.
fn strides(least: u32) -> impl Iterator<Item = u32> {
    [0, least / 2, least.saturating_sub(1), least, least + 1, least + 2, least + 9].into_iter()
}

fn luma_and_bgr_frames() -> Row {
    let mut row = Row::new("check_luma, check_bgr");
    let data = vec![0; (1 << 25) + 1];
    let mut one = |width: u32, height: u32, stride: u32, count: usize| {
        let size = width as u64 + height as u64 + stride as u64;
        let input = |name| move || format!("{name}, {width} x {height}, stride {stride}, {count} bytes");
        let of = &data[..count];
        let (luma, bgr) = (rust::check_luma(of, width, height, stride), rust::check_bgr(of, width, height, stride));
        row.compare(size, input("luma"), luma, rattle::check_luma(of, width, height, stride));
        row.compare(size, input("BGR"), bgr, rattle::check_bgr(of, width, height, stride));
    };
    for width in (0..=MOST).chain([4095, 4096, 4097]) {
        for height in (0..=MOST).chain([4095, 4096, 4097]) {
            for stride in strides(width).chain(strides(3 * width)) {
                for count in around(height as u64 * stride as u64) {
                    one(width, height, stride, count.min(data.len()));
                }
            }
        }
    }
    row
}

fn hsv_frames() -> Row {
    let mut row = Row::new("check_hsv");
    let data = vec![0; 1 << 12];
    for width in 0..=MOST {
        for height in 0..=MOST {
            for stride in strides(width) {
                let need = height as usize * stride as usize;
                for lengths in 0..27 {
                    let count = |d: usize| (need + lengths / d % 3).saturating_sub(1);
                    let (h, s, v) = (&data[..count(1)], &data[..count(3)], &data[..count(9)]);
                    let input = || {
                        let counts = (h.len(), s.len(), v.len());
                        format!("{width} x {height}, stride {stride}, planes of {counts:?} bytes")
                    };
                    let size = width as u64 + height as u64 + stride as u64;
                    let answer = rattle::check_hsv(h, s, v, width, height, stride);
                    row.compare(size, input, rust::check_hsv(h, s, v, width, height, stride), answer);
                }
            }
        }
    }
    row
}

/// Sides and strides up to 2^32 - 1, with no bytes and with a few.
fn sides() -> Row {
    let mut row = Row::new("frame checks, sides to 2^32 - 1");
    let third = u32::MAX / 3;
    let numbers = [0, 1, 2, 4095, 4096, 4097, 12288, 65536, third, third + 1, 1 << 31, u32::MAX - 1, u32::MAX];
    let data = [0; 4097];
    for width in numbers {
        for height in numbers {
            for stride in numbers {
                for count in [0, 1, 4096, 4097] {
                    let of = &data[..count];
                    let input = || format!("{width} x {height}, stride {stride}, {count} bytes, luma, BGR and HSV");
                    let rust = [
                        rust::check_luma(of, width, height, stride),
                        rust::check_bgr(of, width, height, stride),
                        rust::check_hsv(of, of, of, width, height, stride),
                    ];
                    let rattle = [
                        rattle::check_luma(of, width, height, stride),
                        rattle::check_bgr(of, width, height, stride),
                        rattle::check_hsv(of, of, of, width, height, stride),
                    ];
                    row.compare(width as u64 + height as u64 + stride as u64, input, rust, rattle);
                }
            }
        }
    }
    row
}

/// Numbers about the edges of 64 bits, and some between.
fn stamps() -> Vec<i64> {
    let mut stamps = Vec::new();
    for edge in [i64::MIN, i64::MIN / 2, -(1 << 32), -1_000_000, 0, 1_000_000, 1 << 32, i64::MAX / 2, i64::MAX] {
        stamps.extend((-3..=3).filter_map(|d| edge.checked_add(d)));
    }
    let mut generator = Generator(4);
    for bytes in 1..=8 {
        for _ in 0..40 {
            let mut word = [0; 8];
            word.iter_mut().take(bytes).for_each(|byte| *byte = generator.byte());
            stamps.extend([i64::from_le_bytes(word), i64::from_le_bytes(word).wrapping_neg()]);
        }
    }
    stamps
}

fn since() -> Row {
    let mut row = Row::new("duration_since");
    let stamps = stamps();
    for &ts in &stamps {
        for &earlier in &stamps {
            let rust = Timestamp::from_micros(ts).duration_since(&Timestamp::from_micros(earlier));
            let rattle = (rattle::mw_is_earlier(ts, earlier), rattle::mw_duration_since(ts, earlier));
            let expected = (rust.is_none() as u32, rust.map_or(0, |d| d.as_micros() as u64));
            let size = ts.unsigned_abs().saturating_add(earlier.unsigned_abs());
            row.compare(size, || format!("{ts} since {earlier}"), expected, rattle);
        }
    }
    row
}

fn subtracted() -> Row {
    let mut row = Row::new("saturating_sub_duration");
    let stamps = stamps();
    for &ts in &stamps {
        for d in stamps.iter().map(|&d| d as u64) {
            let rust = Timestamp::from_micros(ts).saturating_sub_duration(Duration::from_micros(d)).micros();
            let size = ts.unsigned_abs().saturating_add(d);
            row.compare(size, || format!("{ts} less {d}"), rust, rattle::mw_saturating_sub_duration(ts, d));
        }
    }
    row
}

/// A record of random bytes: the replays' generator is too short for so many lists.
pub fn record(random: &mut Random) -> [u8; lists::RECORD] {
    (random.next() as u128 | (random.next() as u128) << 64).to_le_bytes()
}

/// Which lists are compared: the seed that their bytes come from, and how many of each kind there are.
#[derive(Clone, Copy)]
pub struct Lists {
    pub seed: u64,
    pub content: u64,
    pub adaptive: u64,
}

/// A side of a list that writes to lent memory, as one that gives what it wrote.
fn written(list: for<'a> fn(&[u8], &'a mut [u8]) -> &'a [u8]) -> impl FnMut(&[u8]) -> Vec<u8> {
    let mut out = vec![0; LONG as usize * 6700];
    move |script| list(script, &mut out).to_vec()
}

/// Whole lists of calls: all that each call gives. Of a list that differs the calls behind the first that shows it
/// are left out. Each list's detector is shown at its end, with the frames that were scored.
fn whole_lists<D: Listed>(
    row: &mut Row,
    seed: u64,
    counts: impl Iterator<Item = u64>,
    mut rattle: impl FnMut(&[u8]) -> Vec<u8>,
    mut seen: impl FnMut(&[u8], &D, &[Scored]),
) {
    let mut random = Random(seed);
    for count in counts {
        let mut script: Vec<u8> = (0..=count).flat_map(|_| record(&mut random)).collect();
        let (mut expected, detector, scored) = lists::run::<D>(&script);
        seen(&script, &detector, &scored);
        let mut found = rattle(&script);
        if expected != found {
            script = shortest::<D>(&script, &mut rattle);
            expected = lists::run::<D>(&script).0;
            found = rattle(&script);
        }
        let input = || format!("records of 16 bytes {script:?}");
        row.compare(script.len() as u64, input, &expected[..], &found[..]);
    }
}

/// The shortest start of a list that shows a difference.
fn shortest<D: Listed>(script: &[u8], rattle: &mut impl FnMut(&[u8]) -> Vec<u8>) -> Vec<u8> {
    let starts = (lists::RECORD..=script.len()).step_by(lists::RECORD).map(|n| &script[..n]);
    let mut differing = starts.filter(|start| lists::run::<D>(start).0 != rattle(start));
    differing.next().expect("the whole list differs").to_vec()
}

/// The components that the Rust gives of each scored frame of a list, beside the sums over the count.
fn over_count(row: &mut Row, script: &[u8], scored: &[Scored]) {
    for (i, frame) in scored.iter().enumerate() {
        let input = || format!("records of 16 bytes {script:?}, scored frame {i}, sums {:?}", frame.sums);
        row.compare(script.len() as u64, input, frame.components(), frame.sums.means());
    }
}

const OVER_COUNT: &str = "sum over count, by the Rust's components";

/// The plans of lists of content calls: how many rows, how many were refused, and what was seen under longer plans.
#[derive(Default)]
struct Plans {
    none: u64,
    one: u64,
    longer: u64,
    /// By 20, 21 and 22.
    refused: [u64; 3],
    seen: Seen,
}

impl Plans {
    fn add(&mut self, script: &[u8], list: &Planned) {
        match (Planned::settled(script).0, content_lists::plan(script).count) {
            (number @ 20..=22, _) => self.refused[number as usize - 20] += 1,
            (0, 2..) => self.longer += 1,
            (0, 1) => self.one += 1,
            _ => self.none += 1,
        }
        self.seen.scored += list.seen.scored;
        self.seen.cuts += list.seen.cuts;
        self.seen.otherwise += list.seen.otherwise;
    }

    fn print(&self) {
        let Plans { none, one, longer, refused: [shape, twice, missing], seen } = self;
        println!(
            "their plans: {none} without, {one} of one row, {longer} longer, refused by 20 {shape}, by 21 {twice}, by 22 {missing}; \
             under longer ones {} scored frames, {} cuts, {} frames that another threshold of theirs judges otherwise",
            seen.scored, seen.cuts, seen.otherwise
        );
    }
}

/// Lists of 1 to 24 calls, on the records and through the station library.
fn content_lists(which: Lists) -> [Row; 4] {
    let counts = (0..which.content).map(|list| list % 24 + 1);
    println!("{} lists of content calls, {} calls", which.content, counts.clone().sum::<u64>());
    let mut records = Row::new("whole lists of content calls");
    let mut words = Row::new("the same through the station library");
    let mut means = Row::of_sums(OVER_COUNT);
    let mut filter = Row::of_filter("cuts by the filter, where the Rust gives them");
    let mut plans = Plans::default();
    let seed = which.seed;
    let seen = |script: &[u8], list: &Planned, scored: &[Scored]| {
        over_count(&mut means, script, scored);
        plans.add(script, list);
        filter.count(
            script.len() as u64,
            || format!("records of 16 bytes {script:?}"),
            list.seen.beside,
            list.seen.differ,
        );
    };
    whole_lists(&mut records, seed, counts.clone(), written(rattle::content_list), seen);
    plans.print();
    whole_lists::<Planned>(&mut words, seed, counts, station::content_list, |_, _, _| ());
    [records, words, means, filter]
}

/// Calls of a long list of adaptive calls, in which wide windows fill: one list in sixteen is one.
pub const LONG: u64 = 240;

fn adaptive_lists(which: Lists) -> [Row; 3] {
    let counts = (0..which.adaptive).map(|list| if list % 16 == 15 { LONG } else { list % 24 + 1 });
    println!("{} lists of adaptive calls, {} calls", which.adaptive, counts.clone().sum::<u64>());
    let mut records = Row::new("whole lists of adaptive calls");
    let mut words = Row::new("the same through the station library");
    let mut means = Row::of_sums(OVER_COUNT);
    let seed = which.seed;
    let mut full = [0; 65];
    let seen = |script: &[u8], detector: &adaptive::Detector, scored: &[Scored]| {
        full[detector.options().window_width() as usize] += detector.last_adaptive_ratio().is_some() as u64;
        over_count(&mut means, script, scored);
    };
    whole_lists(&mut records, seed, counts.clone(), written(rattle::adaptive_list), seen);
    println!("lists with a full window at their end, by its width from 1 to 64: {:?}", &full[1..]);
    whole_lists::<adaptive::Detector>(&mut words, seed, counts, station::adaptive_list, |_, _, _| ());
    [records, words, means]
}
