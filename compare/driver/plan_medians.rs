//! The luma median of a frame by the station library and by the Rust wrapper, beside a sort (plan_rules.rs), and its
//! refusals 1 to 3.
use crate::generator::Generator;
use crate::plan_rules;
use crate::station;
use crate::table::Row;

/// What the byte of the median held before, and holds after a refusal.
const BEFORE: u8 = 77;

/// One call: the number, and the byte between its neighbours, which stay.
fn one(row: &mut Row, plane: &[u8], width: u32, height: u32, stride: u32) {
    let number = if width > 4096 || height > 4096 {
        1
    } else if stride < width {
        2
    } else if (plane.len() as u64) < height as u64 * stride as u64 {
        3
    } else {
        0
    };
    let median = if number == 0 { plan_rules::median(&packed(plane, width, height, stride)) } else { BEFORE };
    let input = || {
        let shown = if plane.len() < 2000 { format!("{plane:?}") } else { format!("{} bytes", plane.len()) };
        format!("{width} x {height}, stride {stride}, plane {shown}")
    };
    let size = width as u64 + height as u64 + stride as u64;
    let found = station::luma_median(plane, width, height, stride);
    row.compare(size, &input, (number, [BEFORE, median, BEFORE]), found);
    let wrapped = mawerodu::luma_median(plane, width, height, stride).map_err(|refusal| refusal.0);
    row.compare(size, input, if number == 0 { Ok(median) } else { Err(number) }, wrapped);
}

/// The first `width` bytes of each row.
fn packed(plane: &[u8], width: u32, height: u32, stride: u32) -> Vec<u8> {
    (0..height as usize).flat_map(|y| &plane[y * stride as usize..][..width as usize]).copied().collect()
}

/// Sizes 0 to 40 with paddings, kinds of content and each fault; other sizes up to 4,096 × 4,096; sides to 2^32 - 1.
pub fn row() -> Row {
    let mut row = Row::by_rules("luma medians, beside a sort");
    let mut generator = Generator(6);
    for width in 0..=40 {
        for height in 0..=40 {
            for (kind, padding) in [(0, 0), (1, 3), (2, 1), (3, 0), (4, 2), (5, 9)] {
                let stride = width + padding;
                let need = (height * stride) as usize;
                let plane = generator.shades(need + 2, kind);
                one(&mut row, &plane[..need], width, height, stride);
                one(&mut row, &plane, width, height, stride);
                one(&mut row, &plane[..need.saturating_sub(1)], width, height, stride);
                one(&mut row, &plane, width, height, width.saturating_sub(1));
            }
        }
    }
    for (width, height) in [(640, 480), (641, 479), (4096, 3), (3, 4096), (4096, 1), (1920, 1080), (4096, 4096)] {
        for kind in 0..4 {
            let plane = generator.shades((height * (width + kind)) as usize, kind);
            one(&mut row, &plane, width, height, width + kind);
        }
    }
    sides(&mut row);
    row
}

fn sides(row: &mut Row) {
    let numbers = [0, 1, 2, 4095, 4096, 4097, 12288, 65536, 1 << 31, u32::MAX - 1, u32::MAX];
    let bytes = [7; 4097];
    for width in numbers {
        for height in numbers {
            for stride in numbers {
                [0, 1, 2, 4096, 4097].into_iter().for_each(|count| one(row, &bytes[..count], width, height, stride));
            }
        }
    }
}
