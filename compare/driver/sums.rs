//! The five whole numbers of a frame (RULES 4.4), which the Rust does not give out: worked out here from the planes that
//! its detector holds before and after the call, by the rules and not from the proved code.
use scenesdetect::content::Components;
use scenesdetect::content::reach::Held;

/// The sums of the absolute differences of hue, saturation, luma and edges, and the number of pixels.
#[derive(Clone, Copy, Debug, Default, PartialEq)]
pub struct Sums {
    planes: [u32; 4],
    count: u32,
}

impl Sums {
    /// Of an accepted frame, by what the detector held before it and holds after it. All are 0 where it held no frame
    /// of that size.
    pub fn of(before: Option<&Held>, after: &Held) -> Self {
        let Some(before) = before.filter(|held| held.size == after.size) else { return Sums::default() };
        let edges = match (&before.edges, &after.edges) {
            (Some(before), Some(after)) => sum(before, after),
            (None, None) => 0,
            _ => panic!("edges are on or off for good"),
        };
        let planes = [
            sum(&before.hue, &after.hue),
            sum(&before.saturation, &after.saturation),
            sum(&before.value, &after.value),
            edges,
        ];
        Sums { planes, count: after.size.0 * after.size.1 }
    }

    /// The four sums, then the count.
    pub fn numbers(&self) -> [u32; 5] {
        let [hue, saturation, luma, edges] = self.planes;
        [hue, saturation, luma, edges, self.count]
    }

    /// The bits of each sum over the count, those of 0.0 for no pixels.
    pub fn means(&self) -> [u64; 4] {
        self.planes.map(|sum| mean(sum, self.count).to_bits())
    }
}

/// The whole sum of the absolute differences of two planes.
fn sum(a: &[u8], b: &[u8]) -> u32 {
    assert_eq!(a.len(), b.len());
    a.iter().zip(b).map(|(&x, &y)| x.abs_diff(y) as u32).sum()
}

fn mean(sum: u32, count: u32) -> f64 {
    if count == 0 { 0.0 } else { sum as f64 / count as f64 }
}

/// A scored frame: its sums, and the components that the Rust gives.
pub struct Scored {
    pub sums: Sums,
    pub components: Components,
}

impl Scored {
    pub fn components(&self) -> [u64; 4] {
        let c = self.components;
        [c.delta_hue(), c.delta_sat(), c.delta_lum(), c.delta_edges()].map(f64::to_bits)
    }
}
