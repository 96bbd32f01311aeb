//! The pictures that calls are timed on: two frames of one size, which come in turn, so that each differs from the one
//! before.
use crate::generator::Generator;
use crate::station::{Frame, Planes};
use mediatime::Timestamp;

/// The kinds of frame.
#[derive(Clone, Copy)]
pub enum Kind {
    Luma,
    Bgr,
    Hsv,
}

/// Two frames of one size: BGR, and its three channels as planes, of which the first serves as luma and all as HSV.
#[derive(Clone)]
pub struct Film {
    pub picture: &'static str,
    pub width: u32,
    pub height: u32,
    pub frames: [Vec<u8>; 2],
    planes: [[Vec<u8>; 3]; 2],
}

impl Film {
    fn new(picture: &'static str, width: u32, height: u32, frames: [Vec<u8>; 2]) -> Self {
        let channel = |frame: &Vec<u8>, c| frame.iter().skip(c).step_by(3).copied().collect();
        let planes = [0, 1].map(|i| [0, 1, 2].map(|c| channel(&frames[i], c)));
        Film { picture, width, height, frames, planes }
    }

    /// Every byte random.
    fn noise(width: u32, height: u32) -> Self {
        let mut generator = Generator(5);
        let frames = [(); 2].map(|_| generator.shades(3 * (width * height) as usize, 0));
        Film::new("noise", width, height, frames)
    }

    /// Two gradients with discs of other colours, and faint noise.
    pub fn smooth(width: u32, height: u32) -> Self {
        let mut generator = Generator(5);
        let frames = [0, 40].map(|shift| {
            let places = (0..height).flat_map(|y| (0..width).map(move |x| (x, y)));
            places.flat_map(|(x, y)| smooth_pixel(x + shift, y + shift, width, height, &mut generator)).collect()
        });
        Film::new("smooth", width, height, frames)
    }

    /// One film of each picture, made when it is asked for.
    pub fn both(width: u32, height: u32) -> impl Iterator<Item = Self> {
        [Film::smooth, Film::noise].into_iter().map(move |film| film(width, height))
    }

    /// The size and the picture.
    pub fn title(&self) -> String {
        format!("{} x {}, {}", self.width, self.height, self.picture)
    }

    pub fn n(&self) -> usize {
        (self.width * self.height) as usize
    }

    pub fn planes(&self, i: usize) -> [&[u8]; 3] {
        self.planes[i % 2].each_ref().map(|plane| &plane[..])
    }

    /// Frame i as the station library gets it.
    pub fn frame(&self, kind: Kind, i: usize) -> Frame<'_> {
        let (planes, stride) = match kind {
            Kind::Luma => (Planes::Luma(self.planes(i)[0]), self.width),
            Kind::Bgr => (Planes::Bgr(&self.frames[i % 2]), 3 * self.width),
            Kind::Hsv => (Planes::Hsv(self.planes(i)), self.width),
        };
        Frame { planes, width: self.width, height: self.height, stride, ts: stamp(i).micros() }
    }
}

fn smooth_pixel(x: u32, y: u32, width: u32, height: u32, generator: &mut Generator) -> [u8; 3] {
    let (dx, dy) = ((x % 320) as i32 - 160, (y % 240) as i32 - 120);
    let lit = if dx * dx + dy * dy < 80 * 80 { 90 } else { 0 };
    let across = 140 * x / (width + 40);
    let down = 140 * y / (height + 40);
    [across + lit, down + 20, 160 - across / 2].map(|level| level as u8 + generator.byte() % 3)
}

/// The stamp of frame i.
pub fn stamp(i: usize) -> Timestamp {
    Timestamp::from_micros(i as i64 * 40_000)
}
