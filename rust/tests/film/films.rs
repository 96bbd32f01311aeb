//! Films whose scene changes are known.

/// Frames a second, as a fraction.
#[derive(Clone, Copy, Debug, PartialEq)]
pub struct Rate(pub u64, pub u64);

pub const PAL: Rate = Rate(25, 1);
pub const NTSC: Rate = Rate(30000, 1001);

impl Rate {
    /// When a frame is shown, counted from 0: the nearest microsecond.
    pub fn stamp(self, frame: usize) -> i64 {
        let nanos = frame as u64 * self.1 * 1_000_000_000 / self.0;
        (nanos / 1000 + u64::from(nanos % 1000 >= 500)) as i64
    }
}

/// A film of scenes that differ in brightness and in colour, each frame with a little noise.
#[derive(Clone, Copy, Debug)]
pub struct Scenes {
    pub width: usize,
    pub height: usize,
    /// The frames of each scene.
    pub lengths: &'static [usize],
}

/// Scenes that are more than a second long at 25 and at 30000/1001 frames a second.
pub const LONG: &[usize] = &[33, 47, 35, 40];

/// The brightness of the scenes, in turn, and their colours: blue, green, red.
const LUMA: [i32; 6] = [45, 160, 90, 215, 60, 190];
const COLOURS: [[i32; 3]; 6] =
    [[200, 80, 40], [60, 200, 230], [90, 40, 110], [220, 200, 70], [60, 80, 210], [100, 250, 60]];

impl Scenes {
    pub fn new(width: usize, height: usize) -> Scenes {
        Scenes { width, height, lengths: LONG }
    }

    pub fn frames(&self) -> usize {
        self.lengths.iter().sum()
    }

    /// The first frames of all scenes but the first, counted from 0.
    pub fn cuts(&self) -> Vec<usize> {
        let mut first = 0;
        let starts = self.lengths.iter().map(|length| {
            first += length;
            first
        });
        let mut cuts: Vec<usize> = starts.collect();
        cuts.pop();
        cuts
    }

    fn scene(&self, frame: usize) -> usize {
        self.cuts().iter().filter(|&&cut| cut <= frame).count()
    }

    /// One byte a pixel.
    pub fn luma(&self, frame: usize) -> Vec<u8> {
        let base = [LUMA[self.scene(frame) % LUMA.len()]];
        self.picture(frame, &base)
    }

    /// Three bytes a pixel.
    pub fn bgr(&self, frame: usize) -> Vec<u8> {
        let base = COLOURS[self.scene(frame) % COLOURS.len()];
        self.picture(frame, &base)
    }

    fn picture(&self, frame: usize, base: &[i32]) -> Vec<u8> {
        let scene = self.scene(frame);
        let mut bytes = Vec::new();
        for place in 0..self.width * self.height {
            let (x, y) = (place % self.width, place / self.width);
            let patch = (hash(x / 4, y / 4, scene) % 25) as i32 - 12;
            for (channel, base) in base.iter().enumerate() {
                let noise = (hash(x, y, frame * 3 + channel + 1000) % 5) as i32 - 2;
                bytes.push((base + patch + noise).clamp(0, 255) as u8);
            }
        }
        bytes
    }

    /// All frames of raw luma.
    pub fn gray(&self) -> Vec<u8> {
        (0..self.frames()).flat_map(|frame| self.luma(frame)).collect()
    }

    /// All frames of raw blue, green and red.
    pub fn bgr24(&self) -> Vec<u8> {
        (0..self.frames()).flat_map(|frame| self.bgr(frame)).collect()
    }

    /// The film as yuv4mpeg2, in a colour space: "" is none.
    pub fn y4m(&self, space: &str, rate: Rate) -> Vec<u8> {
        self.y4m_of(space, rate, 0..self.frames())
    }

    /// Some frames of it.
    pub fn y4m_of(&self, space: &str, rate: Rate, frames: std::ops::Range<usize>) -> Vec<u8> {
        let mut bytes = self.header(space, rate).into_bytes();
        for frame in frames {
            bytes.extend(b"FRAME\n");
            bytes.extend(self.luma(frame));
            bytes.extend(self.chroma(space, frame));
        }
        bytes
    }

    pub fn header(&self, space: &str, Rate(frames, seconds): Rate) -> String {
        let space = if space.is_empty() { String::new() } else { format!(" C{space}") };
        format!("YUV4MPEG2 W{} H{} F{frames}:{seconds} Ip A1:1{space}\n", self.width, self.height)
    }

    /// The chroma planes of a frame. Taken for luma they would be cuts where the scene does not change.
    fn chroma(&self, space: &str, frame: usize) -> Vec<u8> {
        let bytes = self.chroma_bytes(space);
        vec![if frame / 7 % 2 == 1 { 255 } else { 0 }; bytes]
    }

    pub fn chroma_bytes(&self, space: &str) -> usize {
        let (across, down) = (self.width.div_ceil(2), self.height.div_ceil(2));
        2 * match space {
            "mono" => 0,
            "422" => across * self.height,
            "444" => self.width * self.height,
            _ => across * down,
        }
    }

    /// The bytes of a frame in a yuv4mpeg2 stream.
    pub fn y4m_bytes(&self, space: &str) -> usize {
        "FRAME\n".len() + self.width * self.height + self.chroma_bytes(space)
    }
}

/// The colour spaces of yuv4mpeg2 that the program reads.
pub const SPACES: [&str; 8] = ["", "420jpeg", "420mpeg2", "420paldv", "420", "422", "444", "mono"];

/// A film of one pixel, whose luma is given.
pub fn pixel(luma: &[u8], rate: Rate) -> Vec<u8> {
    let mut bytes = Scenes::new(1, 1).header("mono", rate).into_bytes();
    for &luma in luma {
        bytes.extend(b"FRAME\n");
        bytes.push(luma);
    }
    bytes
}

/// Numbers that look as if drawn by lot.
pub struct Lot(u64);

impl Lot {
    pub fn new(seed: u64) -> Lot {
        Lot(seed.wrapping_mul(0x9e37_79b9_7f4a_7c15) | 1)
    }

    /// A number below `end`.
    pub fn below(&mut self, end: u64) -> u64 {
        self.0 ^= self.0 << 13;
        self.0 ^= self.0 >> 7;
        self.0 ^= self.0 << 17;
        (self.0 >> 16) % end
    }
}

fn hash(x: usize, y: usize, z: usize) -> u32 {
    let mut mixed = (x as u32).wrapping_mul(0x9e37_79b1) ^ (y as u32).wrapping_mul(0x85eb_ca77);
    mixed ^= (z as u32).wrapping_mul(0xc2b2_ae3d);
    mixed = (mixed ^ mixed >> 15).wrapping_mul(0x2c1b_3c6d);
    mixed = (mixed ^ mixed >> 12).wrapping_mul(0x297a_2d39);
    mixed ^ mixed >> 15
}
