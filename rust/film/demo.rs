//! Two small films that the program makes itself: 320 x 180, 25 frames a second, the same bytes each time.
//! docs/SETTINGS.md says what each detector makes of them.
use crate::frame::{Fault, Format, Header, Length, Rate, Shown, Size, Source};
use std::ops::Range;

const SIZE: Size = Size { width: 320, height: 180 };
const RATE: Rate = Rate { frames: 25, seconds: 1 };

/// One shot: from its first frame to that of the next.
struct Shot {
    frames: u32,
    scene: Scene,
    /// How its first frames come in.
    enters: Enters,
}

/// What is in the picture.
struct Scene {
    /// The colours at the top and at the bottom: blue, green, red.
    top: [i32; 3],
    bottom: [i32; 3],
    /// How much the patches of the background differ from its colour, and how many pixels they move a frame.
    patches: i32,
    pan: u32,
}

/// How a shot begins.
enum Enters {
    /// At once.
    Cut,
    /// Out of black, after the shot before has gone to black, in this many frames each.
    Fade(u32),
    /// Mixed with the shot before for this many frames.
    Dissolve(u32),
}

use Enters::{Cut, Dissolve, Fade};

const fn scene(top: [i32; 3], bottom: [i32; 3], patches: i32, pan: u32) -> Scene {
    Scene { top, bottom, patches, pan }
}

/// A film: its shots, and what happens in them.
struct Reel {
    shots: &'static [Shot],
    /// The frames that a flash lights.
    flash: Range<u32>,
    /// The frames in which the camera sweeps over the last shot.
    sweep: Range<u32>,
    /// How much light there is from a frame on, of 256, where it changes.
    lights: &'static [(u32, i32)],
}

/// The film in the light. The flash is in its second shot.
const LIT: Reel = Reel { shots: &SHOTS, flash: 150..152, sweep: 560..575, lights: &[] };

/// The film in a room whose lamp goes out with its third shot, and on again with its last. A shadow lies on the first
/// one for a while.
const DIM: Reel =
    Reel { shots: &PAPERS, flash: 0..0, sweep: 0..0, lights: &[(0, 256), (40, 236), (70, 256), (175, 40), (400, 256)] };

/// Of the film in the light. The shot of 12 frames is half a second long, less than two cuts are apart at default
/// settings.
const SHOTS: [Shot; 8] = [
    Shot { frames: 100, scene: scene([200, 170, 120], [90, 140, 180], 16, 0), enters: Cut },
    Shot { frames: 100, scene: scene([60, 40, 30], [110, 70, 40], 24, 1), enters: Cut },
    Shot { frames: 75, scene: scene([60, 130, 70], [40, 90, 160], 20, 0), enters: Cut },
    Shot { frames: 75, scene: scene([190, 200, 210], [150, 110, 100], 16, 0), enters: Fade(20) },
    Shot { frames: 75, scene: scene([70, 60, 170], [40, 50, 100], 30, 0), enters: Dissolve(25) },
    Shot { frames: 12, scene: scene([180, 220, 90], [160, 200, 60], 12, 0), enters: Cut },
    Shot { frames: 75, scene: scene([50, 50, 60], [160, 170, 190], 18, 0), enters: Cut },
    Shot { frames: 88, scene: scene([120, 100, 90], [140, 130, 120], 110, 0), enters: Cut },
];

/// Of the other film: papers on a desk.
const PAPERS: [Shot; 6] = [
    Shot { frames: 100, scene: scene([180, 190, 195], [165, 175, 180], 14, 0), enters: Cut },
    Shot { frames: 75, scene: scene([120, 130, 140], [135, 140, 145], 18, 0), enters: Cut },
    Shot { frames: 75, scene: scene([190, 200, 205], [170, 180, 190], 16, 0), enters: Cut },
    Shot { frames: 75, scene: scene([125, 135, 140], [130, 140, 150], 14, 0), enters: Cut },
    Shot { frames: 75, scene: scene([185, 195, 200], [175, 180, 185], 18, 0), enters: Cut },
    Shot { frames: 75, scene: scene([130, 140, 150], [140, 150, 155], 16, 0), enters: Cut },
];

/// The side of a patch, and the size of the disc.
const PATCH: u32 = 20;
const RADIUS: i32 = 22;

/// By how many pixels the camera sweeps in a frame.
const SWEEP_STEP: u32 = 23;

/// A film, frame by frame.
pub struct Demo {
    reel: &'static Reel,
    next: u32,
}

impl Demo {
    /// The film in the light, or the one in a room whose lamp goes out.
    pub fn new(dim: bool) -> Demo {
        Demo { reel: if dim { &DIM } else { &LIT }, next: 0 }
    }
}

impl Source for Demo {
    fn header(&self) -> Header {
        let frames = self.reel.shots.iter().map(|shot| u64::from(shot.frames)).sum();
        Header { size: SIZE, format: Format::Bgr24, length: Some(Length::Frames(frames)) }
    }

    fn read(&mut self, pixels: &mut Vec<u8>) -> Result<Option<Shown>, Fault> {
        let Some(place) = Place::of(self.reel, self.next) else { return Ok(None) };
        pixels.clear();
        for y in 0..SIZE.height {
            place.row(y, pixels);
        }
        let number = u64::from(self.next);
        self.next += 1;
        Ok(Some(Shown { at: RATE.stamp(number), until: Some(RATE.stamp(number + 1)) }))
    }
}

/// Where in a film a frame is.
struct Place {
    reel: &'static Reel,
    frame: u32,
    shot: usize,
    /// The frames of the shot before and after this one.
    before: u32,
    after: u32,
}

impl Place {
    fn of(reel: &'static Reel, frame: u32) -> Option<Place> {
        let mut before = frame;
        for (shot, it) in reel.shots.iter().enumerate() {
            if before < it.frames {
                return Some(Place { reel, frame, shot, before, after: it.frames - 1 - before });
            }
            before -= it.frames;
        }
        None
    }

    /// Adds a row of the frame.
    fn row(&self, y: u32, pixels: &mut Vec<u8>) {
        let light = self.light();
        let (other, part) = self.mixed();
        let flash = if self.reel.flash.contains(&self.frame) { 170 } else { 0 };
        let (mut ours, mut theirs) = (self.painter(self.shot, y), self.painter(other, y));
        for x in 0..SIZE.width {
            let ours = ours(x);
            let theirs = if part > 0 { theirs(x) } else { ours };
            let grain = (hash(x, y, self.frame) % 9) as i32 - 4;
            for (ours, theirs) in ours.into_iter().zip(theirs) {
                let mixed = (ours * (256 - part) + theirs * part) / 256 + grain;
                pixels.push((mixed * light / 256 + flash).clamp(0, 255) as u8);
            }
        }
    }

    /// How bright the frame is, of 256: less where there is less light, or where it comes out of black or goes to
    /// black.
    fn light(&self) -> i32 {
        let lamp = self.reel.lights.iter().rfind(|(from, _)| *from <= self.frame).map_or(256, |&(_, light)| light);
        let come = match self.reel.shots[self.shot].enters {
            Fade(frames) => self.before * 256 / frames,
            _ => 256,
        };
        let go = match self.reel.shots.get(self.shot + 1).map(|shot| &shot.enters) {
            Some(Fade(frames)) => self.after * 256 / frames,
            _ => 256,
        };
        come.min(go).min(256) as i32 * lamp / 256
    }

    /// The shot before, and its part of 256 in the frame while the two are mixed.
    fn mixed(&self) -> (usize, i32) {
        match self.reel.shots[self.shot].enters {
            Dissolve(frames) if self.before < frames => {
                (self.shot - 1, 256 - (256 * (self.before + 1) / (frames + 1)) as i32)
            }
            _ => (self.shot, 0),
        }
    }

    /// The colours of a shot in a row: a disc that moves before a background of patches.
    fn painter(&self, shot: usize, y: u32) -> impl FnMut(u32) -> [i32; 3] {
        let Scene { top, bottom, patches, pan } = &self.reel.shots[shot].scene;
        let down = y as i32 - 100;
        let centre = 40 + (self.frame * 2 % 240) as i32;
        let Range { start, end } = self.reel.sweep;
        let swept = (self.frame.clamp(start, end) - start) * SWEEP_STEP;
        let moved = self.frame * pan + if shot == self.reel.shots.len() - 1 { swept } else { 0 };
        let shade = move |channel: usize, patch: u32| {
            let drawn = hash(patch, y / PATCH, (shot * 3 + channel) as u32) % 256;
            let plain = top[channel] + (bottom[channel] - top[channel]) * y as i32 / SIZE.height as i32;
            plain + patches * (drawn as i32 - 128) / 128
        };
        let mut last = (u32::MAX, [0; 3]);
        move |x| {
            let across = x as i32 - centre;
            if across * across + down * down < RADIUS * RADIUS {
                return [bottom[2], top[0], bottom[1]];
            }
            let patch = (x + moved) / PATCH;
            if last.0 != patch {
                last = (patch, [0, 1, 2].map(|channel| shade(channel, patch)));
            }
            last.1
        }
    }
}

/// A number that looks as if drawn by lot.
fn hash(x: u32, y: u32, z: u32) -> u32 {
    let mixed = x.wrapping_mul(0x9e37_79b1) ^ y.wrapping_mul(0x85eb_ca77) ^ z.wrapping_mul(0xc2b2_ae3d);
    let mixed = (mixed ^ mixed >> 15).wrapping_mul(0x2c1b_3c6d);
    let mixed = (mixed ^ mixed >> 12).wrapping_mul(0x297a_2d39);
    mixed ^ mixed >> 15
}
