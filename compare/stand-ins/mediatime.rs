//! Stand-in for the crate `mediatime`, which is not among the Rust's files: `Timestamp` by RULES 1.1 to 1.4.
//! A stamp is a signed 64-bit count of microseconds; a duration is a whole count of them, below 2^64.
use core::time::Duration;

#[derive(Debug, Clone, Copy, PartialEq, Eq)]
pub struct Timestamp {
    micros: i64,
}

impl Timestamp {
    pub const fn from_micros(micros: i64) -> Self {
        Self { micros }
    }

    pub const fn micros(&self) -> i64 {
        self.micros
    }

    /// None when this stamp is earlier, otherwise the difference.
    pub const fn duration_since(&self, earlier: &Self) -> Option<Duration> {
        let difference = self.micros as i128 - earlier.micros as i128;
        if difference < 0 { None } else { Some(Duration::from_micros(difference as u64)) }
    }

    /// Subtracts, and stops at -2^63.
    pub const fn saturating_sub_duration(self, d: Duration) -> Self {
        let difference = self.micros as i128 - d.as_micros() as i128;
        if difference < i64::MIN as i128 { Self { micros: i64::MIN } } else { Self { micros: difference as i64 } }
    }
}

/// Only named in the signatures of `with_min_frames`, which is left out.
#[derive(Debug, Clone, Copy)]
pub struct Timebase {
    num: u32,
    den: u32,
}

impl Timebase {
    pub const fn num(&self) -> u32 {
        self.num
    }

    pub const fn den(&self) -> u32 {
        self.den
    }
}

/// Only re-exported.
#[derive(Debug, Clone, Copy)]
pub struct TimeRange;

/// Its arithmetic is not available, so `with_min_frames` is never called.
#[derive(Debug, Clone, Copy)]
pub struct Rate;

impl Rate {
    pub const fn fps(_num: u32, _den: u32) -> Self {
        Self
    }

    pub const fn saturating_frames_to_duration(self, _frames: i64) -> Duration {
        panic!("the rate arithmetic of mediatime is not stood in for")
    }
}
