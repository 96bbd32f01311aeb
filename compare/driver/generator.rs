//! The generator and the digest that README.md states, shared with the Rattle crate `replay`.

/// A linear congruence on 32 bits.
pub struct Generator(pub u32);

impl Generator {
    pub fn byte(&mut self) -> u8 {
        self.0 = ((self.0 as u64 * 1664525 + 1013904223) % (1 << 32)) as u32;
        (self.0 / 65536 % 256) as u8
    }

    pub fn shades(&mut self, count: usize, kind: u32) -> Vec<u8> {
        (0..count).map(|_| shade(self.byte(), kind)).collect()
    }
}

/// Random numbers of 64 bits (SplitMix64).
#[cfg(rattle)]
pub struct Random(pub u64);

#[cfg(rattle)]
impl Random {
    pub fn next(&mut self) -> u64 {
        self.0 = self.0.wrapping_add(0x9E37_79B9_7F4A_7C15);
        let z = (self.0 ^ self.0 >> 30).wrapping_mul(0xBF58_476D_1CE4_E5B9);
        let z = (z ^ z >> 27).wrapping_mul(0x94D0_49BB_1331_11EB);
        z ^ z >> 31
    }
}

/// A byte on fewer levels, so that equal neighbours and flat gradients occur.
pub fn shade(byte: u8, kind: u32) -> u8 {
    match kind {
        0 => byte,
        1 => byte % 2 * 255,
        2 => byte % 3 * 127,
        3 => byte % 6 * 51,
        4 => 96 + byte / 4,
        _ => 131 + byte % 2 * 62,
    }
}

/// Adler-32.
pub struct Digest {
    a: u32,
    b: u32,
}

impl Digest {
    pub fn new() -> Self {
        Self { a: 1, b: 0 }
    }

    pub fn bytes(&mut self, bytes: &[u8]) {
        for &byte in bytes {
            self.a = (self.a + byte as u32) % 65521;
            self.b = (self.b + self.a) % 65521;
        }
    }

    pub fn word(&mut self, word: u32) {
        self.bytes(&word.to_le_bytes());
    }

    pub fn long(&mut self, long: u64) {
        self.bytes(&long.to_le_bytes());
    }

    pub fn double(&mut self, double: f64) {
        self.long(double.to_bits());
    }

    pub fn value(&self) -> u32 {
        self.b * 65536 + self.a
    }
}
