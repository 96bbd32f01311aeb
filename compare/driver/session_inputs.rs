//! Random inputs of the session program: frame lines about each bound of RULES 11.3, whole and damaged.
use crate::generator::Random;

const STAMPS: [&str; 24] = [
    "0",
    "-0",
    "-00",
    "1",
    "-1",
    "9223372036854775806",
    "9223372036854775807",
    "9223372036854775808",
    "9223372036854775817",
    "-9223372036854775807",
    "-9223372036854775808",
    "-9223372036854775809",
    "18446744073709551615",
    "18446744073709551616",
    "18446744073709551621",
    "-18446744073709551616",
    "92233720368547758080",
    "340282366920938463463374607431768211456",
    "-",
    "--1",
    "+1",
    "",
    "1-",
    " 1",
];
const SIDES: [&str; 22] = [
    "0",
    "00",
    "1",
    "2",
    "32",
    "1023",
    "1024",
    "1025",
    "4095",
    "4096",
    "4097",
    "5000",
    "65536",
    "2147483648",
    "4294967295",
    "4294967296",
    "4294967297",
    "18446744073709551616",
    "18446744073709551617",
    "-0",
    "-1",
    "",
];
const VALUES: [&str; 18] = [
    "0",
    "000",
    "254",
    "255",
    "0255",
    "256",
    "257",
    "260",
    "300",
    "512",
    "999",
    "1000",
    "65536",
    "4294967296",
    "18446744073709551616",
    "-0",
    "-1",
    "",
];
/// About 1,024 pixels, and sides whose product leaves 32 or 64 bits.
const SHAPES: [(u64, u64); 24] = [
    (32, 32),
    (1024, 1),
    (1, 1024),
    (512, 2),
    (31, 33),
    (33, 31),
    (1025, 1),
    (1, 1025),
    (25, 41),
    (64, 16),
    (0, 0),
    (0, 1),
    (0, 4096),
    (4096, 0),
    (0, 4097),
    (4097, 0),
    (0, 5000),
    (0, 4294967295),
    (4294967295, 0),
    (0, 4294967296),
    (65536, 65536),
    (2147483648, 2),
    (4294967295, 4294967295),
    (4294967296, 4294967296),
];
const BYTES: &[u8] = b"0123456789,,,---+ \r\n\t./:;x\0\xff";

pub struct Inputs {
    random: Random,
    clock: i64,
    size: (u64, u64),
}

impl Inputs {
    pub fn new(seed: u64) -> Self {
        Self { random: Random(seed), clock: 0, size: (1, 1) }
    }

    pub fn below(&mut self, n: u64) -> u64 {
        self.random.next() % n
    }

    fn one_in(&mut self, n: u64) -> bool {
        self.below(n) == 0
    }

    pub fn pick<T: Copy>(&mut self, from: &[T]) -> T {
        from[self.below(from.len() as u64) as usize]
    }

    /// The lines of a session, until there are so many bytes: the last may lack its line feed.
    pub fn input(&mut self, lines: u64, bytes: usize) -> Vec<u8> {
        (self.clock, self.size) = (0, (1, 1));
        let mut input = Vec::new();
        for _ in 0..lines {
            input.extend(self.line());
            input.push(b'\n');
            if input.len() >= bytes {
                break;
            }
        }
        if self.one_in(2) {
            input.pop();
        }
        input
    }

    fn line(&mut self) -> Vec<u8> {
        let mut fields = self.frame();
        match self.below(24) {
            0 => return Vec::new(),
            1 => return (0..self.below(30)).map(|_| self.pick(BYTES)).collect(),
            2 => fields[0] = self.pick(&STAMPS).into(),
            3 => fields[1 + self.random.next() as usize % 2] = self.pick(&SIDES).into(),
            4 => self.other_value(&mut fields),
            5 => self.other_count(&mut fields),
            6 => self.zeros(&mut fields),
            _ => (),
        }
        let mut line = fields.join(",").into_bytes();
        if self.one_in(6) {
            for _ in 0..=self.below(3) {
                self.damage(&mut line);
            }
        }
        line
    }

    /// The next frame of a session, as fields. Sizes last for some frames; a shape of too many pixels gets few values.
    fn frame(&mut self) -> Vec<String> {
        if self.one_in(40) {
            self.size = self.pick(&SHAPES);
        } else if self.one_in(12) || self.size.0.saturating_mul(self.size.1) > 100 && self.one_in(3) {
            self.size = (self.below(5), self.below(5));
        }
        self.turn();
        let pixels = self.size.0.saturating_mul(self.size.1);
        let count = if pixels > 1025 { self.below(4) } else { pixels };
        let flat = self.pick(&[0, 80, 81, 82, 200, 255]);
        let noise = self.pick(&[1, 1, 1, 3, 256]);
        let mut fields = vec![self.clock.to_string(), self.size.0.to_string(), self.size.1.to_string()];
        fields.extend((0..count).map(|_| ((flat + self.below(noise)) % 256).to_string()));
        fields
    }

    fn turn(&mut self) {
        let step = match self.below(16) {
            0 => 1_000_000,
            1 => 999_999,
            2 => 1_000_001,
            3 => -(self.below(1_500_000) as i64),
            _ => self.below(1_500_000) as i64,
        };
        self.clock = match self.below(60) {
            0 => i64::MIN,
            1 => i64::MIN + 1_000_000,
            2 => i64::MAX,
            3 => i64::MAX - 1_500_000,
            4 => -1_000_000,
            _ => self.clock.saturating_add(step),
        };
    }

    fn other_value(&mut self, fields: &mut [String]) {
        let values = fields.len() as u64 - 3;
        if values > 0 {
            fields[3 + self.below(values) as usize] = self.pick(&VALUES).into();
        }
    }

    /// Some values, or even sides, too few or too many.
    fn other_count(&mut self, fields: &mut Vec<String>) {
        if self.one_in(2) {
            let most = fields.len() as u64;
            fields.truncate((most - 1 - self.below(most.min(5))) as usize);
        } else {
            let more = self.below(3) + 1;
            fields.extend((0..more).map(|_| self.below(256).to_string()));
        }
    }

    /// Leading zeros in one field: a few, up to about 8,192 bytes of the line, or far more.
    fn zeros(&mut self, fields: &mut [String]) {
        let length: usize = fields.iter().map(|f| f.len() + 1).sum::<usize>() - 1;
        let count = match self.below(16) {
            0..=9 => self.below(12) as usize,
            10..=14 => (8190 + self.below(5) as usize).saturating_sub(length),
            _ => 8192 + self.below(20_000) as usize,
        };
        let at = self.below(fields.len() as u64) as usize;
        let sign = usize::from(fields[at].starts_with('-'));
        fields[at].insert_str(sign, &"0".repeat(count));
    }

    /// A bit flipped, a byte dropped, doubled, replaced or put in, also at either end, or a comma moved.
    fn damage(&mut self, line: &mut Vec<u8>) {
        if line.is_empty() {
            return line.push(self.pick(BYTES));
        }
        let at = self.below(line.len() as u64) as usize;
        match self.below(8) {
            0 => line[at] ^= 1 << self.below(8),
            1 => drop(line.remove(at)),
            2 => line.insert(at, line[at]),
            3 => line[at] = self.pick(BYTES),
            4 => line.insert(at, self.pick(BYTES)),
            5 => line.insert(0, self.pick(BYTES)),
            6 => line.push(self.pick(BYTES)),
            _ => {
                if let Some(comma) = line.iter().position(|&b| b == b',') {
                    line.remove(comma);
                    line.insert(at.min(line.len()), b',');
                }
            }
        }
    }
}
