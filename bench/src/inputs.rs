//! The inputs that every contender gets: random, and the same in each run.

use crate::contenders::packed_fraction;

/// The ticks of a sleeper's clock in a second.
pub const RATE: u32 = 1024;

/// A source of random numbers (xorshift).
pub struct Source(u64);

impl Source {
    pub fn new(seed: u64) -> Source {
        Source(seed.wrapping_mul(0x9e37_79b9_7f4a_7c15) | 1)
    }

    fn bits(&mut self) -> u64 {
        self.0 ^= self.0 << 13;
        self.0 ^= self.0 >> 7;
        self.0 ^= self.0 << 17;
        self.0.wrapping_mul(0x2545_f491_4f6c_dd1d)
    }

    fn below(&mut self, end: u64) -> u64 {
        ((self.bits() as u128 * end as u128) >> 64) as u64
    }

    /// A number from 1 to 2^count - 1.
    fn part(&mut self, count: u64) -> u64 {
        (self.bits() >> (64 - count)).max(1)
    }

    /// A ratio whose parts have this many bits at most, the denominator not 0.
    pub fn ratio(&mut self, bits: u64) -> (u64, u64) {
        (self.part(bits), self.part(bits))
    }

    /// The inputs of a fraction that a format holds, of either sign, marked or not.
    pub fn fraction(&mut self, (kind, k): (u64, u64)) -> (u64, u64) {
        let (sign, mark) = (self.below(2), self.below(2));
        let bits = if kind == 1 { k } else { k / 2 };
        packed_fraction(sign, mark, self.ratio(bits))
    }

    /// A good word: a fraction, and one time in 16 a zero, an infinity or a not-a-number.
    pub fn word(&mut self, (kind, k): (u64, u64)) -> u64 {
        let special = self.below(16) == 0;
        let which = self.below(3);
        let (sign, mark) = (self.below(2), self.below(2));
        if kind == 1 {
            let (r, s) = match (special, which) {
                (false, _) => (self.part(k), self.part(k)),
                (true, 0) => (0, 1),
                (true, 1) => (1, 0),
                (true, _) => (0, 0),
            };
            return sign << (2 * k + 1) | r << (k + 1) | mark << k | s;
        }
        let slash_bits = 64 - u64::from((k - 1).leading_zeros());
        let top = (sign * 2 + mark) << (k + slash_bits - 1);
        if special {
            let e = if which == 0 { 0 } else { (1 << slash_bits) - 1 };
            return top | e << (k - 1) | which >> 1;
        }
        let r_bits = 1 + self.below(k - 1);
        let (r, s) = (self.part(r_bits), self.part(k - r_bits));
        let e = 63 - u64::from(s.leading_zeros());
        top | e << (k - 1) | r << e | (s ^ 1 << e)
    }

    /// The recording of so many of a sleeper's breaths.
    pub fn recording(&mut self, breaths: usize) -> Vec<u8> {
        let mut recording = format!("rate\t{RATE}\n");
        for [onset, peak, next] in self.marks(breaths) {
            recording += &format!("{onset}\t{peak}\t{next}\n");
        }
        recording.into_bytes()
    }

    /// The marks of breaths like a sleeper's, of a clock that starts again once in a night.
    pub fn marks(&mut self, breaths: usize) -> Vec<[u32; 3]> {
        let (mut onset, mut period) = (u32::MAX - 100_000_000, 4000);
        let mut breath = || {
            period = (period + self.below(401)).clamp(2700, 6200) - 200;
            let whole = period + self.below(300);
            let inward = whole * (330 + self.below(170)) / 1000;
            // Now and then the peak is missed, and the breath is void.
            let inward = if self.below(500) == 0 {
                whole + 7
            } else {
                inward
            };
            let marks = marks_of(onset, inward, whole);
            onset = marks[2];
            marks
        };
        (0..breaths).map(|_| breath()).collect()
    }

    /// A rate, which now and then is none, and the marks of a breath: void or not, short as likely as long, and
    /// one time in 16 as long as a word's largest part or one tick longer.
    pub fn any_breath(&mut self) -> (u32, [u32; 3]) {
        let rate = self.between(0, 4097);
        let end = 1 << self.below(21);
        let whole = match self.below(16) {
            0 => 32767 + self.below(2),
            _ => self.below(end),
        };
        let (onset, inward) = (self.bits() as u32, self.below(whole + 2));
        (rate, marks_of(onset, inward, whole))
    }

    /// A record of a breath like a sleeper's: 0.5 to 4 seconds in, 2 to 8 in all.
    pub fn breath_record(&mut self) -> [u8; 12] {
        loop {
            let inward = 0.5 + 3.5 * self.share();
            let whole = 2.0 + 6.0 * self.share();
            if inward <= whole {
                return record([1, inward.to_bits(), whole.to_bits()]);
            }
        }
    }

    /// A good record of either kind, each pattern of bits being as likely as any other.
    pub fn any_record(&mut self) -> [u8; 12] {
        if self.below(2) == 0 {
            let [one, other] = [(); 2].map(|()| self.between(SMALLEST, END - 1));
            return record([1, one.min(other), one.max(other)]);
        }
        record([2, self.between(SMALLEST, ONE), 0])
    }

    /// A number from 0 to below 1, of 24 bits.
    fn share(&mut self) -> f32 {
        self.below(1 << 24) as f32 / (1 << 24) as f32
    }

    fn between(&mut self, first: u32, last: u32) -> u32 {
        first + self.below(u64::from(last - first) + 1) as u32
    }
}

/// The bits of 2^-10, 1 and 2^10.
const SMALLEST: u32 = 0x3a80_0000;
const ONE: u32 = 0x3f80_0000;
const END: u32 = 0x4480_0000;

/// The marks of a breath with these durations.
fn marks_of(onset: u32, inward: u64, whole: u64) -> [u32; 3] {
    [0, inward, whole].map(|ticks| onset.wrapping_add(ticks as u32))
}

/// The bytes of a record: its kind and the bits of its numbers.
pub fn record(parts: [u32; 3]) -> [u8; 12] {
    let mut bytes = [0; 12];
    for (place, part) in bytes.chunks_mut(4).zip(parts) {
        place.copy_from_slice(&part.to_le_bytes());
    }
    bytes
}
