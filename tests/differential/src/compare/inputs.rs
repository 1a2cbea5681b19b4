//! Random formats, codes, words and vectors, the same for the same seed.

use differential::paper::{self, all_formats, Format, Kind};

/// A source of random numbers (xorshift) and of what is made of them.
pub struct Source {
    state: u64,
    formats: Vec<Format>,
}

/// Numbers of kinds and k that no format has, and codes that no operation has; some are good ones again
/// when bits are dropped.
pub const STRANGE: [u64; 14] = [
    0,
    1,
    2,
    3,
    5,
    8,
    32,
    33,
    64,
    257,
    258,
    (1 << 32) + 1,
    (1 << 63) + 2,
    u64::MAX,
];

impl Source {
    pub fn new(seed: u64) -> Source {
        let state = seed.wrapping_mul(0x9e37_79b9_7f4a_7c15) | 1;
        Source {
            state,
            formats: all_formats().collect(),
        }
    }

    /// 64 random bits.
    pub fn bits(&mut self) -> u64 {
        self.state ^= self.state << 13;
        self.state ^= self.state >> 7;
        self.state ^= self.state << 17;
        self.state.wrapping_mul(0x2545_f491_4f6c_dd1d)
    }

    /// A random number below the end.
    pub fn below(&mut self, end: u64) -> u64 {
        ((self.bits() as u128 * end as u128) >> 64) as u64
    }

    pub fn one_of<T: Copy>(&mut self, things: &[T]) -> T {
        things[self.below(things.len() as u64) as usize]
    }

    /// A number of at most so many bits.
    fn of_bits(&mut self, count: u64) -> u64 {
        self.bits().checked_shr(64 - count as u32).unwrap_or(0)
    }

    /// A number of a random bit count.
    pub fn part(&mut self) -> u64 {
        let count = self.below(65);
        self.of_bits(count)
    }

    /// The kind and k of a format, one time in 64 of none.
    pub fn format(&mut self) -> (u64, u64) {
        if self.below(64) == 0 {
            return (self.one_of(&STRANGE), self.one_of(&STRANGE));
        }
        let at = self.below(self.formats.len() as u64) as usize;
        (self.formats[at].kind_number(), self.formats[at].k.into())
    }

    /// The kind and k of a floating format, one time in eight of any or of none.
    pub fn floating_format(&mut self) -> (u64, u64) {
        match self.below(8) {
            0 => self.format(),
            _ => (2, 2 + self.below(31)),
        }
    }

    /// A code from 1 to the last, one time in 64 some other number.
    pub fn code(&mut self, last: u64) -> u64 {
        self.number_in(1, last)
    }

    /// A number from the first to the last, one time in 64 some other.
    pub fn number_in(&mut self, first: u64, last: u64) -> u64 {
        if self.below(64) == 0 {
            return self.one_of(&STRANGE);
        }
        first + self.below(last - first + 1)
    }

    // Words.

    /// A word of the format of this kind and k: a good one, or now and then one that stops.
    pub fn word(&mut self, (kind, k): (u64, u64)) -> u64 {
        let Ok(form) = paper::format(kind, k) else {
            return self.bits();
        };
        if self.below(64) == 0 {
            return self.bits() >> self.below(64);
        }
        self.word_of(form)
    }

    /// A word that mostly is good.
    pub fn word_of(&mut self, form: Format) -> u64 {
        let random = self.bits() >> (64 - form.width());
        match self.below(8) {
            0..=2 => random,
            3 => self.special(form, random),
            _ => {
                let pair = self.pair(form);
                paper::pair_word(form, self.below(2) == 1, pair, self.below(2) == 1)
            }
        }
    }

    /// A zero, an infinity or a not-a-number, mostly with a message, from a random word.
    fn special(&mut self, form: Format, random: u64) -> u64 {
        let low = (1u64 << form.k) - 1;
        match form.kind {
            Kind::Fixed => match self.below(3) {
                0 => random & !low,
                1 => random & !(low << (form.k + 1)),
                _ => random & (1 << (2 * form.k + 1) | 1 << form.k),
            },
            Kind::Floating => {
                let f = random & (low >> 1);
                let top = (1u64 << (form.width() - 2)) - (1 << (form.k - 1));
                let few = f >> self.below(form.k.into());
                self.one_of(&[random | top, random & !f & !top | few, top | few])
            }
        }
    }

    /// A held pair, neither part 0, whose parts have random bit counts, often the largest, and one time in
    /// four a common factor of random size: chance alone makes no large one.
    pub fn pair(&mut self, form: Format) -> paper::Pair {
        let k = u64::from(form.k);
        let (numerator, denominator) = match (form.kind, self.below(2)) {
            (Kind::Fixed, 0) => (k, k),
            (Kind::Fixed, _) => (1 + self.below(k), 1 + self.below(k)),
            (Kind::Floating, wide) => {
                let numerator = 1 + self.below(k - 1);
                let left = k - numerator;
                (
                    numerator,
                    if wide == 0 {
                        left
                    } else {
                        1 + self.below(left)
                    },
                )
            }
        };
        let common = match self.below(4) {
            0 => self.below(numerator.min(denominator)),
            _ => 0,
        };
        let factor = self.of_bits(common).max(1);
        let mut part = |count| u128::from(self.of_bits(count - common).max(1) * factor);
        (part(numerator), part(denominator))
    }

    /// Two words, one time in four the second made from the first.
    pub fn operands(&mut self, form: (u64, u64)) -> (u64, u64) {
        let left = self.word(form);
        let right = match self.below(16) {
            0 => left,
            1 => self.changed(form, 1, left),
            2 => self.changed(form, 3, left),
            3 => left ^ 1 << self.below(64),
            _ => self.word(form),
        };
        (left, right)
    }

    /// The word with its sign turned or its value's reciprocal, or another where that stops.
    fn changed(&mut self, form: (u64, u64), code: u64, word: u64) -> u64 {
        let changed = paper::format(form.0, form.1).and_then(|form| paper::unary(form, code, word));
        changed.unwrap_or_else(|_| self.word(form))
    }

    // Vectors.

    /// The length of a vector: mostly small, now and then some hundreds.
    pub fn length(&mut self) -> usize {
        let end = if self.below(64) == 0 { 400 } else { 20 };
        self.below(end) as usize
    }

    /// The length of a vector beside it, one time in 16 another.
    pub fn other_length(&mut self, length: usize) -> usize {
        match self.below(48) {
            0 => length + 1,
            1 => length.saturating_sub(1),
            2 => self.length(),
            _ => length,
        }
    }

    /// A vector, half the time of good words only, else with some that stop.
    pub fn vector(&mut self, (kind, k): (u64, u64), length: usize) -> Vec<u64> {
        let Ok(form) = paper::format(kind, k) else {
            return (0..length).map(|_| self.bits()).collect();
        };
        let mut words: Vec<u64> = (0..length).map(|_| self.good_word(form)).collect();
        for _ in 0..self.below(4).saturating_sub(1) {
            if length > 0 {
                let place = self.below(length as u64) as usize;
                words[place] = self.bits() >> self.below(64);
            }
        }
        words
    }

    fn good_word(&mut self, form: Format) -> u64 {
        loop {
            let word = self.word_of(form);
            if paper::read(form, word).is_ok() {
                return word;
            }
        }
    }
}
