//! Breaths and recordings: small ones of every kind, long ones, and random ones, good and damaged.

use crate::calls::Harness;
use crate::inputs::Source;
use crate::texts;

/// The paper's recording.
pub const PAPERS: &str = "rate\t1024\n0\t277\t642\n4294967290\t10\t34\n100\t100\t100\n";

/// The largest rate, and the seconds of the longest breath that isn't void.
pub const MOST_TICKS: u64 = 4096;
const MOST_SECONDS: u64 = 120;

/// The largest part of a stored word.
const LARGEST_PART: u32 = 32767;

/// Numbers that are no rates; some are rates again when bits are dropped.
const STRANGE_RATES: [u64; 16] = [
    0,
    4097,
    4098,
    8192,
    40960,
    (1 << 16) + 1,
    1 << 32,
    (1 << 32) + 1,
    (1 << 32) + 1024,
    (1 << 32) + 4096,
    (1 << 52) + 1024,
    1 << 61,
    (1 << 61) + 1024,
    (1 << 63) + 1,
    (1 << 63) + 4096,
    u64::MAX,
];

/// First lines that are no rate lines, some without a line feed, and that of the largest rate.
const STRANGE_LINES: [&str; 40] = [
    "",
    "\n",
    "\t\n",
    "rate",
    "rate\n",
    "rate\t",
    "rate\t\n",
    "rate\t0\n",
    "rate\t00\n",
    "rate\t007\n",
    "rate\t01024\n",
    "rate\t4096\n",
    "rate\t4097\n",
    "rate\t4100\n",
    "rate\t5000\n",
    "rate\t10000\n",
    "rate\t65537\n",
    "rate\t4294967297\n",
    "rate\t4294968320\n",
    "rate\t18446744073709552640\n",
    "rate\t111111111111111111111111111\n",
    "rate\t1111111111111111111111111111\n",
    "rate\t1024",
    "rate\t1024\r\n",
    "rate\t1024 \n",
    "rate\t 1024\n",
    "rate\t+1\n",
    "rate\t-1\n",
    "rate\t1e3\n",
    "rate\t1024\t\n",
    "rate\t\t1024\n",
    "rate\t1024\t1024\n",
    "rate 1024\n",
    "rate1024\n",
    " rate\t1024\n",
    "Rate\t1024\n",
    "rat\t1024\n",
    "rates\t1024\n",
    "1024\n",
    "0\t277\t642\n",
];

/// Fields of a recording that are no tick marks or the last ones.
const STRANGE_FIELDS: [&str; 16] = [
    "",
    "0",
    "00",
    "01",
    "+1",
    "-1",
    "1 ",
    "4294967294",
    "4294967295",
    "4294967296",
    "4294967297",
    "4294967300",
    "5000000000",
    "10000000000",
    "18446744073709551617",
    "0\t0",
];

fn rate_line(rate: u64) -> String {
    format!("rate\t{rate}\n")
}

/// The ticks of the longest breath that isn't void, of a rate that is none some number.
pub fn longest(rate: u64) -> u32 {
    rate.wrapping_mul(MOST_SECONDS) as u32
}

/// The marks of a breath with these durations, on a clock of 32 bits.
fn marks(onset: u32, inward: u32, whole: u32) -> [u32; 3] {
    [onset, onset.wrapping_add(inward), onset.wrapping_add(whole)]
}

// The exhaustive part.

pub fn every_breath(harness: &mut Harness) {
    every_rate(harness);
    every_slow_breath(harness);
    every_large_part(harness);
}

/// A number of ticks with its neighbours.
fn around(ticks: u32) -> [u32; 3] {
    [ticks.wrapping_sub(1), ticks, ticks.wrapping_add(1)]
}

/// Every rate and some numbers that are none, with breaths whose durations lie at their limits, where the clock
/// starts again before, in and behind them.
fn every_rate(harness: &mut Harness) {
    for rate in (1..=MOST_TICKS).chain(STRANGE_RATES) {
        let wholes = [around(0), around(longest(rate)), [2, 1 << 31, 1 << 19]].concat();
        for &whole in &wholes {
            for inward in [around(0), around(whole)].concat() {
                let turns = [0, inward.wrapping_neg(), whole.wrapping_neg()];
                for onset in turns.into_iter().chain([1, u32::MAX]) {
                    harness.breath(rate, marks(onset, inward, whole));
                }
            }
        }
    }
}

/// Every breath of the slowest rates whose whole goes one tick past the limit, and its in one past the whole.
fn every_slow_breath(harness: &mut Harness) {
    for rate in 1..=3 {
        for whole in 0..=longest(rate) + 1 {
            for inward in 0..=whole + 1 {
                harness.breath(rate, marks(0, inward, whole));
            }
        }
    }
}

/// Every breath whose whole is about the largest that a word holds as it is.
fn every_large_part(harness: &mut Harness) {
    for whole in around(LARGEST_PART) {
        for inward in 0..=whole {
            harness.breath(MOST_TICKS, marks(u32::MAX, inward, whole));
        }
    }
}

pub fn every_recording(harness: &mut Harness, source: &mut Source) {
    for recording in texts::changed(PAPERS.as_bytes()) {
        harness.night(&recording, false);
    }
    every_rate_line(harness);
    every_short_recording(harness);
    long_recordings(harness, source);
}

/// Every rate line, with a breath of the longest whole and one a tick longer; strange lines in its place,
/// alone, before a breath, and before a rate line.
fn every_rate_line(harness: &mut Harness) {
    for rate in (0..=MOST_TICKS + 10).chain(STRANGE_RATES) {
        let (whole, overlong) = (longest(rate), longest(rate).wrapping_add(1));
        let recording = format!("{}0\t1\t{whole}\n0\t1\t{overlong}\n", rate_line(rate));
        harness.night(recording.as_bytes(), false);
    }
    for first in STRANGE_LINES {
        for rest in ["", "0\t277\t642\n", PAPERS] {
            harness.night(format!("{first}{rest}").as_bytes(), false);
        }
    }
}

/// Every recording of at most seven bytes that are digits 0 and 1, tabs and line feeds, alone and behind a rate
/// line; and every few bytes in the place of a rate.
fn every_short_recording(harness: &mut Harness) {
    for text in texts::short(b"01\t\n", 7) {
        harness.night(&text, false);
        harness.night(&[b"rate\t1\n", &text[..]].concat(), false);
    }
    for text in texts::short(b"04679\t\n", 5) {
        harness.night(&[b"rate\t", &text[..]].concat(), false);
    }
}

/// Recordings of about as many breaths as are allowed, good and damaged: random ones, and those of one breath.
fn long_recordings(harness: &mut Harness, source: &mut Source) {
    for breaths in 65533..=65539 {
        for damages in 0..2 {
            let mut recording = source.recording(breaths);
            (0..damages).for_each(|_| source.damage(&mut recording));
            harness.night(&recording, true);
        }
    }
    for line in [
        "4294967295\t4294967294\t4294967294\n",
        "0\t1\t2\n",
        "1\t0\t0\n",
        "0\t0\t0\n",
        "0\t32766\t32767\n",
        "0\t491520\t491520\n",
        "0\t491520\t491521\n",
    ] {
        for breaths in [65535, 65536, 65537] {
            harness.night(&alike(line, breaths, ""), true);
        }
        for rest in ["0", "\n", "rate\t1\n"] {
            harness.night(&alike(line, 65536, rest), true);
        }
    }
}

/// So many breaths of one line at the largest rate, and what stands behind them.
fn alike(line: &str, breaths: usize, rest: &str) -> Vec<u8> {
    [&rate_line(MOST_TICKS), &line.repeat(breaths), rest]
        .concat()
        .into_bytes()
}

// The random part.

pub fn random_breath(harness: &mut Harness, source: &mut Source) {
    let rate = match source.below(16) {
        0 => source.one_of(&STRANGE_RATES),
        1 => source.part(),
        _ => source.rate(),
    };
    let (inward, whole) = source.breath(rate);
    let any = source.part() as u32;
    let onset = source.one_of(&[0, any, inward.wrapping_neg(), whole.wrapping_neg()]);
    harness.breath(rate, marks(onset, inward, whole));
}

pub fn random_recording(harness: &mut Harness, source: &mut Source) {
    let breaths = source.below(9) as usize;
    let mut recording = source.recording(breaths);
    (0..source.below(3)).for_each(|_| source.damage(&mut recording));
    let whole_rest = source.below(1024) == 0;
    harness.night(&recording, whole_rest);
}

/// Puts another text in the place of the field that is there.
fn replace_field(recording: &mut Vec<u8>, place: usize, text: &[u8]) {
    let parts = |&byte: &u8| byte == b'\t' || byte == b'\n';
    let start = recording[..place]
        .iter()
        .rposition(parts)
        .map_or(0, |at| at + 1);
    let end = recording[place..]
        .iter()
        .position(parts)
        .map_or(recording.len(), |at| place + at);
    recording.splice(start..end, text.iter().copied());
}

impl Source {
    /// A rate: often the recorders' own, the largest, or one so small that most breaths are overlong.
    fn rate(&mut self) -> u64 {
        let any = 1 + self.below(MOST_TICKS);
        let small = 1 + self.below(16);
        self.one_of(&[any, any, small, 1024, MOST_TICKS])
    }

    /// A good recording of so many breaths.
    pub fn recording(&mut self, breaths: usize) -> Vec<u8> {
        let rate = self.rate();
        let mut recording = rate_line(rate);
        let mut onset = self.bits() as u32;
        for (inward, whole) in self.breaths(rate, breaths) {
            let [_, peak, next] = marks(onset, inward, whole);
            recording += &format!("{onset}\t{peak}\t{next}\n");
            onset = if self.below(8) == 0 {
                self.part() as u32
            } else {
                next
            };
        }
        recording.into_bytes()
    }

    /// The durations of a night's breaths, one time in eight such that the total's percentage is halfway
    /// between two tenths, or such that it rounds to one halfway.
    fn breaths(&mut self, rate: u64, count: usize) -> Vec<(u32, u32)> {
        if self.below(8) > 0 {
            return (0..count).map(|_| self.breath(rate)).collect();
        }
        let fraction = self.halfway();
        let multiples = (0..count).map(|_| self.multiple(fraction, longest(rate)));
        let mut breaths: Vec<(u32, u32)> = multiples.collect();
        if let Some((inward, _)) = breaths.last_mut() {
            *inward -= self.below(2) as u32;
        }
        breaths
    }

    /// The ticks of breathing in and of the whole breath: like a sleeper's, at the limit that the rate sets, or
    /// any.
    fn breath(&mut self, rate: u64) -> (u32, u32) {
        let longest = longest(rate);
        match self.below(8) {
            0 => (self.part() as u32, self.part() as u32),
            1 | 2 => self.at_limit(longest),
            3 | 4 => self.about_halfway(longest),
            5 => {
                let whole = (self.part() % (u64::from(longest) + 1)) as u32;
                (self.below(u64::from(whole) + 2) as u32, whole)
            }
            _ => {
                // From 2 to 8 seconds, of which 30 to 50 percent are in.
                let second = u64::from(longest / MOST_SECONDS as u32);
                let whole = 2 * second + self.below(6 * second + 1);
                ((whole * (30 + self.below(20)) / 100) as u32, whole as u32)
            }
        }
    }

    /// A whole at 0, at the longest or at the clock's end, and an in at 0, at the whole or between.
    fn at_limit(&mut self, longest: u32) -> (u32, u32) {
        let limit = self.one_of(&[0, longest, longest, longest]);
        let whole = limit.wrapping_add(self.below(7) as u32).wrapping_sub(3);
        let between = self.below(u64::from(whole) + 1) as u32;
        let inward = self.one_of(&[0, whole]);
        let inward = inward.wrapping_add(self.below(5) as u32).wrapping_sub(2);
        (self.one_of(&[between, inward]), whole)
    }

    /// A fraction whose percentage is halfway between two tenths.
    fn halfway(&mut self) -> (u32, u32) {
        let denominator = self.one_of(&[16, 80, 400, 2000]);
        (
            1 + 2 * self.below(denominator / 2) as u32,
            denominator as u32,
        )
    }

    /// Ticks in the proportion of a fraction, the whole no longer than the longest where that can be.
    fn multiple(&mut self, (numerator, denominator): (u32, u32), longest: u32) -> (u32, u32) {
        let most = (longest / denominator).max(1);
        let times = 1 + (self.part() % u64::from(most)) as u32;
        (times * numerator, times * denominator)
    }

    /// Ticks whose percentage is halfway between two tenths; or one tick off; or, of a whole breath of at most
    /// 15 bits, the ticks next to halfway.
    fn about_halfway(&mut self, longest: u32) -> (u32, u32) {
        let fraction = self.halfway();
        let (inward, whole) = self.multiple(fraction, longest);
        match self.below(4) {
            0 => (inward, whole),
            1 | 2 => (inward - 1 + 2 * self.below(2) as u32, whole),
            _ => {
                let (numerator, denominator) = fraction;
                let held = 1 + self.below(LARGEST_PART.into()) as u32;
                let below = held * numerator / denominator;
                (below + self.below(2) as u32, held)
            }
        }
    }

    /// Changes the rate line, a field or a byte, or cuts the recording off.
    pub fn damage(&mut self, recording: &mut Vec<u8>) {
        let place = self.below(recording.len() as u64 + 1) as usize;
        match self.below(6) {
            0 => self.damage_rate_line(recording),
            1 | 2 => {
                let strange = self.one_of(&STRANGE_FIELDS);
                replace_field(recording, place, strange.as_bytes());
            }
            _ => self.damage_byte(recording, place),
        }
    }

    /// Takes the first line out or puts it in twice, or puts a strange line or any number in its place.
    fn damage_rate_line(&mut self, recording: &mut Vec<u8>) {
        let line_feed = recording.iter().position(|&byte| byte == b'\n');
        let end = line_feed.map_or(recording.len(), |at| at + 1);
        let line = match self.below(8) {
            0 => Vec::new(),
            1 => recording[..end].repeat(2),
            2 => rate_line(self.part()).into_bytes(),
            3 => rate_line(self.below(2 * MOST_TICKS)).into_bytes(),
            _ => self.one_of(&STRANGE_LINES).into(),
        };
        recording.splice(..end, line);
    }

    /// Changes, takes out or puts in a byte, or cuts the recording off.
    fn damage_byte(&mut self, recording: &mut Vec<u8>, place: usize) {
        let any = self.bits() as u8;
        let byte = self.one_of(&[b'\t', b'\n', b'0', b'1', b'4', b'9', b' ', b'-', b'\r', any]);
        match self.below(8) {
            0..=2 if place < recording.len() => recording[place] = byte,
            3 | 4 if place < recording.len() => {
                recording.remove(place);
            }
            5 => recording.truncate(place),
            _ => recording.insert(place, byte),
        }
    }
}
