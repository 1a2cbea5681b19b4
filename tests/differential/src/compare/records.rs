//! Records of timings: all pairs of edge numbers, small ratios, lengths, and random vectors, good and damaged.

use crate::calls::Harness;
use crate::inputs::Source;

const RECORD_BYTES: usize = 12;

/// The bits of 2^-10, 1, 2^10 and infinity, and the sign's.
const SMALLEST: u32 = 0x3a80_0000;
const ONE: u32 = 0x3f80_0000;
const END: u32 = 0x4480_0000;
const INFINITE: u32 = 0x7f80_0000;
const SIGN: u32 = 0x8000_0000;

/// The bits of a significand.
const SIGNIFICAND: u32 = 23;

/// Both kinds, and others that are like them where bytes are dropped or turned round.
const KINDS: [u32; 6] = [0, 1, 2, 3, 0x0100_0000, u32::MAX];

/// Kinds for the random part, with more that differ from known ones in one byte.
const STRANGE_KINDS: [u32; 8] = [
    0,
    3,
    0x0100_0000,
    0x0200_0000,
    257,
    258,
    0x0001_0002,
    u32::MAX,
];

/// The longest vectors of the exhaustive part.
const MOST_RECORDS: usize = 70;

fn record(kind: u32, first: u32, second: u32) -> Vec<u8> {
    let parts = [kind, first, second];
    parts.iter().flat_map(|part| part.to_le_bytes()).collect()
}

/// A record of kind 1 whose numbers are ticks of 1024 a second: good up to 2^20 - 1 ticks, and its ratio is
/// that of the ticks where each has at most 24 bits.
fn ticks(inward: u32, whole: u32) -> Vec<u8> {
    let seconds = |ticks: u32| (ticks as f32 / 1024.0).to_bits();
    record(1, seconds(inward), seconds(whole))
}

// The exhaustive part.

pub fn every_record(harness: &mut Harness) {
    every_pair_of_numbers(harness);
    every_good_pair(harness);
    every_exponent(harness);
    every_small_ratio(harness);
    every_length(harness);
    every_few_records(harness);
    every_bad_place(harness);
}

/// No bits, all bits, and each bit alone.
fn significands() -> impl Iterator<Item = u32> {
    let bits = (0..SIGNIFICAND).map(|place| 1 << place);
    [0, (1 << SIGNIFICAND) - 1].into_iter().chain(bits)
}

/// The bits of the numbers at the ends of each range and of each class of numbers, of both signs, with their
/// neighbours, and those of every exponent from the one below the ranges to the one above.
fn edge_numbers() -> Vec<u32> {
    let smallest_normal = 1 << SIGNIFICAND;
    let quiet = INFINITE | 1 << (SIGNIFICAND - 1);
    let ends = [0, smallest_normal, SMALLEST, ONE, END, INFINITE, quiet];
    let signed = ends.into_iter().flat_map(|bits| [bits, bits | SIGN]);
    let around = signed.flat_map(|bits| [bits.wrapping_sub(1), bits, bits.wrapping_add(1)]);
    let exponents = (SMALLEST >> SIGNIFICAND) - 1..=END >> SIGNIFICAND;
    let inner = exponents.flat_map(|e| significands().map(move |bits| e << SIGNIFICAND | bits));
    let mut numbers: Vec<u32> = around.chain(inner).collect();
    numbers.sort_unstable();
    numbers.dedup();
    numbers
}

/// All pairs of edge numbers with every kind, each alone in a record.
fn every_pair_of_numbers(harness: &mut Harness) {
    let numbers = edge_numbers();
    for kind in KINDS {
        for &first in &numbers {
            for &second in &numbers {
                harness.timings(&record(kind, first, second), 1);
            }
        }
    }
}

/// The good pairs among them as vectors: a form that works many records at once has them at all its places.
fn every_good_pair(harness: &mut Harness) {
    let mut numbers = edge_numbers();
    numbers.retain(|bits| (SMALLEST..END).contains(bits));
    let up_to = |&last: &u32| numbers.iter().take_while(move |&&bits| bits <= last);
    let timings = numbers
        .iter()
        .flat_map(|second| up_to(second).map(|&first| record(1, first, *second)));
    let ratios = up_to(&ONE).map(|&ratio| record(2, ratio, 0));
    let records: Vec<Vec<u8>> = timings.chain(ratios).collect();
    for vector in records.chunks(MOST_RECORDS) {
        harness.timings(&vector.concat(), vector.len());
    }
}

/// Every exponent there is, with either sign and each of the significands, as either number of both kinds
/// beside some that are good.
fn every_exponent(harness: &mut Harness) {
    let heads = 0..1 << (u32::BITS - SIGNIFICAND);
    let numbers = heads.flat_map(|head| significands().map(move |bits| head << SIGNIFICAND | bits));
    for number in numbers {
        for other in [0, SMALLEST, ONE, ONE + 0x0032_1fdb, END - 1] {
            for kind in [1, 2] {
                harness.timings(&record(kind, number, other), 1);
                harness.timings(&record(kind, other, number), 1);
            }
        }
    }
}

/// Ratios of small parts, and of parts about the largest that are held.
fn every_small_ratio(harness: &mut Harness) {
    for whole in 1..=128 {
        for inward in 1..=whole {
            harness.timings(&ticks(inward, whole), 1);
        }
    }
    for whole in (32750..=32790).chain(65520..=65550) {
        let about = |part: u32| part - 1..=(part + 1).min(whole);
        let parts = (1..=40).chain(about(whole / 3)).chain(about(whole / 2));
        for inward in parts.chain(whole - 40..=whole) {
            harness.timings(&ticks(inward, whole), 1);
        }
    }
}

/// Byte counts up to 40 with up to four places, of good records and of two sorts of bad ones.
fn every_length(harness: &mut Harness) {
    for one in [
        record(1, ONE, ONE + 1),
        record(2, SMALLEST, 0),
        record(0, ONE, ONE),
        record(1, ONE, 0),
    ] {
        let records = one.repeat(4);
        for bytes in 0..=40 {
            for places in 0..=4 {
                harness.timings(&records[..bytes], places);
            }
        }
    }
}

/// Every vector of at most three of some records, with up to four places.
fn every_few_records(harness: &mut Harness) {
    let some = [
        record(1, ONE, END - 1),
        record(2, ONE - 1, 0),
        record(3, ONE, ONE),
        record(0x0200_0000, ONE, 0),
        record(1, ONE + 1, ONE),
        record(2, ONE, SIGN),
    ];
    let mut vectors = vec![Vec::new()];
    let mut last = vectors.clone();
    for _ in 0..3 {
        let longer = |vector: &Vec<u8>| some.each_ref().map(|one| [&vector[..], &one[..]].concat());
        last = last.iter().flat_map(longer).collect();
        vectors.extend_from_slice(&last);
    }
    for vector in &vectors {
        for places in 0..=4 {
            harness.timings(vector, places);
        }
    }
}

/// Vectors of every length up to the longest, all good, and with a bad record at each place.
fn every_bad_place(harness: &mut Harness) {
    for count in 0..=MOST_RECORDS {
        let good: Vec<Vec<u8>> = (0..count as u32).map(good_record).collect();
        harness.timings(&good.concat(), count);
        for place in 0..count {
            for bad in [record(0, ONE, ONE), record(1, ONE, ONE - 1)] {
                let mut records = good.clone();
                records[place] = bad;
                harness.timings(&records.concat(), count);
            }
        }
    }
}

/// A good record for a place, those of one vector unlike: of every third the number is the ratio.
fn good_record(place: u32) -> Vec<u8> {
    let scattered = place.wrapping_mul(0x9e37_79b9);
    match place % 3 {
        0 => record(2, ONE - 1 - (scattered >> 6), 0),
        _ => ticks(1 + (scattered >> 20), 1 << 19 | scattered >> 13),
    }
}

// The random part.

pub fn random_records(harness: &mut Harness, source: &mut Source) {
    let count = match source.below(64) {
        0 => source.length(),
        _ => source.below(10) as usize,
    };
    let mut records: Vec<u8> = (0..count).flat_map(|_| source.good_record()).collect();
    for _ in 0..source.below(4).saturating_sub(1) {
        source.damage_records(&mut records);
    }
    let places = source.other_length(count);
    harness.timings(&records, places);
}

impl Source {
    fn good_record(&mut self) -> Vec<u8> {
        match self.below(8) {
            0..=2 => {
                let (one, other) = (self.timing(), self.timing());
                record(1, one.min(other), one.max(other))
            }
            3 => self.near_record(),
            4 | 5 => self.ticks_record(),
            6 => record(2, self.between(SMALLEST, ONE), 0),
            _ => self.fraction_record(),
        }
    }

    /// A number from the first to the last.
    fn between(&mut self, first: u32, last: u32) -> u32 {
        first + self.below(u64::from(last - first) + 1) as u32
    }

    /// The bits of a timing: any, a sleeper's, one of few bits, or at an end.
    fn timing(&mut self) -> u32 {
        let any = self.between(SMALLEST, END - 1);
        match self.below(8) {
            0..=3 => any,
            4 | 5 => self.between(ONE - (1 << SIGNIFICAND), ONE + (3 << SIGNIFICAND)),
            6 => {
                let dropped = self.below(u64::from(SIGNIFICAND) + 1);
                any >> dropped << dropped
            }
            _ => self.one_of(&[SMALLEST, SMALLEST + 1, ONE - 1, ONE, ONE + 1, END - 1]),
        }
        .clamp(SMALLEST, END - 1)
    }

    /// A record whose timings have bits that are almost the same.
    fn near_record(&mut self) -> Vec<u8> {
        let whole = self.timing();
        let count = self.below(u64::from(SIGNIFICAND));
        let less = self.below(1 << count) as u32;
        record(1, whole.saturating_sub(less).max(SMALLEST), whole)
    }

    /// A record of ticks, the whole mostly of about as many bits as are held.
    fn ticks_record(&mut self) -> Vec<u8> {
        let any = 1 + self.below(20);
        let bits = self.one_of(&[any, 15, 16, 17]);
        let whole = 1 + self.below((1 << bits) - 1) as u32;
        let inward = match self.below(4) {
            0 => self.below(u64::from(whole).min(8)) as u32,
            1 => whole - 1 - self.below(u64::from(whole).min(8)) as u32,
            _ => self.below(whole.into()) as u32,
        };
        ticks(1 + inward, whole)
    }

    /// A ratio that is the number nearest to some fraction, or next to that.
    fn fraction_record(&mut self) -> Vec<u8> {
        let bits = 1 + self.below(17);
        let d = 1 + self.below((1 << bits) - 1);
        let n = 1 + self.below(d);
        let nearest = (n as f32 / d as f32).to_bits();
        let next = nearest + self.below(3) as u32 - 1;
        record(2, next.clamp(SMALLEST, ONE), 0)
    }

    /// Changes a part or a bit of some record, trades its numbers, or changes the byte count.
    fn damage_records(&mut self, records: &mut Vec<u8>) {
        let place = self.below(records.len() as u64 + 1) as usize;
        let start = place - place % RECORD_BYTES;
        let strange = self.strange_number();
        let number = start + 4 + 4 * self.below(2) as usize;
        let change = self.below(16);
        let Some(one) = records.get_mut(start..start + RECORD_BYTES) else {
            return records.truncate(place);
        };
        match change {
            0..=3 => one[..4].copy_from_slice(&self.one_of(&STRANGE_KINDS).to_le_bytes()),
            4 => one[0] ^= 3,
            5..=9 => records[number..number + 4].copy_from_slice(&strange.to_le_bytes()),
            10 | 11 => one[4..].rotate_left(4),
            12..=14 => records[place] ^= 1 << self.below(8),
            _ => records.truncate(place),
        }
    }

    /// The bits of a number that mostly is in no range.
    fn strange_number(&mut self) -> u32 {
        let any = self.bits() as u32;
        let ends = [0, SIGN, SMALLEST - 1, ONE + 1, END, INFINITE, 1, any];
        let negative = self.one_of(&[0, 0, 0, SIGN]);
        self.one_of(&ends) | negative
    }
}
