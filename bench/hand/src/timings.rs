//! Records of timings from the scoring package, rounded to fixed k = 15 by hand-written code: judged whole,
//! then stored.

use crate::{at, proportion, Answer, MARK, UNEQUAL_LENGTHS};

const PARTIAL_RECORD: u64 = 16;
const UNKNOWN_KIND: u64 = 17;
const BAD_NUMBER: u64 = 18;

/// A kind and two numbers, all lowest byte first.
type Record = [u8; 12];

/// The bits of 2^-10, 1 and 2^10. Numbers of sign 0 are ordered as their bits are; infinity's bits and those
/// of not-a-numbers and of sign 1 lie above.
const SMALLEST: u32 = 0x3a80_0000;
const ONE: u32 = 0x3f80_0000;
const END: u32 = 0x4480_0000;

/// The bits of a significand but the first, which is 1.
const FRACTION_BITS: u32 = 23;

/// The records, one for each word; stops 16 and 3.
#[inline]
fn records_of<'a>(bytes: &'a [u8], words: &[u64]) -> Result<&'a [Record], u64> {
    let (records, rest) = bytes.as_chunks();
    if !rest.is_empty() {
        return Err(PARTIAL_RECORD);
    }
    if records.len() != words.len() {
        return Err(UNEQUAL_LENGTHS);
    }
    Ok(records)
}

#[inline]
fn parts(record: &Record) -> [u32; 3] {
    let (parts, _) = record.as_chunks();
    [parts[0], parts[1], parts[2]].map(u32::from_le_bytes)
}

// One record after the other.

pub fn timings_by_record(bytes: &[u8], words: &mut [u64]) -> Answer {
    let records = records_of(bytes, words)?;
    check_each(records)?;
    store_each(records, words)
}

/// The stop of the first bad record.
fn check_each(records: &[Record]) -> Answer {
    for (place, record) in records.iter().enumerate() {
        numbers(record).map_err(at(place))?;
    }
    Ok(0)
}

fn store_each(records: &[Record], words: &mut [u64]) -> Answer {
    for (record, word) in records.iter().zip(words) {
        let (first, second) = numbers(record)?;
        *word = rounded(first, second);
    }
    Ok(0)
}

/// The bits of a good record's numbers: where the first is the ratio, 1 is the second.
#[inline]
fn numbers(record: &Record) -> Result<(u32, u32), u64> {
    let [kind, first, second] = parts(record);
    let second = match (kind, second) {
        (1, _) => second,
        (2, 0) => ONE,
        (2, _) => return Err(BAD_NUMBER),
        _ => return Err(UNKNOWN_KIND),
    };
    if first < SMALLEST || second < first || second >= END {
        return Err(BAD_NUMBER);
    }
    Ok((first, second))
}

/// The word of the ratio of two numbers, the second no smaller, in units of the first one's lowest bit.
#[inline]
fn rounded(first: u32, second: u32) -> u64 {
    let leading = 1 << FRACTION_BITS;
    let significand = |bits: u32| bits & (leading - 1) | leading;
    let exponents = (second >> FRACTION_BITS) - (first >> FRACTION_BITS);
    let whole = u64::from(significand(second)) << exponents;
    proportion(significand(first), whole).into()
}

// Many records at once.
//
// Euclid's algorithm goes through a block of records in step, a lane for each, until all lanes are done. It
// goes by floats, of which a processor divides four as fast as one: a and b of a lane are its remainders,
// multiples of its first number's lowest bit, and s and t the denominators of their convergents. By turns b is
// taken from a, and a from b, as often as the quotient says. Quotients are the nearest whole numbers, so that
// remainders and denominators have signs; there are 7 steps then for 10 with quotients rounded down. The
// convergents left out are those before a quotient of 1, and the last of them is looked for at the end. Nothing
// is inexact but a quotient before it is rounded, and what is too large to be held.

/// The lanes of a block: with fewer, divisions wait for one another; with more, lanes that are done wait for
/// the last one.
const LANES: usize = 64;

/// Fewer records than these take less time one after the other.
const MANY: usize = 8;

type Lanes = [f32; LANES];

const LARGEST: f32 = 32767.0;

pub fn timings(bytes: &[u8], words: &mut [u64]) -> Answer {
    let records = records_of(bytes, words)?;
    if !are_good(records) {
        return check_each(records);
    }
    let over = records.len() % LANES;
    let few = if over < MANY { over } else { 0 };
    let (records, few_records) = records.split_at(records.len() - few);
    let (words, few_words) = words.split_at_mut(records.len());
    if !records.is_empty() {
        store_blocks(records, words);
    }
    store_each(few_records, few_words)
}

/// One pass without a branch says whether all records are good; only otherwise the first bad one is found.
#[inline]
fn are_good(records: &[Record]) -> bool {
    records.iter().fold(true, |good, record| {
        let [kind, first, second] = parts(record);
        let known = kind.wrapping_sub(1) < 2;
        let of_ratio = if second == 0 { ONE } else { 0 };
        let second = if kind == 1 { second } else { of_ratio };
        good & known & (SMALLEST <= first) & (first <= second) & (second < END)
    })
}

fn store_blocks(records: &[Record], words: &mut [u64]) {
    let mut block = Block::empty();
    for (records, words) in records.chunks(LANES).zip(words.chunks_mut(LANES)) {
        block.store(records, words);
    }
}

struct Block {
    first: Lanes,
    second: Lanes,
    a: Lanes,
    b: Lanes,
    s: Lanes,
    t: Lanes,
    quotients: Lanes,
    words: [u32; LANES],
}

impl Block {
    /// A lane that never had a record has the ratio 1/1.
    fn empty() -> Block {
        let ones = [1.0; LANES];
        Block {
            first: ones,
            second: ones,
            a: ones,
            b: ones,
            s: ones,
            t: ones,
            quotients: ones,
            words: [0; LANES],
        }
    }

    /// Stores the words of good records, as many as there are lanes at most. The other lanes are worked too,
    /// for nothing, with numbers that they had before.
    fn store(&mut self, records: &[Record], words: &mut [u64]) {
        read(records, &mut self.first, &mut self.second);
        self.divide_all();
        end(&self.a, &self.b, &mut self.s, &self.t, &mut self.words);
        put_parts(&self.first, &self.second, &self.s, &mut self.words);
        for (word, &rounded) in words.iter_mut().zip(&self.words) {
            *word = u64::from(rounded);
        }
    }

    /// Goes on until no lane has a quotient whose convergent is held.
    fn divide_all(&mut self) {
        let Block { a, b, s, t, .. } = self;
        let quotients = &mut self.quotients;
        first_step(&self.first, &self.second, a, s);
        (*b, *t) = (self.first, [1.0; LANES]);
        divide_down(b, a, quotients);
        hold(quotients, t, s);
        loop {
            divide(a, b, quotients);
            if !hold(quotients, s, t) {
                break;
            }
            divide(b, a, quotients);
            if !hold(quotients, t, s) {
                break;
            }
        }
    }
}

// The loops over lanes. Each is a function that isn't put in place: so the compiler knows the arrays apart and
// goes through them four lanes at a time, where in place it unrolls the loops and goes lane by lane. What
// depends on each other is in two loops rather than in one, so that more lanes are under way at once.

/// The numbers of good records. Of kind 2 the second has no bits, and gets those of 1.
#[inline(never)]
fn read(records: &[Record], first: &mut Lanes, second: &mut Lanes) {
    for ((record, first), second) in records.iter().zip(first).zip(second) {
        let [kind, one, other] = parts(record);
        let of_ratio = ONE & (kind >> 1).wrapping_neg();
        *first = f32::from_bits(one);
        *second = f32::from_bits(other | of_ratio);
    }
}

/// The second numbers by the first, rounded down; what that leaves; and the quotients as denominators, behind
/// those of 1/0 and 0/1. This is done in 64 bits, as the numbers may lie 19 exponents apart. No quotient is
/// closer to a whole number above than 2^-24, and adding 2^52 rounds it. One that isn't held counts as 0.
#[inline(never)]
fn first_step(first: &Lanes, second: &Lanes, a: &mut Lanes, s: &mut Lanes) {
    const DOWN: f64 = 0.5 - 1.0 / (1 << 26) as f64;
    const WHOLE: f64 = (1_u64 << 52) as f64;
    for lane in 0..LANES {
        let (part, whole) = (f64::from(first[lane]), f64::from(second[lane]));
        let quotient = whole / part - DOWN + WHOLE - WHOLE;
        let held = quotient <= f64::from(LARGEST);
        let quotient = if held { quotient } else { 0.0 };
        a[lane] = (whole - quotient * part) as f32;
        s[lane] = quotient as f32;
    }
}

/// The second quotients are rounded down too: rounded up, they might make a product of 25 bits.
#[inline(never)]
fn divide_down(a: &Lanes, b: &Lanes, quotients: &mut Lanes) {
    for lane in 0..LANES {
        quotients[lane] = floor(a[lane] / b[lane]);
    }
}

/// Takes a from b by the last quotients, then divides a by b. The new quotients are the nearest whole
/// numbers, and from halfway those toward zero, as the list of convergents ends that way: a little is taken
/// off, more than a quotient is inexact by. Where that decides and not halfway, both are good.
#[inline(never)]
fn divide(a: &Lanes, b: &mut Lanes, quotients: &mut Lanes) {
    const LESS: f32 = 1.0 - 1.0 / (1 << 21) as f32;
    const WHOLE: f32 = 3.0 * (1 << (FRACTION_BITS - 1)) as f32;
    for lane in 0..LANES {
        b[lane] -= quotients[lane] * a[lane];
        quotients[lane] = (a[lane] * LESS / b[lane] + WHOLE) - WHOLE;
    }
}

/// Adds t to s by the quotients, puts 0 for each whose sum isn't held, and says whether another is left. A lane
/// with 0 is done, and stays as it is: the same quotient isn't held the next time either, nor is one by 0,
/// which is infinite, and that by the larger remainder is 0. (Just above halfway it may be 1, and the lane get
/// a convergent that was left out.)
#[inline(never)]
fn hold(quotients: &mut Lanes, s: &mut Lanes, t: &Lanes) -> bool {
    let mut left = 0;
    for lane in 0..LANES {
        let held = (s[lane] + quotients[lane] * t[lane]).abs() <= LARGEST;
        quotients[lane] = if held { quotients[lane] } else { 0.0 };
        s[lane] += quotients[lane] * t[lane];
        left |= quotients[lane].to_bits();
    }
    left != 0
}

/// Puts the last held denominator in s: the larger one, or the one behind it that was left out, which has the
/// quotient rounded down. Where nothing remains that is infinite, and the word has no mark.
#[inline(never)]
fn end(a: &Lanes, b: &Lanes, s: &mut Lanes, t: &Lanes, marks: &mut [u32; LANES]) {
    const SIGN: u32 = 1 << 31;
    for lane in 0..LANES {
        let bits = [a[lane], b[lane], s[lane], t[lane]].map(f32::to_bits);
        let sign = (bits[0] ^ bits[1] ^ bits[2] ^ bits[3]) & SIGN;
        let (larger, remainder) = sorted(a[lane], b[lane]);
        let (last, before) = sorted(s[lane], t[lane]);
        let before = f32::from_bits(before.to_bits() | sign);
        let behind = floor(larger / remainder) * last + before;
        s[lane] = if behind <= LARGEST { behind } else { last };
        marks[lane] = if remainder == 0.0 { 0 } else { MARK };
    }
}

/// Adds the fractions to the marks. A numerator is the whole number nearest to the denominator times the
/// ratio: that product lies no further off than 2^-15, and is inexact by at most 2^-8.
#[inline(never)]
fn put_parts(first: &Lanes, second: &Lanes, denominators: &Lanes, words: &mut [u32; LANES]) {
    // With this added a number is rounded, and its lowest bits are those of a whole number.
    const WHOLE: f32 = (1 << FRACTION_BITS) as f32;
    for lane in 0..LANES {
        let denominator = denominators[lane] + WHOLE;
        let numerator = denominators[lane] * (first[lane] / second[lane]) + WHOLE;
        words[lane] |= numerator.to_bits() << 16 | denominator.to_bits() & 0x7fff;
    }
}

/// The sizes of two numbers, the larger one first.
#[inline(always)]
fn sorted(one: f32, other: f32) -> (f32, f32) {
    let (one, other) = (one.abs(), other.abs());
    let larger = if one > other { one } else { other };
    let smaller = if one < other { one } else { other };
    (larger, smaller)
}

/// A number that isn't negative, rounded down; from 2^23 on it may be off by 1.
#[inline(always)]
fn floor(number: f32) -> f32 {
    const WHOLE: f32 = (1 << FRACTION_BITS) as f32;
    let nearest = (number + WHOLE) - WHOLE;
    nearest - if nearest > number { 1.0 } else { 0.0 }
}
