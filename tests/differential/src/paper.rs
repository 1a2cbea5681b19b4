//! Slash arithmetic from documents 00 and 01 alone: formats, words, rounding, operations, vectors; and from
//! 02 the twisted storage of words (CR 4) and the count alone of the quotients (CR 6).
//!
//! Nothing here goes by convergents but `convergents` itself: a rounded pair is found by what demand 3
//! says of it. Numbers are 128 bits wide, so that no product of parts and ratios can wrap.

use std::cmp::Ordering;
use std::sync::OnceLock;

/// A refused call: the number of the stop and its place.
#[derive(Clone, Copy, Debug, PartialEq, Eq)]
pub struct Stop {
    pub number: u64,
    pub place: u64,
}

pub type Answer<T> = Result<T, Stop>;

/// A numerator and a denominator.
pub type Pair = (u128, u128);

const INFINITY: Pair = (1, 0);

fn stop<T>(number: u64) -> Answer<T> {
    Err(Stop { number, place: 0 })
}

// Formats.

#[derive(Clone, Copy, Debug, PartialEq, Eq)]
pub enum Kind {
    Fixed,
    Floating,
}

#[derive(Clone, Copy, Debug, PartialEq, Eq)]
pub struct Format {
    pub kind: Kind,
    pub k: u32,
}

/// The format of this kind and k; stop 1 if there is none.
pub fn format(kind: u64, k: u64) -> Answer<Format> {
    match (kind, k) {
        (1, 2..=31) => Ok(Format {
            kind: Kind::Fixed,
            k: k as u32,
        }),
        (2, 2..=32) => Ok(Format {
            kind: Kind::Floating,
            k: k as u32,
        }),
        _ => stop(1),
    }
}

/// Every format there is.
pub fn all_formats() -> impl Iterator<Item = Format> {
    (1..=2).flat_map(|kind| (2..=32).filter_map(move |k| format(kind, k).ok()))
}

impl Format {
    /// The number by which a caller names the kind.
    pub fn kind_number(self) -> u64 {
        match self.kind {
            Kind::Fixed => 1,
            Kind::Floating => 2,
        }
    }

    /// L, the bits of a floating word's slash position.
    fn slash_bits(self) -> u32 {
        self.k.next_power_of_two().trailing_zeros()
    }

    /// The number of bits in a word.
    pub fn width(self) -> u32 {
        match self.kind {
            Kind::Fixed => 2 * self.k + 2,
            Kind::Floating => self.k + self.slash_bits() + 1,
        }
    }

    /// The largest numerator, and the largest denominator, of the held pairs with a denominator.
    pub fn largest_part(self) -> u128 {
        match self.kind {
            Kind::Fixed => (1 << self.k) - 1,
            Kind::Floating => (1 << (self.k - 1)) - 1,
        }
    }

    /// Whether the format holds the pair.
    pub fn holds(self, (r, s): Pair) -> bool {
        if s == 0 {
            return r == 1;
        }
        match self.kind {
            Kind::Fixed => r >> self.k == 0 && s >> self.k == 0,
            Kind::Floating => bits(r) + bits(s) <= self.k,
        }
    }
}

/// The bits of a number without leading zeros; 0 counts one bit.
fn bits(number: u128) -> u32 {
    (128 - number.leading_zeros()).max(1)
}

// Words.

/// A value without its sign; a zero is 0/1.
#[derive(Clone, Copy, Debug, PartialEq, Eq)]
pub enum Size {
    Finite(Pair),
    Infinite,
    NotANumber,
}

use Size::{Finite, Infinite, NotANumber};

/// What a word stands for.
#[derive(Clone, Copy, Debug, PartialEq, Eq)]
pub struct Number {
    pub negative: bool,
    pub marked: bool,
    pub size: Size,
}

const NOT_A_NUMBER: Number = Number {
    negative: false,
    marked: false,
    size: NotANumber,
};

/// The bits of a word from `low` on, so many of them.
fn field(word: u64, low: u32, count: u32) -> u128 {
    (word as u128 >> low) & ((1 << count) - 1)
}

/// What a word stands for; stops 4 and 5.
pub fn read(form: Format, word: u64) -> Answer<Number> {
    let width = form.width();
    if word as u128 >> width != 0 {
        return stop(4);
    }
    let negative = field(word, width - 1, 1) == 1;
    let k = form.k;
    let (mark, size) = match form.kind {
        Kind::Fixed => (
            field(word, k, 1),
            fixed_size(field(word, k + 1, k), field(word, 0, k)),
        ),
        Kind::Floating => {
            let (e, f) = (field(word, k - 1, form.slash_bits()), field(word, 0, k - 1));
            (field(word, width - 2, 1), floating_size(form, e, f)?)
        }
    };
    Ok(Number {
        negative,
        marked: mark == 1,
        size,
    })
}

/// The fields of a good word, the highest first.
pub fn fields(form: Format, word: u64) -> [u128; 4] {
    let (top, k) = (form.width() - 1, form.k);
    match form.kind {
        Kind::Fixed => [(top, 1), (k + 1, k), (k, 1), (0, k)],
        Kind::Floating => [
            (top, 1),
            (top - 1, 1),
            (k - 1, form.slash_bits()),
            (0, k - 1),
        ],
    }
    .map(|(low, count)| field(word, low, count))
}

fn fixed_size(numerator: u128, denominator: u128) -> Size {
    match (numerator, denominator) {
        (0, d) if d % 2 == 1 => Finite((0, 1)),
        (n, 0) if n % 2 == 1 => Infinite,
        (0, _) | (_, 0) => NotANumber,
        pair => Finite(pair),
    }
}

fn floating_size(form: Format, e: u128, f: u128) -> Answer<Size> {
    if e + 1 == 1 << form.slash_bits() {
        return Ok(if f.is_multiple_of(2) {
            Infinite
        } else {
            NotANumber
        });
    }
    if e > form.k as u128 - 2 {
        return stop(5);
    }
    let power = 1 << e;
    Ok(match f / power {
        0 => Finite((0, 1)),
        numerator => Finite((numerator, f % power + power)),
    })
}

/// The canonical word of a number, a finite one being rounded; stop 6 for n/0.
pub fn write(form: Format, number: Number) -> Answer<u64> {
    let Number {
        negative,
        marked,
        size,
    } = number;
    match size {
        NotANumber => Ok(not_a_number_word(form)),
        Infinite => Ok(pair_word(form, negative, INFINITY, marked)),
        Finite((_, 0)) => stop(6),
        Finite((n, d)) => {
            let pair = rounded(form, n, d);
            Ok(pair_word(
                form,
                negative,
                pair,
                marked || miss(pair, n, d) != 0,
            ))
        }
    }
}

fn not_a_number_word(form: Format) -> u64 {
    match form.kind {
        Kind::Fixed => 0,
        Kind::Floating => floating_word(form, false, false, (1 << form.slash_bits()) - 1, 1),
    }
}

/// The word of a held pair, as it stands.
pub fn pair_word(form: Format, negative: bool, (r, s): Pair, marked: bool) -> u64 {
    match form.kind {
        Kind::Fixed => {
            let k = form.k;
            let upper = ((((negative as u128) << k) + r) << 1) + marked as u128;
            ((upper << k) + s) as u64
        }
        Kind::Floating if s == 0 => {
            floating_word(form, negative, marked, (1 << form.slash_bits()) - 1, 0)
        }
        Kind::Floating => {
            let e = bits(s) as u128 - 1;
            floating_word(form, negative, marked, e, (r << e) + s - (1 << e))
        }
    }
}

fn floating_word(form: Format, negative: bool, marked: bool, e: u128, f: u128) -> u64 {
    let top = negative as u128 * 2 + marked as u128;
    let upper = (top << form.slash_bits()) + e;
    ((upper << (form.k - 1)) + f) as u64
}

// Rounding.

/// The size of s times n less r times d.
fn miss((r, s): Pair, n: u128, d: u128) -> u128 {
    (s * n).abs_diff(r * d)
}

/// The held pair with the least miss, and of those with the least sum of its parts.
fn best(pairs: impl Iterator<Item = Pair>, n: u128, d: u128) -> Pair {
    pairs
        .min_by_key(|&pair| (miss(pair, n, d), pair.0 + pair.1))
        .expect("a pair")
}

/// The pair that n/d is rounded to, d at least 1.
pub fn rounded(form: Format, n: u128, d: u128) -> Pair {
    match searched_pairs(form) {
        Some(pairs) => best(pairs.iter().copied(), n, d),
        None => best(neighbours(form, n, d).into_iter(), n, d),
    }
}

/// All pairs that a small format holds, in lowest terms or not; none for the larger formats.
fn searched_pairs(form: Format) -> Option<&'static Vec<Pair>> {
    static FIXED: OnceLock<Vec<Vec<Pair>>> = OnceLock::new();
    static FLOATING: OnceLock<Vec<Vec<Pair>>> = OnceLock::new();
    let (table, largest) = match form.kind {
        Kind::Fixed => (&FIXED, 3),
        Kind::Floating => (&FLOATING, 5),
    };
    if form.k > largest {
        return None;
    }
    let lists = table.get_or_init(|| {
        (2..=largest)
            .map(|k| held_pairs(Format { kind: form.kind, k }))
            .collect()
    });
    Some(&lists[form.k as usize - 2])
}

/// Every pair that the format holds.
pub fn held_pairs(form: Format) -> Vec<Pair> {
    let end = 1 << form.k;
    let pairs = (0..end).flat_map(|s| (0..end).map(move |r| (r, s)));
    pairs.filter(|&pair| form.holds(pair)).collect()
}

/// The held pairs in lowest terms with lower <= n/d < upper and none between.
///
/// One of them is the best. Going down the Stern-Brocot tree from 0/1 and 1/0, each bound has a smaller
/// miss than the one before it on its side, and a held pair that is no bound is a sum of bounds, with
/// no smaller miss and a larger sum.
fn neighbours(form: Format, n: u128, d: u128) -> [Pair; 2] {
    let (mut lower, mut upper) = ((0, 1), INFINITY);
    while form.holds(added(lower, 1, upper)) {
        // Both are in units of 1/d of a pair's denominator: how far each bound lies from n/d.
        let below = lower.1 * n - lower.0 * d;
        let above = upper.0 * d - upper.1 * n;
        lower = added(lower, held_steps(form, lower, upper, below / above), upper);
        let below = lower.1 * n - lower.0 * d;
        let limit = (above - 1).checked_div(below).unwrap_or(u128::MAX);
        upper = added(upper, held_steps(form, upper, lower, limit), lower);
    }
    [lower, upper]
}

/// The pair to whose parts those of the other are added so many times.
fn added(pair: Pair, times: u128, other: Pair) -> Pair {
    (pair.0 + times * other.0, pair.1 + times * other.1)
}

/// How often the other pair can be added, at most `limit` times, so that the format holds the sum.
fn held_steps(form: Format, pair: Pair, other: Pair, limit: u128) -> u128 {
    let held = |times| form.holds(added(pair, times, other));
    // Parts that are held have at most 32 bits, and one part of the other is not 0.
    let (mut last, mut beyond) = (0, limit.min(1 << 32) + 1);
    if held(beyond - 1) {
        return beyond - 1;
    }
    while beyond - last > 1 {
        let middle = (last + beyond) / 2;
        if held(middle) {
            last = middle;
        } else {
            beyond = middle;
        }
    }
    last
}

// Convergents, by their definition.

/// The partial quotients of n/d, d at least 1.
pub fn partial_quotients(mut n: u128, mut d: u128) -> Vec<u128> {
    let mut quotients = Vec::new();
    while d != 0 {
        quotients.push(n / d);
        (n, d) = (d, n % d);
    }
    quotients
}

/// The convergents of n/d, d at least 1: 1/0, then each start of the quotients, worked from the right.
pub fn convergents(n: u128, d: u128) -> Vec<Pair> {
    let quotients = partial_quotients(n, d);
    let starts = (1..=quotients.len()).map(|count| {
        let turned = quotients[..count]
            .iter()
            .rev()
            .fold(INFINITY, |(r, s), q| (q * r + s, r));
        turned
    });
    std::iter::once(INFINITY).chain(starts).collect()
}

// Operations on two words.

fn finite(negative: bool, pair: Pair, marked: bool) -> Number {
    Number {
        negative,
        marked,
        size: Finite(pair),
    }
}

fn infinite(negative: bool, marked: bool) -> Number {
    Number {
        negative,
        marked,
        size: Infinite,
    }
}

/// The numerator of a finite number with its sign.
fn signed(negative: bool, n: u128) -> i128 {
    if negative {
        -(n as i128)
    } else {
        n as i128
    }
}

/// The finite number with this numerator, whose sign it has; a zero has sign 0.
fn finite_of(n: i128, d: u128, marked: bool) -> Number {
    finite(n < 0, (n.unsigned_abs(), d), marked)
}

fn sum(left: Number, right: Number) -> Number {
    let marked = left.marked | right.marked;
    match (left.size, right.size) {
        (Finite((a, b)), Finite((c, d))) => {
            let n = signed(left.negative, a * d) + signed(right.negative, b * c);
            finite_of(n, b * d, marked)
        }
        (Infinite, Finite(_)) => infinite(left.negative, marked),
        (Finite(_), Infinite) => infinite(right.negative, marked),
        (Infinite, Infinite) if left.negative == right.negative => infinite(left.negative, marked),
        _ => NOT_A_NUMBER,
    }
}

fn product(left: Number, right: Number) -> Number {
    let (negative, marked) = (left.negative ^ right.negative, left.marked | right.marked);
    match (left.size, right.size) {
        (Finite((a, b)), Finite((c, d))) => finite(negative, (a * c, b * d), marked),
        (Finite((0, _)), Infinite) | (Infinite, Finite((0, _))) => NOT_A_NUMBER,
        (NotANumber, _) | (_, NotANumber) => NOT_A_NUMBER,
        _ => infinite(negative, marked),
    }
}

fn quotient(left: Number, right: Number) -> Number {
    let (negative, marked) = (left.negative ^ right.negative, left.marked | right.marked);
    match (left.size, right.size) {
        (Finite((0, _)), Finite((0, _))) | (Infinite, Infinite) => NOT_A_NUMBER,
        (NotANumber, _) | (_, NotANumber) => NOT_A_NUMBER,
        (Infinite, Finite(_)) | (_, Finite((0, _))) => infinite(negative, marked),
        (Finite(_), Infinite) => finite(negative, (0, 1), marked),
        (Finite((a, b)), Finite((c, d))) => finite(negative, (a * d, b * c), marked),
    }
}

/// The word that a binary code gives; stop 2, then each word's stops.
pub fn binary(form: Format, code: u64, left: u64, right: u64) -> Answer<u64> {
    check_binary_code(code)?;
    let (left, right) = (read(form, left)?, read(form, right)?);
    let turned = Number {
        negative: !right.negative,
        ..right
    };
    let result = match code {
        1 => sum(left, right),
        2 => sum(left, turned),
        3 => product(left, right),
        _ => quotient(left, right),
    };
    write(form, result)
}

fn check_binary_code(code: u64) -> Answer<()> {
    if (1..=4).contains(&code) {
        Ok(())
    } else {
        stop(2)
    }
}

/// How the left word's value compares to the right one's; none where they are unordered.
pub fn compare(form: Format, left: u64, right: u64) -> Answer<Option<Ordering>> {
    let (left, right) = (read(form, left)?, read(form, right)?);
    let sign = |number: Number| if number.negative { -1 } else { 1 };
    Ok(match (left.size, right.size) {
        (NotANumber, _) | (_, NotANumber) => None,
        (Infinite, Infinite) => Some(sign(left).cmp(&sign(right))),
        (Infinite, Finite(_)) => Some(sign(left).cmp(&0)),
        (Finite(_), Infinite) => Some(0.cmp(&sign(right))),
        (Finite((a, b)), Finite((c, d))) => {
            Some(signed(left.negative, a * d).cmp(&signed(right.negative, c * b)))
        }
    })
}

/// The word of the target format for a word of the source format; the word's stops.
pub fn convert(source: Format, target: Format, word: u64) -> Answer<u64> {
    write(target, read(source, word)?)
}

// Operations on one word.

/// The word that a unary code gives; stop 2, then the word's stops.
pub fn unary(form: Format, code: u64, word: u64) -> Answer<u64> {
    check_unary_code(code)?;
    let number = read(form, word)?;
    let sign_bit = 1 << (form.width() - 1);
    match (code, number.size) {
        (_, NotANumber) => Ok(not_a_number_word(form)),
        (1, _) => Ok(word ^ sign_bit),
        (2, _) => Ok(word & !sign_bit),
        (3, size) => write(
            form,
            Number {
                size: reciprocal(size),
                ..number
            },
        ),
        (6, Infinite) => Ok(not_a_number_word(form)),
        (7, _) | (_, Infinite) => write(form, number),
        (_, Finite((n, d))) => write(form, by_floor(code, number, n, d)),
    }
}

fn check_unary_code(code: u64) -> Answer<()> {
    if (1..=7).contains(&code) {
        Ok(())
    } else {
        stop(2)
    }
}

fn reciprocal(size: Size) -> Size {
    match size {
        Finite((0, _)) => Infinite,
        Infinite => Finite((0, 1)),
        Finite((n, d)) => Finite((d, n)),
        NotANumber => NotANumber,
    }
}

/// Floor, ceiling and mod 1 of the finite number of size n/d.
fn by_floor(code: u64, number: Number, n: u128, d: u128) -> Number {
    let (n, whole) = (signed(number.negative, n), d as i128);
    match code {
        4 => finite_of(n.div_euclid(whole), 1, number.marked),
        5 => finite_of(-(-n).div_euclid(whole), 1, number.marked),
        _ => finite_of(n.rem_euclid(whole), d, number.marked),
    }
}

/// The greatest common divisor of a word's parts, 0 unless it is a nonzero fraction.
pub fn gcd(form: Format, word: u64) -> Answer<u64> {
    Ok(match read(form, word)?.size {
        Finite((0, _)) | Infinite | NotANumber => 0,
        Finite((n, d)) => binary_gcd(n as u64, d as u64),
    })
}

/// The greatest common divisor of two numbers that aren't 0, by halving and subtracting.
pub fn binary_gcd(mut a: u64, mut b: u64) -> u64 {
    let twos = (a | b).trailing_zeros();
    a >>= a.trailing_zeros();
    while b != 0 {
        b >>= b.trailing_zeros();
        (a, b) = (a.min(b), a.abs_diff(b));
    }
    a << twos
}

/// The partial quotients of a word, none for an infinity or a not-a-number; the word's stops.
fn quotients_of(form: Format, word: u64) -> Answer<Vec<u128>> {
    Ok(match read(form, word)?.size {
        Finite((n, d)) => partial_quotients(n, d),
        Infinite | NotANumber => Vec::new(),
    })
}

/// Puts the partial quotients of a word into a lent list and counts them; the word's stops, then 7.
pub fn quotients(form: Format, word: u64, list: &mut [u32]) -> Answer<u64> {
    let quotients = quotients_of(form, word)?;
    if list.len() < quotients.len() {
        return stop(7);
    }
    for (place, quotient) in list.iter_mut().zip(&quotients) {
        *place = *quotient as u32;
    }
    Ok(quotients.len() as u64)
}

/// The count of a word's partial quotients, with no list lent; the word's stops.
pub fn quotient_count(form: Format, word: u64) -> Answer<u64> {
    Ok(quotients_of(form, word)?.len() as u64)
}

// Twisted storage.

/// The twisted word of a plain one; stop 1 for a fixed format, then the word's stops.
pub fn twist(form: Format, word: u64) -> Answer<u64> {
    rearrange(form, word, |e, plain| {
        let (numerator, denominator) = (plain >> e, lowest(e, plain));
        turned(form, denominator) | numerator
    })
}

/// The plain word of a twisted one; stop 1 for a fixed format, then the word's stops.
pub fn untwist(form: Format, word: u64) -> Answer<u64> {
    rearrange(form, word, |e, twisted| {
        let numerator = lowest(form.k - 1 - e, twisted);
        let denominator = lowest(e, turned(form, twisted));
        numerator << e | denominator
    })
}

/// A good word with its field changed by the slash position, unless it is an infinity or a not-a-number.
/// Both layouts have the slash position at one place, so that reading a word as a plain one checks it.
fn rearrange(form: Format, word: u64, field: impl Fn(u32, u128) -> u128) -> Answer<u64> {
    check_floating(form)?;
    match read(form, word)?.size {
        Infinite | NotANumber => Ok(word),
        Finite(_) => {
            let [_, _, e, f] = fields(form, word);
            Ok((u128::from(word) - f + field(e as u32, f)) as u64)
        }
    }
}

fn check_floating(form: Format) -> Answer<()> {
    match form.kind {
        Kind::Fixed => stop(1),
        Kind::Floating => Ok(()),
    }
}

/// So many of a number's lowest bits.
fn lowest(count: u32, number: u128) -> u128 {
    number & ((1 << count) - 1)
}

/// A field with all its bits in the opposite order, "twisting the wires": the lowest one leftmost.
fn turned(form: Format, f: u128) -> u128 {
    f.reverse_bits() >> (u128::BITS - (form.k - 1))
}

// Vectors. Each form stores nothing where it stops.

/// A binary code at each place; stops 1, 2, 3, then the words'.
pub fn binary_each(
    (kind, k): (u64, u64),
    code: u64,
    left: &[u64],
    right: &[u64],
    out: &mut [u64],
) -> Answer<()> {
    let form = format(kind, k)?;
    check_binary_code(code)?;
    check_lengths(left.len() == right.len() && left.len() == out.len())?;
    let words = left
        .iter()
        .zip(right)
        .map(|(&l, &r)| binary(form, code, l, r));
    store(words, out)
}

/// A unary code at each place; stops 1, 2, 3, then the words'.
pub fn unary_each(
    (kind, k): (u64, u64),
    code: u64,
    operand: &[u64],
    out: &mut [u64],
) -> Answer<()> {
    let form = format(kind, k)?;
    check_unary_code(code)?;
    check_lengths(operand.len() == out.len())?;
    store(operand.iter().map(|&word| unary(form, code, word)), out)
}

/// A conversion at each place; stop 1 for the source, then for the target, 3, then the words'.
pub fn convert_each(
    (kind, k): (u64, u64),
    (to_kind, to_k): (u64, u64),
    operand: &[u64],
    out: &mut [u64],
) -> Answer<()> {
    let (source, target) = (format(kind, k)?, format(to_kind, to_k)?);
    check_lengths(operand.len() == out.len())?;
    store(
        operand.iter().map(|&word| convert(source, target, word)),
        out,
    )
}

/// Twists at each place; stop 1, for a fixed format too, 3, then the words'.
pub fn twist_each(form: (u64, u64), operand: &[u64], out: &mut [u64]) -> Answer<()> {
    rearrange_each(form, operand, out, twist)
}

/// Untwists at each place; stop 1, for a fixed format too, 3, then the words'.
pub fn untwist_each(form: (u64, u64), operand: &[u64], out: &mut [u64]) -> Answer<()> {
    rearrange_each(form, operand, out, untwist)
}

fn rearrange_each(
    (kind, k): (u64, u64),
    operand: &[u64],
    out: &mut [u64],
    way: impl Fn(Format, u64) -> Answer<u64>,
) -> Answer<()> {
    let form = format(kind, k)?;
    check_floating(form)?;
    check_lengths(operand.len() == out.len())?;
    store(operand.iter().map(|&word| way(form, word)), out)
}

/// Stop 1, then 3 for operands of unequal length, then the words', at a place the first operand's first.
pub fn check_operands((kind, k): (u64, u64), operands: &[&[u64]]) -> Answer<()> {
    let form = format(kind, k)?;
    let length = operands[0].len();
    check_lengths(operands.iter().all(|operand| operand.len() == length))?;
    for place in 0..length {
        for operand in operands {
            read(form, operand[place]).map_err(|stop| Stop {
                place: place as u64,
                ..stop
            })?;
        }
    }
    Ok(())
}

fn check_lengths(equal: bool) -> Answer<()> {
    if equal {
        Ok(())
    } else {
        stop(3)
    }
}

/// Stores all words, or none and the first stop with its place.
fn store(words: impl Iterator<Item = Answer<u64>>, out: &mut [u64]) -> Answer<()> {
    let placed = words.enumerate().map(|(place, word)| {
        word.map_err(|stop| Stop {
            place: place as u64,
            ..stop
        })
    });
    let words: Vec<u64> = placed.collect::<Answer<_>>()?;
    out.copy_from_slice(&words);
    Ok(())
}

#[cfg(test)]
mod tests {
    use super::*;

    /// Demand 3 and the last held convergent are one pair.
    #[test]
    fn the_best_pair_is_the_last_held_convergent() {
        for form in all_formats() {
            let mut seed = 88172645463325252 + form.k as u64;
            for _ in 0..4000 {
                seed ^= seed << 13;
                seed ^= seed >> 7;
                seed ^= seed << 17;
                let (n, d) = (seed >> (seed % 61), seed.rotate_left(29) >> (seed % 59));
                let (n, d) = (n as u128, (d as u128).max(1));
                let list = convergents(n, d);
                let last = *list
                    .iter()
                    .take_while(|&&pair| form.holds(pair))
                    .last()
                    .unwrap();
                assert_eq!(rounded(form, n, d), last, "{form:?} {n}/{d}");
                assert!(list
                    .iter()
                    .skip_while(|&&pair| form.holds(pair))
                    .all(|&pair| !form.holds(pair)));
            }
        }
    }

    /// The neighbours' better one is the best of all held pairs.
    #[test]
    fn descent_and_search_agree() {
        for form in all_formats().filter(|form| form.k <= 5) {
            let pairs = held_pairs(form);
            for (n, d) in (0..70).flat_map(|n| (1..70).map(move |d| (n, d))) {
                let found = best(neighbours(form, n, d).into_iter(), n, d);
                assert_eq!(found, best(pairs.iter().copied(), n, d), "{form:?} {n}/{d}");
            }
        }
    }

    /// A fraction has one list of quotients above 0, the first apart, whose last is at least 2
    /// unless it is the only one: that of `partial_quotients`, as its last convergent is the
    /// fraction.
    #[test]
    fn the_quotients_are_those_of_the_fraction() {
        for (n, d) in (1..90).flat_map(|n| (1..90).map(move |d| (n, d))) {
            let list = partial_quotients(n, d);
            assert!(list.iter().skip(1).all(|&quotient| quotient > 0));
            assert!(list.len() == 1 || list[list.len() - 1] >= 2, "{n}/{d}");
            let common = u128::from(binary_gcd(n as u64, d as u64));
            let last = convergents(n, d).pop();
            assert_eq!(last, Some((n / common, d / common)));
        }
    }

    /// CR 6: the count alone is what a long enough list gets, at most 2k; 7 falls on shorter ones.
    #[test]
    fn the_count_alone_is_the_least_long_enough_length() {
        for form in all_formats().filter(|form| form.width() <= 12) {
            for word in 0..=1 << form.width() {
                let alone = quotient_count(form, word);
                for length in 0..=2 * form.k as usize {
                    let too_short = alone.is_ok_and(|count| (length as u64) < count);
                    let expected = if too_short { stop(7) } else { alone };
                    assert_eq!(quotients(form, word, &mut vec![0; length]), expected);
                }
                assert!(alone.unwrap_or(0) <= 2 * u64::from(form.k));
            }
        }
    }

    /// CR 4's example: 355/113 in k = 26.
    #[test]
    fn the_example_twists_both_ways() {
        let form = format(2, 26).unwrap();
        for (negative, marked) in [(false, false), (false, true), (true, false), (true, true)] {
            let plain = floating_word(form, negative, marked, 6, 22769);
            let twisted = floating_word(form, negative, marked, 6, 18350435);
            assert_eq!(plain, pair_word(form, negative, (355, 113), marked));
            assert_eq!(twist(form, plain), Ok(twisted));
            assert_eq!(untwist(form, twisted), Ok(plain));
        }
    }

    /// Each way undoes the other, and the numerator stands at the right.
    #[test]
    fn each_way_undoes_the_other() {
        for form in all_formats().filter(|form| form.width() <= 16) {
            for word in 0..1 << form.width() {
                let expected = check_floating(form).and(read(form, word).map(|_| word));
                let twisted = twist(form, word);
                assert_eq!(twisted.and_then(|word| untwist(form, word)), expected);
                let plain = untwist(form, word);
                assert_eq!(plain.and_then(|word| twist(form, word)), expected);
                if let (Ok(twisted), Ok(number)) = (twisted, read(form, word)) {
                    check_numerator(form, twisted, number.size);
                }
            }
        }
    }

    fn check_numerator(form: Format, twisted: u64, size: Size) {
        let [_, _, e, f] = fields(form, twisted);
        if let Finite((numerator, _)) = size {
            assert_eq!(f % (1 << (u128::from(form.k) - 1 - e)), numerator);
        }
    }
}
