//! Slash arithmetic for breath ratios: safe functions over the proved archive.
//!
//! A word is a `u64` that a [`Format`] tells how to read. A refused call returns a [`Stop`] and changes
//! nothing that was lent to it.

use std::cmp::Ordering;

pub mod raw;

mod number;
mod pieces;
mod stop;

/// What `include/slash.h` defines, without the prefix of its names. Not all of it has a use here.
#[allow(dead_code)]
mod header {
    include!(concat!(env!("OUT_DIR"), "/header.rs"));
}

/// The product's version.
pub use header::VERSION;
pub use number::{Number, Value};
pub use pieces::{list_from, Night, Piece, LINE_BYTES};
pub use stop::Stop;

/// The kind and the k of a word format; one that doesn't exist gets stop 1.
#[derive(Clone, Copy, Debug, PartialEq, Eq)]
pub struct Format {
    pub kind: u64,
    pub k: u64,
}

impl Format {
    /// The fixed format with parts of k bits, k from 2 to 31.
    pub const fn fixed(k: u64) -> Format {
        Format {
            kind: header::FIXED,
            k,
        }
    }

    /// The floating format whose parts share k bits, k from 2 to 32.
    pub const fn floating(k: u64) -> Format {
        Format {
            kind: header::FLOATING,
            k,
        }
    }
}

/// The operations on two words, by their codes.
#[derive(Clone, Copy, Debug, PartialEq, Eq)]
pub enum Binary {
    Add = header::ADD as isize,
    Subtract = header::SUBTRACT as isize,
    Multiply = header::MULTIPLY as isize,
    Divide = header::DIVIDE as isize,
}

/// The operations on one word, by their codes.
#[derive(Clone, Copy, Debug, PartialEq, Eq)]
pub enum Unary {
    Negate = header::NEGATE as isize,
    Absolute = header::ABSOLUTE as isize,
    Reciprocal = header::RECIPROCAL as isize,
    Floor = header::FLOOR as isize,
    Ceiling = header::CEILING as isize,
    ModOne = header::MOD_ONE as isize,
    Normalise = header::NORMALISE as isize,
}

/// The number that a call stores where it isn't refused.
fn stored(call: impl FnOnce(*mut u64) -> u64) -> Result<u64, Stop> {
    let mut number = 0;
    Stop::check(call(&mut number))?;
    Ok(number)
}

/// How many bits a word of the format has, at most 64; stop 1.
pub fn width(form: Format) -> Result<u32, Stop> {
    // SAFETY: in every such block the pointers come from live, aligned Rust values, with their lengths.
    let width = stored(|width| unsafe { raw::slash_width(form.kind, form.k, width) })?;
    Ok(width as u32)
}

/// The largest numerator of a fraction that the format holds; the largest denominator is the same. Stop 1.
pub fn largest(form: Format) -> Result<u64, Stop> {
    stored(|largest| unsafe { raw::slash_largest(form.kind, form.k, largest) })
}

/// Whether the word is one of the format; its stop, 1, 4 or 5, where it isn't.
pub fn check(form: Format, word: u64) -> Result<(), Stop> {
    Stop::check(unsafe { raw::slash_check(form.kind, form.k, word) })
}

/// What a word says; stops 1, then 4 and 5.
pub fn read(form: Format, word: u64) -> Result<Number, Stop> {
    let mut value = raw::Value::default();
    Stop::check(unsafe { raw::slash_read(form.kind, form.k, word, &mut value) })?;
    Ok(Number::of_stored(value))
}

/// The canonical word of a number; stops 1, then 6 for a fraction with denominator 0.
///
/// A fraction, whichever its parts are, is rounded as [`round`] does it, and keeps its sign; the word is marked
/// if the number is approximate or rounding changed it. A not-a-number has one word, without a mark. What
/// [`read`] gives of a word is written as the word normalised.
pub fn write(form: Format, number: Number) -> Result<u64, Stop> {
    let value = number.to_stored();
    stored(|word| unsafe { raw::slash_write(form.kind, form.k, &value, word) })
}

/// The word of n/d rounded into the format; stops 1, then 6.
pub fn round(form: Format, n: u64, d: u64) -> Result<u64, Stop> {
    stored(|word| unsafe { raw::slash_round(form.kind, form.k, n, d, word) })
}

/// The word that an operation on two words gives; stops 1, then 4 and 5.
pub fn binary(form: Format, operation: Binary, left: u64, right: u64) -> Result<u64, Stop> {
    let code = operation as u64;
    stored(|word| unsafe { raw::slash_binary(form.kind, form.k, code, left, right, word) })
}

/// The word that an operation on one word gives; stops 1, then 4 and 5.
pub fn unary(form: Format, operation: Unary, operand: u64) -> Result<u64, Stop> {
    let code = operation as u64;
    stored(|word| unsafe { raw::slash_unary(form.kind, form.k, code, operand, word) })
}

/// How two words' values compare; none with a not-a-number. Stops 1, then 4 and 5.
pub fn compare(form: Format, left: u64, right: u64) -> Result<Option<Ordering>, Stop> {
    let order =
        stored(|order| unsafe { raw::slash_compare(form.kind, form.k, left, right, order) })?;
    Ok(match order {
        header::BELOW => Some(Ordering::Less),
        header::EQUAL => Some(Ordering::Equal),
        header::ABOVE => Some(Ordering::Greater),
        _ => None,
    })
}

/// The greatest common divisor of a nonzero fraction's parts, else 0; stops 1, then 4 and 5.
pub fn gcd(form: Format, operand: u64) -> Result<u64, Stop> {
    stored(|divisor| unsafe { raw::slash_gcd(form.kind, form.k, operand, divisor) })
}

/// The word of the target format for a word of the source format; stops 1, then 4 and 5.
pub fn convert(source: Format, target: Format, operand: u64) -> Result<u64, Stop> {
    stored(|word| unsafe {
        raw::slash_convert(source.kind, source.k, target.kind, target.k, operand, word)
    })
}

/// Puts a word's partial quotients into the list and counts them; stops 1, 4 and 5, then 7.
///
/// There are at most 2k, and [`quotient_count`] tells how many. What the list has beyond them is left as it
/// was.
pub fn quotients(form: Format, operand: u64, list: &mut [u32]) -> Result<usize, Stop> {
    let (start, length) = (list.as_mut_ptr(), list.len());
    let count = stored(|count| unsafe {
        raw::slash_quotients(form.kind, form.k, operand, start, length, count)
    })?;
    Ok(count as usize)
}

/// How many partial quotients a word has, with no list lent; stops 1, then 4 and 5.
///
/// A list of so many places is long enough for [`quotients`], and every shorter one gets stop 7.
pub fn quotient_count(form: Format, operand: u64) -> Result<usize, Stop> {
    let count =
        stored(|count| unsafe { raw::slash_quotient_count(form.kind, form.k, operand, count) })?;
    Ok(count as usize)
}

/// A floating word twisted, for storage: sign, mark and slash position e stay, and for e up to k - 2 the
/// lowest k - 1 - e bits are the numerator. Stops 1, for a fixed format too, then 4 and 5.
///
/// Above the numerator the field holds the denominator without its leading bit, lowest bit leftmost. An
/// infinity or a not-a-number stays as it is. Twisted words are for storage: but for the two functions
/// that untwist them, all functions take plain ones.
pub fn twist(form: Format, word: u64) -> Result<u64, Stop> {
    stored(|twisted| unsafe { raw::slash_twist(form.kind, form.k, word, twisted) })
}

/// The word of which this is the twisted one: undoes [`twist`]. Stops 1, for a fixed format too, then 4
/// and 5.
pub fn untwist(form: Format, twisted: u64) -> Result<u64, Stop> {
    stored(|word| unsafe { raw::slash_untwist(form.kind, form.k, twisted, word) })
}

/// [`binary`] at each place of equally long vectors; stops 1, 3, then 4 and 5 with their place.
pub fn binary_each(
    form: Format,
    operation: Binary,
    left: &[u64],
    right: &[u64],
    out: &mut [u64],
) -> Result<(), Stop> {
    Stop::check(unsafe {
        raw::slash_binary_each(
            form.kind,
            form.k,
            operation as u64,
            left.as_ptr(),
            left.len(),
            right.as_ptr(),
            right.len(),
            out.as_mut_ptr(),
            out.len(),
        )
    })
}

/// [`unary`] at each place of equally long vectors; stops 1, 3, then 4 and 5 with their place.
pub fn unary_each(
    form: Format,
    operation: Unary,
    operand: &[u64],
    out: &mut [u64],
) -> Result<(), Stop> {
    Stop::check(unsafe {
        raw::slash_unary_each(
            form.kind,
            form.k,
            operation as u64,
            operand.as_ptr(),
            operand.len(),
            out.as_mut_ptr(),
            out.len(),
        )
    })
}

/// [`convert`] at each place of equally long vectors; stops 1, 3, then 4 and 5 with their place.
pub fn convert_each(
    source: Format,
    target: Format,
    operand: &[u64],
    out: &mut [u64],
) -> Result<(), Stop> {
    Stop::check(unsafe {
        raw::slash_convert_each(
            source.kind,
            source.k,
            target.kind,
            target.k,
            operand.as_ptr(),
            operand.len(),
            out.as_mut_ptr(),
            out.len(),
        )
    })
}

/// [`twist`] at each place of equally long vectors; stops 1, for a fixed format too, 3, then 4 and 5 with
/// their place.
pub fn twist_each(form: Format, operand: &[u64], out: &mut [u64]) -> Result<(), Stop> {
    Stop::check(unsafe {
        raw::slash_twist_each(
            form.kind,
            form.k,
            operand.as_ptr(),
            operand.len(),
            out.as_mut_ptr(),
            out.len(),
        )
    })
}

/// [`untwist`] at each place of equally long vectors; stops 1, for a fixed format too, 3, then 4 and 5 with
/// their place.
pub fn untwist_each(form: Format, operand: &[u64], out: &mut [u64]) -> Result<(), Stop> {
    Stop::check(unsafe {
        raw::slash_untwist_each(
            form.kind,
            form.k,
            operand.as_ptr(),
            operand.len(),
            out.as_mut_ptr(),
            out.len(),
        )
    })
}

/// The word, in fixed k = 15, of one breath as the recorder stores it, 0 where it is void; stop 19 for a rate
/// out of 1 to 4096.
///
/// Onset, peak and next onset are marks of a clock 32 bits wide that ticks `rate` times a second. A breath is
/// void if its whole is 0, less than its in, or greater than 120 times the rate; otherwise in over whole is
/// rounded as [`round`] does it.
pub fn breath(rate: u64, onset: u32, peak: u32, next: u32) -> Result<u64, Stop> {
    stored(|word| unsafe { raw::slash_breath(rate, onset, peak, next, word) })
}

/// The listing of a night's recording, as the program `night` prints it; stops 8 to 11 and 19 with the line.
/// A recording without a byte is a night with nothing in it: `all`, void.
///
/// Any other opens with the line `rate`, a tab and the ticks a second, by which [`breath`] tells what is void.
/// The line is the first bad one, the rate line being line 1. The lines before it are good: they have a
/// listing of their own, which [`list_from`] writes, through small buffers.
pub fn night(recording: &[u8]) -> Result<Vec<u8>, Stop> {
    let mut listing = vec![0; raw::LISTING_BYTES];
    let (start, count) = (recording.as_ptr(), recording.len());
    let length =
        stored(|length| unsafe { raw::slash_night(start, count, listing.as_mut_ptr(), length) })?;
    listing.truncate(length as usize);
    Ok(listing)
}

/// What a listing says: the words of its breaths, the first one first, and the total's word. A void one is 0.
#[derive(Clone, Debug, PartialEq, Eq)]
pub struct Loaded {
    pub words: Vec<u64>,
    pub total: u64,
}

/// Reads a printed listing back; stops 13, 14 and 15 with the line, which is the first bad one, from 1.
///
/// Breath i + 1 has the word at index i. The listing of no breaths is the line `all`, void. Otherwise
/// whether the total follows from the breaths isn't judged.
pub fn load(listing: &[u8]) -> Result<Loaded, Stop> {
    // As long as any listing asks for, so that 7 never occurs.
    let (mut numbers, mut words) = (vec![0; raw::MOST_BREATHS], vec![0; raw::MOST_BREATHS]);
    let mut count = 0;
    let total = stored(|total| unsafe {
        raw::slash_load(
            listing.as_ptr(),
            listing.len(),
            numbers.as_mut_ptr(),
            numbers.len(),
            words.as_mut_ptr(),
            words.len(),
            &mut count,
            total,
        )
    })?;
    words.truncate(count as usize);
    Ok(Loaded { words, total })
}

/// Puts the words, in fixed k = 15, of the ratios that a scoring package exported into a vector with a place
/// for each record; stops 16, 3, then 17 and 18 with the index of the first bad record, from 0.
///
/// A record has 12 bytes ([`raw::RECORD_BYTES`]): a 32-bit kind, then two `f32`, all lowest byte first. Kind
/// 1 has seconds of inspiration and of the whole breath, both from 2^-10 to below 2^10, the first no larger
/// than the second. Kind 2 has the ratio itself, from 2^-10 to 1, and an `f32` whose bits are all 0, which
/// -0.0 isn't. Each ratio is formed exactly, then rounded as [`round`] does it.
pub fn timings(records: &[u8], words: &mut [u64]) -> Result<(), Stop> {
    Stop::check(unsafe {
        raw::slash_timings(
            records.as_ptr(),
            records.len(),
            words.as_mut_ptr(),
            words.len(),
        )
    })
}
