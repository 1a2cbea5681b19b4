//! The hand-written Rust with the archive's C interface.
//!
//! With the feature `archive` the functions of this file are exported under the archive's names, so that this can
//! take its place. Without it the names stay Rust's own, so that a program can link the archive too.
//!
//! # Safety
//!
//! As for the archive: pointers are aligned and not null, and have the lengths that are given; one whose length is
//! 0 may be null.
#![allow(clippy::missing_safety_doc)]

pub mod by_record;
pub mod halving;
pub mod tables;

pub use crate::night::State as NightState;
pub use crate::value::Value;

use crate::night::{End, Night};

/// Stores an answer, or returns the stop's place times 256 plus its number.
unsafe fn store<T>(answer: Result<T, u64>, place: *mut T) -> u64 {
    match answer {
        Ok(found) => {
            *place = found;
            0
        }
        Err(status) => status,
    }
}

fn status<T>(answer: Result<T, u64>) -> u64 {
    answer.err().unwrap_or(0)
}

/// What a pointer and its length lend: with length 0 nothing is reached through it, which may be null.
unsafe fn lent<'a, T>(start: *const T, length: usize) -> &'a [T] {
    match length {
        0 => &[],
        _ => std::slice::from_raw_parts(start, length),
    }
}

/// The same, to be written.
unsafe fn lent_mut<'a, T>(start: *mut T, length: usize) -> &'a mut [T] {
    match length {
        0 => &mut [],
        _ => std::slice::from_raw_parts_mut(start, length),
    }
}

// Formats, and words taken apart.

#[cfg_attr(feature = "archive", no_mangle)]
pub unsafe extern "C" fn slash_width(kind: u64, k: u64, width: *mut u64) -> u64 {
    store(crate::value::width(kind, k), width)
}

#[cfg_attr(feature = "archive", no_mangle)]
pub unsafe extern "C" fn slash_largest(kind: u64, k: u64, largest: *mut u64) -> u64 {
    store(crate::value::largest(kind, k), largest)
}

#[cfg_attr(feature = "archive", no_mangle)]
pub extern "C" fn slash_check(kind: u64, k: u64, word: u64) -> u64 {
    status(crate::value::check(kind, k, word))
}

#[cfg_attr(feature = "archive", no_mangle)]
pub unsafe extern "C" fn slash_read(kind: u64, k: u64, word: u64, value: *mut Value) -> u64 {
    store(crate::value::read(kind, k, word), value)
}

#[cfg_attr(feature = "archive", no_mangle)]
pub unsafe extern "C" fn slash_write(
    kind: u64,
    k: u64,
    value: *const Value,
    word: *mut u64,
) -> u64 {
    store(crate::value::write(kind, k, &*value), word)
}

// Words made and combined.

#[cfg_attr(feature = "archive", no_mangle)]
pub unsafe extern "C" fn slash_round(kind: u64, k: u64, n: u64, d: u64, word: *mut u64) -> u64 {
    store(crate::round(kind, k, n, d), word)
}

#[cfg_attr(feature = "archive", no_mangle)]
pub unsafe extern "C" fn slash_binary(
    kind: u64,
    k: u64,
    code: u64,
    left: u64,
    right: u64,
    word: *mut u64,
) -> u64 {
    store(crate::binary(kind, k, code, left, right), word)
}

#[cfg_attr(feature = "archive", no_mangle)]
pub unsafe extern "C" fn slash_unary(
    kind: u64,
    k: u64,
    code: u64,
    operand: u64,
    word: *mut u64,
) -> u64 {
    store(crate::unary(kind, k, code, operand), word)
}

#[cfg_attr(feature = "archive", no_mangle)]
pub unsafe extern "C" fn slash_compare(
    kind: u64,
    k: u64,
    left: u64,
    right: u64,
    order: *mut u64,
) -> u64 {
    store(crate::compare(kind, k, left, right), order)
}

#[cfg_attr(feature = "archive", no_mangle)]
pub unsafe extern "C" fn slash_gcd(kind: u64, k: u64, operand: u64, divisor: *mut u64) -> u64 {
    store(crate::gcd(kind, k, operand), divisor)
}

#[cfg_attr(feature = "archive", no_mangle)]
pub unsafe extern "C" fn slash_convert(
    kind: u64,
    k: u64,
    to_kind: u64,
    to_k: u64,
    operand: u64,
    word: *mut u64,
) -> u64 {
    store(crate::convert(kind, k, to_kind, to_k, operand), word)
}

#[cfg_attr(feature = "archive", no_mangle)]
pub unsafe extern "C" fn slash_quotients(
    kind: u64,
    k: u64,
    operand: u64,
    list: *mut u32,
    list_length: usize,
    count: *mut u64,
) -> u64 {
    let list = lent_mut(list, list_length);
    store(crate::quotients(kind, k, operand, list), count)
}

#[cfg_attr(feature = "archive", no_mangle)]
pub unsafe extern "C" fn slash_quotient_count(
    kind: u64,
    k: u64,
    operand: u64,
    count: *mut u64,
) -> u64 {
    store(crate::quotient_count(kind, k, operand), count)
}

#[cfg_attr(feature = "archive", no_mangle)]
pub unsafe extern "C" fn slash_twist(kind: u64, k: u64, word: u64, twisted: *mut u64) -> u64 {
    store(crate::twisting::twist(kind, k, word), twisted)
}

#[cfg_attr(feature = "archive", no_mangle)]
pub unsafe extern "C" fn slash_untwist(kind: u64, k: u64, twisted: u64, word: *mut u64) -> u64 {
    store(crate::twisting::untwist(kind, k, twisted), word)
}

// Vectors.

#[cfg_attr(feature = "archive", no_mangle)]
pub unsafe extern "C" fn slash_binary_each(
    kind: u64,
    k: u64,
    code: u64,
    left: *const u64,
    left_length: usize,
    right: *const u64,
    right_length: usize,
    out: *mut u64,
    out_length: usize,
) -> u64 {
    let (left, right) = (lent(left, left_length), lent(right, right_length));
    let out = lent_mut(out, out_length);
    status(crate::binary_each(kind, k, code, left, right, out))
}

#[cfg_attr(feature = "archive", no_mangle)]
pub unsafe extern "C" fn slash_unary_each(
    kind: u64,
    k: u64,
    code: u64,
    operand: *const u64,
    operand_length: usize,
    out: *mut u64,
    out_length: usize,
) -> u64 {
    let operand = lent(operand, operand_length);
    let out = lent_mut(out, out_length);
    status(crate::unary_each(kind, k, code, operand, out))
}

#[cfg_attr(feature = "archive", no_mangle)]
pub unsafe extern "C" fn slash_convert_each(
    kind: u64,
    k: u64,
    to_kind: u64,
    to_k: u64,
    operand: *const u64,
    operand_length: usize,
    out: *mut u64,
    out_length: usize,
) -> u64 {
    let operand = lent(operand, operand_length);
    let out = lent_mut(out, out_length);
    status(crate::convert_each(kind, k, to_kind, to_k, operand, out))
}

#[cfg_attr(feature = "archive", no_mangle)]
pub unsafe extern "C" fn slash_twist_each(
    kind: u64,
    k: u64,
    operand: *const u64,
    operand_length: usize,
    out: *mut u64,
    out_length: usize,
) -> u64 {
    let operand = lent(operand, operand_length);
    let out = lent_mut(out, out_length);
    status(crate::twisting::twist_each(kind, k, operand, out))
}

#[cfg_attr(feature = "archive", no_mangle)]
pub unsafe extern "C" fn slash_untwist_each(
    kind: u64,
    k: u64,
    operand: *const u64,
    operand_length: usize,
    out: *mut u64,
    out_length: usize,
) -> u64 {
    let operand = lent(operand, operand_length);
    let out = lent_mut(out, out_length);
    status(crate::twisting::untwist_each(kind, k, operand, out))
}

#[cfg_attr(feature = "archive", no_mangle)]
pub unsafe extern "C" fn slash_timings(
    records: *const u8,
    records_length: usize,
    words: *mut u64,
    words_length: usize,
) -> u64 {
    let records = lent(records, records_length);
    let words = lent_mut(words, words_length);
    status(crate::timings::timings(records, words))
}

// Breaths, nights and listings.

#[cfg_attr(feature = "archive", no_mangle)]
pub unsafe extern "C" fn slash_breath(
    rate: u64,
    onset: u32,
    peak: u32,
    next: u32,
    word: *mut u64,
) -> u64 {
    store(
        crate::breath::breath::<false>(rate, onset, peak, next),
        word,
    )
}

#[cfg_attr(feature = "archive", no_mangle)]
pub unsafe extern "C" fn slash_night(
    recording: *const u8,
    recording_length: usize,
    listing: *mut u8,
    length: *mut u64,
) -> u64 {
    let recording = lent(recording, recording_length);
    let listing = lent_mut(listing, crate::night::LISTING_BYTES);
    store(crate::night::night::<false>(recording, listing), length)
}

/// What a piece came to.
#[repr(C)]
#[derive(Clone, Copy, Debug, Default, PartialEq, Eq)]
pub struct Piece {
    pub used: u64,
    pub length: u64,
    pub ended: u64,
}

#[cfg_attr(feature = "archive", no_mangle)]
pub unsafe extern "C" fn slash_night_piece(
    night: *mut NightState,
    bytes: *const u8,
    bytes_length: usize,
    last: u64,
    text: *mut u8,
    text_length: usize,
    piece: *mut Piece,
) -> u64 {
    let (bytes, text) = (lent(bytes, bytes_length), lent_mut(text, text_length));
    let mut going = match Night::<false>::of(*night) {
        Ok(going) => going,
        Err(stop) => return stop,
    };
    let listed = going.piece(bytes, last != 0, text);
    let ended = match listed.end {
        End::Open => 0,
        End::Closed => 1,
        End::Refused { number, line } => return line * 256 + number,
    };
    *night = going.state();
    *piece = Piece {
        used: listed.used as u64,
        length: listed.length as u64,
        ended,
    };
    0
}

#[cfg_attr(feature = "archive", no_mangle)]
pub unsafe extern "C" fn slash_load(
    text: *const u8,
    text_length: usize,
    numbers: *mut u64,
    numbers_length: usize,
    words: *mut u64,
    words_length: usize,
    count: *mut u64,
    total: *mut u64,
) -> u64 {
    let text = lent(text, text_length);
    let (numbers, words) = (
        lent_mut(numbers, numbers_length),
        lent_mut(words, words_length),
    );
    match crate::load::load(text, numbers, words) {
        Ok(loaded) => {
            (*count, *total) = loaded;
            0
        }
        Err(status) => status,
    }
}
