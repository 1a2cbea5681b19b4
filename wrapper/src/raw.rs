//! The archive's functions as `include/slash.h` declares them; what each answers is told there.
//!
//! Each returns 0, or where it stopped the place times 256 plus the stop's number.
//!
//! # Safety
//!
//! A pointer is aligned and not null, and points to as many numbers as its length says (`listing` to
//! `LISTING_BYTES` bytes, any other pointer without a length to one number or one struct). Where its length
//! is 0 it may be null. What is written through one pointer is reached through no other during the call.

use crate::header;

/// The bytes that are lent for a listing: none has more.
pub const LISTING_BYTES: usize = header::LISTING_BYTES as usize;

/// The most breaths of a listing: lists of so many places are never too short for it.
pub const MOST_BREATHS: usize = header::MOST_BREATHS as usize;

/// The bytes of one record that the scoring package exports.
pub const RECORD_BYTES: usize = header::RECORD_BYTES as usize;

/// The kinds of its records.
pub const RECORD_TIMINGS: u32 = header::RECORD_TIMINGS as u32;
pub const RECORD_RATIO: u32 = header::RECORD_RATIO as u32;

/// What a word says: `slash_value`, whose fields the header tells.
#[repr(C)]
#[derive(Clone, Copy, Debug, Default, PartialEq, Eq)]
pub struct Value {
    pub sign: u64,
    pub value_class: u64,
    pub numerator: u64,
    pub denominator: u64,
    pub mark: u64,
}

/// A night that is listed in pieces: `slash_night_state`, all 0 where nothing of it is read.
#[repr(C)]
#[derive(Clone, Copy, Debug, Default, PartialEq, Eq)]
pub struct NightState {
    pub rate: u64,
    pub breath: u64,
    pub inspiration: u64,
    pub whole: u64,
}

/// What a piece came to: `slash_piece`.
#[repr(C)]
#[derive(Clone, Copy, Debug, Default, PartialEq, Eq)]
pub struct Piece {
    pub used: u64,
    pub length: u64,
    pub ended: u64,
}

extern "C" {
    pub fn slash_width(kind: u64, k: u64, width: *mut u64) -> u64;
    pub fn slash_largest(kind: u64, k: u64, largest: *mut u64) -> u64;
    pub fn slash_check(kind: u64, k: u64, word: u64) -> u64;
    pub fn slash_read(kind: u64, k: u64, word: u64, value: *mut Value) -> u64;
    pub fn slash_write(kind: u64, k: u64, value: *const Value, word: *mut u64) -> u64;
    pub fn slash_round(kind: u64, k: u64, n: u64, d: u64, word: *mut u64) -> u64;
    pub fn slash_binary(kind: u64, k: u64, code: u64, left: u64, right: u64, word: *mut u64)
        -> u64;
    pub fn slash_unary(kind: u64, k: u64, code: u64, operand: u64, word: *mut u64) -> u64;
    pub fn slash_compare(kind: u64, k: u64, left: u64, right: u64, order: *mut u64) -> u64;
    pub fn slash_gcd(kind: u64, k: u64, operand: u64, divisor: *mut u64) -> u64;
    pub fn slash_convert(
        kind: u64,
        k: u64,
        to_kind: u64,
        to_k: u64,
        operand: u64,
        word: *mut u64,
    ) -> u64;
    pub fn slash_quotients(
        kind: u64,
        k: u64,
        operand: u64,
        list: *mut u32,
        list_length: usize,
        count: *mut u64,
    ) -> u64;
    pub fn slash_quotient_count(kind: u64, k: u64, operand: u64, count: *mut u64) -> u64;
    pub fn slash_twist(kind: u64, k: u64, word: u64, twisted: *mut u64) -> u64;
    pub fn slash_untwist(kind: u64, k: u64, twisted: u64, word: *mut u64) -> u64;
    pub fn slash_binary_each(
        kind: u64,
        k: u64,
        code: u64,
        left: *const u64,
        left_length: usize,
        right: *const u64,
        right_length: usize,
        out: *mut u64,
        out_length: usize,
    ) -> u64;
    pub fn slash_unary_each(
        kind: u64,
        k: u64,
        code: u64,
        operand: *const u64,
        operand_length: usize,
        out: *mut u64,
        out_length: usize,
    ) -> u64;
    pub fn slash_convert_each(
        kind: u64,
        k: u64,
        to_kind: u64,
        to_k: u64,
        operand: *const u64,
        operand_length: usize,
        out: *mut u64,
        out_length: usize,
    ) -> u64;
    pub fn slash_twist_each(
        kind: u64,
        k: u64,
        operand: *const u64,
        operand_length: usize,
        out: *mut u64,
        out_length: usize,
    ) -> u64;
    pub fn slash_untwist_each(
        kind: u64,
        k: u64,
        operand: *const u64,
        operand_length: usize,
        out: *mut u64,
        out_length: usize,
    ) -> u64;
    pub fn slash_breath(rate: u64, onset: u32, peak: u32, next: u32, word: *mut u64) -> u64;
    pub fn slash_night(
        recording: *const u8,
        recording_length: usize,
        listing: *mut u8,
        length: *mut u64,
    ) -> u64;
    pub fn slash_night_piece(
        night: *mut NightState,
        bytes: *const u8,
        bytes_length: usize,
        last: u64,
        text: *mut u8,
        text_length: usize,
        piece: *mut Piece,
    ) -> u64;
    pub fn slash_load(
        text: *const u8,
        text_length: usize,
        numbers: *mut u64,
        numbers_length: usize,
        words: *mut u64,
        words_length: usize,
        count: *mut u64,
        total: *mut u64,
    ) -> u64;
    pub fn slash_timings(
        records: *const u8,
        records_length: usize,
        words: *mut u64,
        words_length: usize,
    ) -> u64;
}
