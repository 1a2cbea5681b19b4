//! A printed listing, read back by hand-written code: judged whole, then stored.
//!
//! A line is good where it is just what is listed of its own word under the name that is due. So the word
//! is read where that name leaves it, its line is written anew, and the two are compared. What a line
//! breaks is asked of the first that differs, and of no other.

use crate::line::{in_window, Listing, MOST_BREATHS, MOST_BYTES};
use crate::LIST_TOO_SHORT;

const BAD_SHAPE: u64 = 13;
const OUT_OF_SEQUENCE: u64 = 14;
const BAD_WORD: u64 = 15;

/// The digits of a word.
const DIGITS: usize = 8;

/// A 1 in each byte.
const EACH: u64 = 0x0101_0101_0101_0101;

/// The name of a line: a breath's number, or `all`.
#[derive(Clone, Copy)]
enum Name {
    Breath(u32),
    All,
}

/// Stores the numbers and the words of a listing's breaths at the start of the lists, and gives their
/// count and the total's word.
#[inline]
pub fn load(text: &[u8], numbers: &mut [u64], words: &mut [u64]) -> Result<(u64, u64), u64> {
    let (count, total) = check(text)?;
    let (Some(numbers), Some(words)) = (numbers.get_mut(..count), words.get_mut(..count)) else {
        return Err(LIST_TOO_SHORT);
    };
    store(text, numbers, words);
    Ok((count as u64, total.into()))
}

// The first pass.

/// Reads a listing through, for its count and its total's word, or the stop of its first bad line.
#[inline]
fn check(text: &[u8]) -> Result<(usize, u32), u64> {
    let (mut line, mut rest) = (1, text);
    while line <= MOST_BREATHS {
        let Some((_, used)) = next_line(Name::Breath(line), rest) else {
            break;
        };
        (line, rest) = (line + 1, &rest[used..]);
    }
    // The total of no breaths is void.
    let is_total = |&(total, _): &(u32, usize)| line > 1 || total == 0;
    let Some((total, used)) = next_line(Name::All, rest).filter(is_total) else {
        return Err(stop(line, rest, false));
    };
    let behind = &rest[used..];
    if !behind.is_empty() {
        return Err(stop(line + 1, behind, true));
    }
    Ok((line as usize - 1, total))
}

/// The word of the line at the start of some bytes and the bytes that it uses, if it is good under a name.
#[inline]
fn next_line(name: Name, rest: &[u8]) -> Option<(u32, usize)> {
    in_window(rest, |line| good_line(name, line))
}

#[inline]
fn good_line(name: Name, line: &[u8; MOST_BYTES]) -> Option<(u32, usize)> {
    // Written over a copy, which a good line leaves as it was.
    let mut bytes = *line;
    let mut listing = Listing {
        bytes: &mut bytes,
        length: 0,
    };
    match name {
        Name::Breath(number) => listing.decimal(number),
        Name::All => listing.text(b"all"),
    }
    let word = word_at(line, listing.length + 1);
    // The sign is read with the numerator: a word that has it is above 1.
    let (n, d) = (word >> 16, word & 0x7fff);
    if word == 0 {
        listing.void();
    } else if n <= d && d != 0 {
        listing.columns(word, n, d);
    } else {
        return None;
    }
    let used = listing.length;
    // What takes longest is asked last, so that nothing else waits for it.
    (bytes == *line && (word == 0 || are_coprime(d, n))).then_some((word, used))
}

/// The word of the eight lowercase hexadecimal digits from a place on. Bytes that are no such digits give
/// some word, and its digits are others.
#[inline]
fn word_at(line: &[u8], place: usize) -> u32 {
    let digits = line[place..place + DIGITS].try_into();
    let digits = u64::from_be_bytes(digits.expect("eight bytes"));
    // Bit 6 tells a letter, whose lowest bits count from 1, for ten.
    let halves = (digits & (EACH * 15)) + (digits >> 6 & EACH) * 9;
    let bytes = (halves | halves >> 4) & 0x00ff_00ff_00ff_00ff;
    let pairs = (bytes | bytes >> 8) & 0x0000_ffff_0000_ffff;
    (pairs | pairs >> 16) as u32
}

/// Whether two numbers, not both 0, have no common divisor but 1: by Euclid's loop with the rest that is
/// nearest to 0, above it or below, which takes fewer divisions.
#[inline]
fn are_coprime(mut a: u32, mut b: u32) -> bool {
    while b > 1 {
        let rest = a % b;
        (a, b) = (b, rest.min(b - rest));
    }
    b == 1 || a == 1
}

/// The stop of a line that isn't good, behind `all` or not.
#[cold]
fn stop(line: u32, rest: &[u8], behind_all: bool) -> u64 {
    let number = match shaped_name(rest) {
        None if rest.is_empty() => OUT_OF_SEQUENCE,
        None => BAD_SHAPE,
        Some(_) if behind_all => OUT_OF_SEQUENCE,
        Some(b"all") if line > 1 => BAD_WORD,
        Some(name) if line <= MOST_BREATHS && *name == *line.to_string().as_bytes() => BAD_WORD,
        Some(_) => OUT_OF_SEQUENCE,
    };
    u64::from(line) * 256 + number
}

/// The name of the line at the start of some bytes, if it has the shape of a listed one.
fn shaped_name(bytes: &[u8]) -> Option<&[u8]> {
    let rest = bytes.strip_prefix(b"all").or_else(|| behind_whole(bytes))?;
    let name = &bytes[..bytes.len() - rest.len()];
    let (word, rest) = rest.strip_prefix(b"\t")?.split_at_checked(DIGITS)?;
    let is_digit = |byte: &u8| matches!(byte, b'0'..=b'9' | b'a'..=b'f');
    if !word.iter().all(is_digit) {
        return None;
    }
    let rest = rest.strip_prefix(b"\t")?;
    if rest.starts_with(b"-\t-\n") {
        return Some(name);
    }
    let rest = behind_whole(rest)?.strip_prefix(b"/")?;
    let rest = behind_whole(rest)?.strip_prefix(b"\t")?;
    let rest = behind_whole(rest)?.strip_prefix(b".")?;
    matches!(rest, [b'0'..=b'9', b'\n', ..]).then_some(name)
}

/// What stands behind the whole number at the start of some bytes. One that begins with a zero ends with it.
fn behind_whole(bytes: &[u8]) -> Option<&[u8]> {
    if let Some(rest) = bytes.strip_prefix(b"0") {
        return Some(rest);
    }
    let digits = bytes.iter().take_while(|byte| byte.is_ascii_digit());
    let length = digits.count();
    (length > 0).then(|| &bytes[length..])
}

// The second pass.

/// Stores what a good listing says, a line for each place of the lists.
#[inline]
fn store(text: &[u8], numbers: &mut [u64], words: &mut [u64]) {
    let mut rest = text;
    for ((number, word), line) in numbers.iter_mut().zip(words).zip(1u32..) {
        let place = line.ilog10() as usize + 2;
        *number = line.into();
        *word = word_at(rest, place).into();
        rest = behind_line_feed(&rest[place + DIGITS..]);
    }
}

/// What stands behind the first line feed, looked for eight bytes at a time. A breath's line has the line
/// `all` behind it, so that there are as many.
#[inline]
fn behind_line_feed(mut rest: &[u8]) -> &[u8] {
    while let Some((bytes, behind)) = rest.split_first_chunk() {
        let others = u64::from_le_bytes(*bytes) ^ (EACH * u64::from(b'\n'));
        // A byte of 0 borrows from its highest bit; the lowest that did is the first.
        let found = others.wrapping_sub(EACH) & !others & (EACH << 7);
        if found != 0 {
            return &rest[found.trailing_zeros() as usize / 8 + 1..];
        }
        rest = behind;
    }
    unreachable!("a line feed")
}
