//! Words taken apart, and values written, from document 01 and what include/slash.h says of its functions.

use crate::paper::{self, binary_gcd, Answer, Format, Number, Pair, Size, Stop};

/// What a word says, in the numbers of the header.
#[derive(Clone, Copy, Debug, PartialEq, Eq)]
pub struct Value {
    pub sign: u64,
    pub class: u64,
    pub numerator: u64,
    pub denominator: u64,
    pub mark: u64,
}

/// The classes.
pub const FRACTION: u64 = 1;
pub const ZERO: u64 = 2;
pub const INFINITY: u64 = 3;
pub const NOT_A_NUMBER: u64 = 4;

/// What a word says; the word's stops.
pub fn read(form: Format, word: u64) -> Answer<Value> {
    let number = paper::read(form, word)?;
    let (class, (numerator, denominator)) = classed(number.size);
    Ok(Value {
        sign: u64::from(number.negative && class != NOT_A_NUMBER),
        class,
        numerator: numerator as u64,
        denominator: denominator as u64,
        mark: number.marked.into(),
    })
}

/// The class of a size, and its parts.
fn classed(size: Size) -> (u64, Pair) {
    match size {
        Size::Finite((0, _)) => (ZERO, (0, 1)),
        Size::Finite(pair) => (FRACTION, pair),
        Size::Infinite => (INFINITY, (1, 0)),
        Size::NotANumber => (NOT_A_NUMBER, (0, 0)),
    }
}

/// The canonical word of a value; stop 2, then 6.
pub fn write(form: Format, value: Value) -> Answer<u64> {
    let size = match value.class {
        FRACTION => Size::Finite((value.numerator.into(), value.denominator.into())),
        ZERO => Size::Finite((0, 1)),
        INFINITY => Size::Infinite,
        NOT_A_NUMBER => Size::NotANumber,
        _ => return unknown(),
    };
    let number = Number {
        negative: bit(value.sign)?,
        marked: bit(value.mark)?,
        size,
    };
    paper::write(form, number)
}

fn bit(number: u64) -> Answer<bool> {
    match number {
        0 => Ok(false),
        1 => Ok(true),
        _ => unknown(),
    }
}

fn unknown<T>() -> Answer<T> {
    Err(Stop {
        number: 2,
        place: 0,
    })
}

/// Whether a word of the format can say just this of itself, its parts in lowest terms: what is written is read again
/// as it was then.
pub fn is_held(form: Format, value: Value) -> bool {
    let pair = (value.numerator.into(), value.denominator.into());
    let is_number = value.sign <= 1 && value.mark <= 1;
    match value.class {
        FRACTION => {
            let is_some = value.numerator != 0 && value.denominator != 0;
            is_number
                && is_some
                && form.holds(pair)
                && binary_gcd(value.numerator, value.denominator) == 1
        }
        ZERO => is_number && pair == (0, 1),
        INFINITY => is_number && pair == (1, 0),
        NOT_A_NUMBER => value.sign == 0 && value.mark == 0 && pair == (0, 0),
        _ => false,
    }
}

#[cfg(test)]
mod tests {
    use super::*;

    /// The largest part of either kind is that of the pairs that the format holds.
    #[test]
    fn the_largest_part_is_held_and_no_larger_one() {
        for form in paper::all_formats().filter(|form| form.k <= 8) {
            let pairs = paper::held_pairs(form);
            let fractions = || pairs.iter().filter(|&&(r, s)| r != 0 && s != 0);
            let largest = Some(form.largest_part());
            assert_eq!(fractions().map(|pair| pair.0).max(), largest);
            assert_eq!(fractions().map(|pair| pair.1).max(), largest);
        }
    }

    /// What is read of a word is written as the word normalised; and a value that is held is read again as it was.
    #[test]
    fn words_and_values_go_both_ways() {
        for form in paper::all_formats().filter(|form| form.width() <= 12) {
            for word in 0..1 << form.width() {
                let value = read(form, word);
                assert_eq!(
                    value.and_then(|value| write(form, value)),
                    paper::unary(form, 7, word)
                );
                if let Some(value) = value.ok().filter(|&value| is_held(form, value)) {
                    assert_eq!(
                        write(form, value).and_then(|word| read(form, word)),
                        Ok(value)
                    );
                }
            }
        }
    }
}
