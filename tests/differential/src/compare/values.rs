//! Formats asked for their limits, words taken apart, and values written.

use crate::calls::{status, stored, told, Harness, LENT};
use crate::inputs::{Source, STRANGE};
use crate::{numbers_of, smallest_formats};
use differential::paper::{self, all_formats, Format};
use differential::value::{self, Value};
use slash::raw;

const NORMALISE: u64 = 7;

/// What a lent struct holds before a call.
const LENT_VALUE: raw::Value = raw::Value {
    sign: LENT,
    value_class: LENT ^ 1,
    numerator: LENT ^ 2,
    denominator: LENT ^ 3,
    mark: LENT ^ 4,
};

/// A value as the archive takes it.
fn lent(value: Value) -> raw::Value {
    raw::Value {
        sign: value.sign,
        value_class: value.class,
        numerator: value.numerator,
        denominator: value.denominator,
        mark: value.mark,
    }
}

/// What the archive returns for a word, and the struct that it is lent between two others.
fn archive_read((kind, k): (u64, u64), word: u64) -> (u64, [raw::Value; 3]) {
    let mut values = [LENT_VALUE; 3];
    let returned = unsafe { raw::slash_read(kind, k, word, &mut values[1]) };
    (returned, values)
}

impl Harness {
    pub fn width(&mut self, form: (u64, u64)) {
        let (kind, k) = form;
        let archive = stored(|width| unsafe { raw::slash_width(kind, k, width) });
        let papers = paper::format(kind, k).map(|form| form.width().into());
        self.hold("slash_width", form, archive, told(papers));
    }

    pub fn largest(&mut self, form: (u64, u64)) {
        let (kind, k) = form;
        let archive = stored(|largest| unsafe { raw::slash_largest(kind, k, largest) });
        let papers = paper::format(kind, k).map(|form| form.largest_part() as u64);
        self.hold("slash_largest", form, archive, told(papers));
    }

    pub fn check(&mut self, form: (u64, u64), word: u64) {
        let (kind, k) = form;
        let archive = unsafe { raw::slash_check(kind, k, word) };
        let papers = paper::format(kind, k).and_then(|form| paper::read(form, word));
        let expected = papers.map_or_else(status, |_| 0);
        self.hold("slash_check", (form, word), archive, expected);
    }

    /// Holds what is read of a word to the papers; written again, it is the word normalised.
    pub fn read(&mut self, form: (u64, u64), word: u64) {
        let (kind, k) = form;
        let (returned, values) = archive_read(form, word);
        let papers = paper::format(kind, k).and_then(|form| value::read(form, word));
        let expected = match papers {
            Ok(value) => (0, [LENT_VALUE, lent(value), LENT_VALUE]),
            Err(stop) => (status(stop), [LENT_VALUE; 3]),
        };
        self.hold("slash_read", (form, word), (returned, values), expected);
        if returned == 0 {
            let again = stored(|word| unsafe { raw::slash_write(kind, k, &values[1], word) });
            let normalised =
                stored(|found| unsafe { raw::slash_unary(kind, k, NORMALISE, word, found) });
            self.hold("slash_write", (form, word, values[1]), again, normalised);
        }
    }

    /// Holds the word of a value to the papers; where the format holds the value, it is read again as it was.
    pub fn write(&mut self, form: (u64, u64), value: Value) {
        let (kind, k) = form;
        let given = lent(value);
        let (returned, word) = stored(|word| unsafe { raw::slash_write(kind, k, &given, word) });
        let papers = paper::format(kind, k).and_then(|form| value::write(form, value));
        self.hold(
            "slash_write",
            (form, value),
            ((returned, word), given),
            (told(papers), lent(value)),
        );
        let is_held = paper::format(kind, k).is_ok_and(|form| value::is_held(form, value));
        if returned == 0 && is_held {
            let expected = (0, [LENT_VALUE, lent(value), LENT_VALUE]);
            self.hold(
                "slash_read",
                (form, value, word),
                archive_read(form, word),
                expected,
            );
        }
    }
}

// The exhaustive part.

pub fn every_value(harness: &mut Harness) {
    every_limit(harness);
    every_word_taken_apart(harness);
    every_bit_above(harness);
    every_small_value(harness);
    every_large_value(harness);
    every_strange_value(harness);
}

/// Kinds and k about those that there are, and strange ones.
fn kinds_and_ks() -> impl Iterator<Item = (u64, u64)> {
    let small = (0..=3).flat_map(|kind| (0..=40).map(move |k| (kind, k)));
    let strange = STRANGE.map(|kind| STRANGE.map(|k| (kind, k)));
    small.chain(strange.concat())
}

/// The limits of every format, and of what is none; there, too, a word and a value that any format has.
fn every_limit(harness: &mut Harness) {
    for form in kinds_and_ks() {
        harness.width(form);
        harness.largest(form);
        harness.check(form, 1);
        harness.read(form, 1);
        harness.write(form, fraction((1, 1)));
    }
}

/// All words of the small formats; of the smallest also those with one bit or two above the width.
fn every_word_taken_apart(harness: &mut Harness) {
    for form in all_formats().filter(|form| form.width() <= 12) {
        for word in 0..1 << form.width() {
            harness.check(numbers_of(form), word);
            harness.read(numbers_of(form), word);
        }
    }
    for form in smallest_formats() {
        for word in 0..4 << form.width() {
            harness.check(numbers_of(form), word);
            harness.read(numbers_of(form), word);
        }
    }
}

/// Each bit above the width of each format, alone, with all bits below the width, and with all other bits above it.
fn every_bit_above(harness: &mut Harness) {
    for form in all_formats() {
        let all_above = u64::MAX.checked_shl(form.width()).unwrap_or(0);
        for bit in (form.width()..u64::BITS).map(|place| 1 << place) {
            for word in [bit, bit | !all_above, all_above & !bit] {
                harness.check(numbers_of(form), word);
                harness.read(numbers_of(form), word);
            }
        }
    }
}

fn fraction((numerator, denominator): (u64, u64)) -> Value {
    Value {
        sign: 0,
        class: value::FRACTION,
        numerator,
        denominator,
        mark: 0,
    }
}

/// The value with these signs and marks, in each of these classes.
fn varied(
    value: Value,
    classes: std::ops::Range<u64>,
    flags: std::ops::Range<u64>,
) -> impl Iterator<Item = Value> {
    let marked = flags.clone().map(move |mark| Value { mark, ..value });
    let signed =
        marked.flat_map(move |value| flags.clone().map(move |sign| Value { sign, ..value }));
    signed.flat_map(move |value| classes.clone().map(move |class| Value { class, ..value }))
}

/// Small parts in the smallest formats, with every class, sign and mark, and one that is none on each side.
fn every_small_value(harness: &mut Harness) {
    for form in smallest_formats() {
        for pair in (0..=20).flat_map(|n| (0..=20).map(move |d| (n, d))) {
            for value in varied(fraction(pair), 0..6, 0..3) {
                harness.write(numbers_of(form), value);
            }
        }
    }
}

/// Parts about the largest of each format and about the largest of all, of both signs, marked and not.
fn every_large_value(harness: &mut Harness) {
    for form in all_formats() {
        let largest = form.largest_part() as u64;
        let ends = [largest, 1 << 31, 1 << 32, 1 << 63];
        let about = ends.map(|end| [end - 1, end, end + 1]).concat();
        let parts = [&about[..], &[0, 1, 2, u64::MAX - 1, u64::MAX]].concat();
        for pair in parts
            .iter()
            .flat_map(|&n| parts.iter().map(move |&d| (n, d)))
        {
            for value in varied(fraction(pair), 1..2, 0..2) {
                harness.write(numbers_of(form), value);
            }
        }
    }
}

/// Strange numbers for the class, the sign and the mark, each beside others that are good.
fn every_strange_value(harness: &mut Harness) {
    let numbers = STRANGE.into_iter().chain(0..6);
    for (number, pair) in numbers.flat_map(|number| [(1, 2), (0, 0)].map(|pair| (number, pair))) {
        for value in varied(fraction(pair), 1..5, 0..2) {
            for strange in [
                Value {
                    class: number,
                    ..value
                },
                Value {
                    sign: number,
                    ..value
                },
                Value {
                    mark: number,
                    ..value
                },
            ] {
                harness.write((1, 15), strange);
                harness.write((2, 26), strange);
            }
        }
    }
}

// The random part.

/// One call of any of these functions.
pub fn random_value(harness: &mut Harness, source: &mut Source) {
    let form = source.format();
    match source.below(16) {
        0 => harness.width(form),
        1 => harness.largest(form),
        2..=4 => harness.check(form, source.word(form)),
        5..=9 => harness.read(form, source.word(form)),
        _ => {
            let value = source.value(form);
            harness.write(form, value);
        }
    }
}

impl Source {
    /// A value, of any class but most often a fraction: half of these of parts that the format holds, half of any.
    fn value(&mut self, (kind, k): (u64, u64)) -> Value {
        let any = (self.part(), self.part());
        let class = self.number_in(1, 4);
        Value {
            sign: self.number_in(0, 1),
            class: if self.below(2) == 0 {
                value::FRACTION
            } else {
                class
            },
            mark: self.number_in(0, 1),
            ..fraction(match paper::format(kind, k) {
                Ok(form) if self.below(2) == 0 => self.held_parts(form),
                _ => any,
            })
        }
    }

    fn held_parts(&mut self, form: Format) -> (u64, u64) {
        let (numerator, denominator) = self.pair(form);
        (numerator as u64, denominator as u64)
    }
}
