//! Formats, words read and numbers written, and how stops are told.

use slash::{raw, Format, Number, Stop, Unary, Value};

const FIXED_3: Format = Format::fixed(3);
const FLOATING_3: Format = Format::floating(3);
const RECORDER: Format = Format::fixed(15);
const FLOATING_26: Format = Format::floating(26);

/// A stop without a place.
fn stop(number: u8) -> Stop {
    Stop { number, place: 0 }
}

fn plus(numerator: u64, denominator: u64) -> Value {
    fraction(false, numerator, denominator)
}

fn minus(numerator: u64, denominator: u64) -> Value {
    fraction(true, numerator, denominator)
}

fn fraction(negative: bool, numerator: u64, denominator: u64) -> Value {
    Value::Fraction {
        negative,
        numerator,
        denominator,
    }
}

const ZERO: Value = Value::Zero { negative: false };
const MINUS_ZERO: Value = Value::Zero { negative: true };
const INFINITY: Value = Value::Infinity { negative: false };
const MINUS_INFINITY: Value = Value::Infinity { negative: true };

fn exact(value: Value) -> Number {
    let approximate = false;
    Number { value, approximate }
}

fn approximate(value: Value) -> Number {
    let approximate = true;
    Number { value, approximate }
}

#[test]
fn formats_have_the_papers_widths_and_largest_parts() {
    for k in 2..=31 {
        let form = Format::fixed(k);
        assert_eq!(slash::width(form), Ok(2 * k as u32 + 2));
        assert_eq!(slash::largest(form), Ok((1 << k) - 1));
    }
    for k in 2..=32 {
        let form = Format::floating(k);
        let length = (0..).find(|&l| 1 << l >= k).expect("some power of 2");
        assert_eq!(slash::width(form), Ok(k as u32 + length + 1));
        // A numerator of k - 1 bits, over a denominator of one.
        assert_eq!(slash::largest(form), Ok((1 << (k - 1)) - 1));
    }
}

#[test]
fn an_unknown_format_is_refused_first() {
    for (kind, k) in [
        (0, 15),
        (1, 1),
        (1, 32),
        (2, 1),
        (2, 33),
        (1, (1 << 32) + 15),
    ] {
        let form = Format { kind, k };
        assert_eq!(slash::width(form), Err(stop(1)));
        assert_eq!(slash::largest(form), Err(stop(1)));
        assert_eq!(slash::check(form, u64::MAX), Err(stop(1)));
        assert_eq!(slash::read(form, u64::MAX), Err(stop(1)));
        assert_eq!(slash::write(form, exact(plus(1, 0))), Err(stop(1)));
    }
}

#[test]
fn a_word_says_what_the_papers_read() {
    let says = |form, word, number, normalised| {
        assert_eq!(slash::read(form, word), Ok(number), "{word:08x}");
        assert_eq!(slash::write(form, number), Ok(normalised), "{word:08x}");
    };
    says(RECORDER, 0x0115_0282, exact(plus(277, 642)), 0x0115_0282);
    says(
        RECORDER,
        0x8115_8282,
        approximate(minus(277, 642)),
        0x8115_8282,
    );
    says(FLOATING_26, 0x0c00_58f1, exact(plus(355, 113)), 0x0c00_58f1);
    says(
        FLOATING_26,
        0xcc00_58f1,
        approximate(minus(355, 113)),
        0xcc00_58f1,
    );
    // Not in lowest terms.
    says(RECORDER, 0x0010_0028, exact(plus(16, 40)), 0x0002_0005);
    // With messages in the free bits, which aren't kept.
    says(RECORDER, 0x0000_8005, approximate(ZERO), 0x0000_8001);
    says(RECORDER, 0x8000_0007, exact(MINUS_ZERO), 0x8000_0001);
    says(RECORDER, 0x0007_0000, exact(INFINITY), 0x0001_0000);
    says(FLOATING_26, 0xbe00_0006, exact(MINUS_INFINITY), 0xbe00_0000);
    // A not-a-number has no sign, and one word, which has no mark.
    for word in [0, 2, 0x8000_0000, 0x0002_0000] {
        says(RECORDER, word, exact(Value::NotANumber), 0);
        says(RECORDER, word | 0x8000, approximate(Value::NotANumber), 0);
    }
    says(
        FLOATING_26,
        0xfe00_0007,
        approximate(Value::NotANumber),
        0x3e00_0001,
    );
}

#[test]
fn numbers_are_shown_as_fractions() {
    let shown = |number: Number, text| assert_eq!(number.to_string(), text);
    shown(exact(plus(16, 40)), "16/40, exact");
    shown(approximate(minus(277, 642)), "-277/642, approximate");
    shown(exact(MINUS_ZERO), "-0/1, exact");
    shown(exact(INFINITY), "1/0, exact");
    shown(approximate(Value::NotANumber), "0/0, approximate");
}

#[test]
fn what_is_read_is_written_as_the_word_normalised() {
    // All words of these widths, good or not.
    for form in [
        FIXED_3,
        FLOATING_3,
        Format::floating(4),
        Format::floating(5),
    ] {
        let width = slash::width(form).expect("a known format");
        for word in 0..1 << (width + 1) {
            let read = slash::read(form, word);
            assert_eq!(slash::check(form, word), read.map(|_| ()));
            let written = read.and_then(|number| slash::write(form, number));
            assert_eq!(written, slash::unary(form, Unary::Normalise, word));
            if let Ok(word) = written {
                let again = slash::read(form, word).and_then(|number| slash::write(form, number));
                assert_eq!(again, Ok(word), "what is written is read as it was");
            }
        }
    }
}

#[test]
fn a_fraction_is_written_as_it_is_rounded() {
    let form = Format::fixed(9);
    let (sign, mark) = (1 << 19, 1 << 9);
    for (n, d) in [
        (277, 642),
        (85, 197),
        (0, 7),
        (2, 4),
        (1, 1 << 40),
        (u64::MAX, 1),
    ] {
        let rounded = slash::round(form, n, d).expect("a word");
        let written = |number| slash::write(form, number);
        assert_eq!(written(exact(plus(n, d))), Ok(rounded));
        assert_eq!(written(exact(minus(n, d))), Ok(rounded | sign));
        assert_eq!(written(approximate(plus(n, d))), Ok(rounded | mark));
        assert_eq!(written(approximate(minus(n, d))), Ok(rounded | sign | mark));
    }
}

#[test]
fn a_refused_word_leaves_the_value() {
    assert_eq!(slash::check(FIXED_3, 0x100), Err(stop(4)));
    assert_eq!(slash::check(FLOATING_3, 0x08), Err(stop(5)));
    let before = raw::Value {
        sign: 6,
        value_class: 7,
        numerator: 8,
        denominator: 9,
        mark: 10,
    };
    for (kind, word, number) in [(3, 0x100, 1), (1, 0x100, 4), (2, 0x48, 4), (2, 0x08, 5)] {
        let mut value = before;
        // SAFETY: the pointer comes from a live value.
        let returned = unsafe { raw::slash_read(kind, 3, word, &mut value) };
        assert_eq!((returned, value), (number, before));
    }
}

#[test]
fn a_refused_value_leaves_the_word() {
    assert_eq!(slash::write(FIXED_3, exact(minus(1, 0))), Err(stop(6)));
    // Of the archive itself also what Rust's numbers can't say.
    let good = raw::Value {
        sign: 1,
        value_class: 1,
        numerator: 2,
        denominator: 3,
        mark: 1,
    };
    let written = |kind, change: &dyn Fn(&mut raw::Value)| {
        let (mut value, mut word) = (good, 7);
        change(&mut value);
        // SAFETY: the pointers come from live values.
        let returned = unsafe { raw::slash_write(kind, 3, &value, &mut word) };
        (returned, word)
    };
    assert_eq!(written(1, &|_| ()), (0, 0xab));
    assert_eq!(written(3, &|value| value.value_class = 5), (1, 7));
    for class in [0, 5, u64::MAX] {
        assert_eq!(written(1, &|value| value.value_class = class), (2, 7));
    }
    for class in 1..=4 {
        for bad in [2, u64::MAX] {
            let signed = written(1, &|value| (value.value_class, value.sign) = (class, bad));
            let marked = written(1, &|value| (value.value_class, value.mark) = (class, bad));
            assert_eq!((signed, marked), ((2, 7), (2, 7)));
        }
    }
    // 2 before 6.
    assert_eq!(written(1, &|value| value.denominator = 0), (6, 7));
    let both = written(1, &|value| (value.denominator, value.mark) = (0, 2));
    assert_eq!(both, (2, 7));
}

#[test]
fn stops_and_the_version_are_told_as_the_header_tells_them() {
    let header = include_str!("../../include/slash.h");
    assert!(header.contains(&format!("#define SLASH_VERSION \"{}\"\n", slash::VERSION)));
    for number in 0..=255 {
        let told = header.contains(&format!(
            "case {number}: return \"{}\";",
            stop(number).text()
        ));
        assert_eq!(told, matches!(number, 0..=11 | 13..=19 | 255), "{number}");
    }
    let (number, place) = (10, 3);
    let stop = Stop { number, place };
    assert_eq!(stop.to_string(), "stop 10 at 3: not three fields");
}
