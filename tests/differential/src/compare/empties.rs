//! Calls that are lent nothing at some pointer, which may be null then.

use crate::calls::Harness;
use crate::pieces;

/// Formats of both kinds, and one that is none.
const FORMATS: [(u64, u64); 4] = [(1, 15), (2, 26), (2, 32), (1, 32)];

/// Every call that takes a pointer with a length, with nothing at each of its pointers and one number, record or
/// line at the others; each pointer to nothing is null, and then not.
pub fn every_empty(harness: &mut Harness) {
    for empty_is_null in [true, false] {
        harness.empty_is_null = empty_is_null;
        for form in FORMATS {
            every_empty_vector(harness, form);
            every_empty_list(harness, form);
        }
        every_empty_text(harness);
        pieces::every_empty_piece(harness);
    }
}

/// So many words, each good in every format.
fn words(count: usize) -> &'static [u64] {
    &[1][..count]
}

fn every_empty_vector(harness: &mut Harness, form: (u64, u64)) {
    for (operand, out) in [(0, 0), (0, 1), (1, 0)] {
        for code in 0..=8 {
            harness.unary_each(form, code, words(operand), out);
        }
        for target in FORMATS {
            harness.convert_each(form, target, words(operand), out);
        }
        harness.twist_each(form, words(operand), out);
        harness.untwist_each(form, words(operand), out);
        for (code, right) in (0..=5).flat_map(|code| [(code, 0), (code, 1)]) {
            harness.binary_each(form, code, words(operand), words(right), out);
        }
    }
}

/// Words with one quotient, with none, and one that stops.
fn every_empty_list(harness: &mut Harness, form: (u64, u64)) {
    for word in [0, 1, u64::MAX] {
        harness.quotients(form, word, 0);
    }
}

fn every_empty_text(harness: &mut Harness) {
    harness.night(b"", true);
    for (numbers, words) in [(0, 0), (0, 1), (1, 0)] {
        for text in [
            "",
            "all\t00000000\t-\t-\n",
            "1\t00010002\t1/2\t50.0\nall\t00010002\t1/2\t50.0\n",
        ] {
            harness.load(text.as_bytes(), numbers, words);
        }
    }
    for (bytes, words) in [(0, 0), (0, 1), (11, 0), (12, 0)] {
        harness.timings(&[0; 12][..bytes], words);
    }
}
