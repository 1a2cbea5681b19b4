//! Holds the archive to the implementation from the papers: compare [CASES [SEED]].
//!
//! The exhaustive part first, always whole, then CASES random calls: a million if no number is
//! given. A case is one call: what it returns and all that was lent to it must be what the papers
//! say. A call for the count of quotients has up to three more behind it, whose lists are about as
//! long; a word that is read is written again, a value that is written is read again; a night in
//! pieces is as many calls as its caller's buffers want, and one case more for all of them. Exit
//! status 1 where anything differs, and where a function that the header declares had no case in a
//! part; so few random calls that some function got none are too few.

mod calls;
mod counts;
mod empties;
mod inputs;
mod listings;
mod nights;
mod pieces;
mod records;
mod texts;
mod values;

use calls::Harness;
use counts::Part;
use differential::paper::{self, all_formats, Format, Kind};
use inputs::Source;
use std::process::ExitCode;

fn main() -> ExitCode {
    let numbers: Vec<u64> = std::env::args()
        .skip(1)
        .map(|text| text.parse().expect("usage: compare [CASES [SEED]]"))
        .collect();
    let cases = numbers.first().copied().unwrap_or(1_000_000);
    let mut source = Source::new(numbers.get(1).copied().unwrap_or(1));
    let mut harness = Harness::new();
    exhaustive_part(&mut harness, &mut source);
    harness.counts.part = Part::Random;
    for _ in 0..cases {
        random_call(&mut harness, &mut source);
    }
    if harness.counts.report() {
        ExitCode::SUCCESS
    } else {
        ExitCode::FAILURE
    }
}

// The exhaustive part. What it leaves to the source is the text of the long recordings and listings.

fn exhaustive_part(harness: &mut Harness, source: &mut Source) {
    values::every_value(harness);
    every_pair_of_words(harness);
    every_word(harness);
    most_quotients(harness);
    every_small_ratio(harness);
    whole_vectors(harness);
    every_twisted_word(harness);
    every_slash_position(harness);
    whole_vectors_twisted(harness);
    nights::every_breath(harness);
    nights::every_recording(harness, source);
    pieces::every_piece(harness, source);
    listings::every_listing(harness, source);
    records::every_record(harness);
    empties::every_empty(harness);
}

fn numbers_of(form: Format) -> (u64, u64) {
    (form.kind_number(), form.k.into())
}

fn smallest_formats() -> impl Iterator<Item = Format> {
    all_formats().filter(|form| form.k <= if form.kind == Kind::Fixed { 3 } else { 4 })
}

/// All pairs of words of the smallest formats, with every code and compared.
fn every_pair_of_words(harness: &mut Harness) {
    for form in smallest_formats() {
        let words = 1 << form.width();
        for (left, right) in (0..words).flat_map(|left| (0..words).map(move |right| (left, right)))
        {
            for code in 1..=4 {
                harness.binary(numbers_of(form), code, left, right);
            }
            harness.compare(numbers_of(form), left, right);
        }
    }
}

/// All words of the small formats: every unary code, the divisor, the quotients, their count, all
/// conversions.
fn every_word(harness: &mut Harness) {
    for form in all_formats().filter(|form| form.width() <= 12) {
        for word in 0..1 << form.width() {
            for code in 1..=7 {
                harness.unary(numbers_of(form), code, word);
            }
            harness.gcd(numbers_of(form), word);
            harness.quotient_count(numbers_of(form), word);
            for length in 0..=2 * form.k as usize {
                harness.quotients(numbers_of(form), word, length);
            }
            for target in all_formats().filter(|_| form.width() <= 10) {
                harness.convert(numbers_of(form), numbers_of(target), word);
            }
        }
    }
}

/// In every format the fractions with the most quotients, whose parts are neighbours in 1, 1, 2, 3,
/// 5, 8 and so on, in lowest terms and not: their count, and a list that never is too short.
fn most_quotients(harness: &mut Harness) {
    let neighbours = || std::iter::successors(Some((1, 1)), |&(r, s)| Some((s, r + s)));
    for form in all_formats() {
        let held = neighbours().take_while(|&pair| form.holds(pair));
        let turned = held.flat_map(|(r, s)| [(r, s), (s, r)]);
        let multiples = turned.flat_map(|(r, s)| (1..=3).map(move |times| (times * r, times * s)));
        for pair in multiples.filter(|&pair| form.holds(pair)) {
            let word = paper::pair_word(form, false, pair, false);
            harness.quotient_count(numbers_of(form), word);
            harness.quotients(numbers_of(form), word, 2 * form.k as usize);
        }
    }
}

/// Small ratios in every format, those over 0 included.
fn every_small_ratio(harness: &mut Harness) {
    for form in all_formats() {
        for (n, d) in (0..48).flat_map(|n| (0..48).map(move |d| (n, d))) {
            harness.round(numbers_of(form), n, d);
        }
    }
}

/// The words of the smallest formats as vectors: every code, each word as the left operand at all places,
/// all conversions.
fn whole_vectors(harness: &mut Harness) {
    for (form, operand) in smallest_formats().flat_map(|form| vectors_of(form).map(|v| (form, v))) {
        let (numbers, length) = (numbers_of(form), operand.len());
        for (code, &left) in (1..=4).flat_map(|code| operand.iter().map(move |left| (code, left))) {
            harness.binary_each(numbers, code, &vec![left; length], &operand, length);
        }
        for code in 1..=7 {
            harness.unary_each(numbers, code, &operand, length);
        }
        for target in all_formats() {
            harness.convert_each(numbers, numbers_of(target), &operand, length);
        }
    }
}

/// The good words of a format as one vector; as another, which stops, all its words and one beyond them.
fn vectors_of(form: Format) -> [Vec<u64>; 2] {
    let words = 0..=1 << form.width();
    let is_good = |&word: &u64| paper::read(form, word).is_ok();
    [words.clone().filter(is_good).collect(), words.collect()]
}

/// All words of the small formats and one beyond them, both ways.
fn every_twisted_word(harness: &mut Harness) {
    for form in all_formats().filter(|form| form.width() <= 12) {
        for word in 0..=1 << form.width() {
            harness.twist(numbers_of(form), word);
            harness.untwist(numbers_of(form), word);
        }
    }
}

/// Every slash position of every floating format, the undefined ones too, with runs of bits as fields, both
/// ways: each word alone, then the good ones in vectors.
fn every_slash_position(harness: &mut Harness) {
    for form in all_formats().filter(|form| form.kind == Kind::Floating) {
        let heads = 0..1 << (form.width() - (form.k - 1));
        let word = |head: u64, field: u64| (head << (form.k - 1)) + field;
        let words: Vec<u64> = heads
            .flat_map(|head| runs_of_bits(form).map(move |field| word(head, field)))
            .collect();
        for &word in &words {
            harness.twist(numbers_of(form), word);
            harness.untwist(numbers_of(form), word);
        }
        let is_good = |&word: &u64| paper::read(form, word).is_ok();
        let good: Vec<u64> = words.into_iter().filter(is_good).collect();
        for operand in good.chunks(100) {
            harness.twist_each(numbers_of(form), operand, operand.len());
            harness.untwist_each(numbers_of(form), operand, operand.len());
        }
    }
}

/// Each bit of a floating word's field alone, with all bits below it, and with all bits above it.
fn runs_of_bits(form: Format) -> impl Iterator<Item = u64> {
    let end = 1u64 << (form.k - 1);
    (0..form.k - 1)
        .map(|place| 1 << place)
        .flat_map(move |bit| [bit, 2 * bit - 1, end - bit])
}

/// The words of the smallest formats as vectors, both ways, with results as long, shorter and longer.
fn whole_vectors_twisted(harness: &mut Harness) {
    for (form, operand) in smallest_formats().flat_map(|form| vectors_of(form).map(|v| (form, v))) {
        for length in operand.len() - 1..=operand.len() + 1 {
            harness.twist_each(numbers_of(form), &operand, length);
            harness.untwist_each(numbers_of(form), &operand, length);
        }
    }
}

// The random part.

/// One call, of any function, of a good or a strange format; half of them with null pointers to nothing.
fn random_call(harness: &mut Harness, source: &mut Source) {
    let form = source.format();
    harness.empty_is_null = source.below(2) == 0;
    match source.below(30) {
        0..=5 => {
            let (left, right) = source.operands(form);
            harness.binary(form, source.code(4), left, right);
        }
        6 | 7 => {
            let (left, right) = source.operands(form);
            harness.compare(form, left, right);
        }
        8..=10 => harness.unary(form, source.code(7), source.word(form)),
        11 | 12 => harness.convert(form, source.format(), source.word(form)),
        13 | 14 => harness.round(form, source.part(), source.part()),
        15 => harness.gcd(form, source.word(form)),
        16 => {
            let length = if source.below(2) == 0 {
                64
            } else {
                source.below(40) as usize
            };
            harness.quotients(form, source.word(form), length);
        }
        17 => harness.quotient_count(form, source.word(form)),
        18 | 19 => random_vectors(harness, source, form),
        20 => listings::random_listing(harness, source),
        21 | 22 => random_twists(harness, source),
        23 => records::random_records(harness, source),
        24 => nights::random_breath(harness, source),
        25..=27 => values::random_value(harness, source),
        28 => pieces::random_piece(harness, source),
        _ => nights::random_recording(harness, source),
    }
}

/// One way or the other, of a word or a vector.
fn random_twists(harness: &mut Harness, source: &mut Source) {
    let form = source.floating_format();
    let length = source.length();
    let out = source.other_length(length);
    match source.below(4) {
        0 => harness.twist(form, source.word(form)),
        1 => harness.untwist(form, source.word(form)),
        2 => harness.twist_each(form, &source.vector(form, length), out),
        _ => harness.untwist_each(form, &source.vector(form, length), out),
    }
}

fn random_vectors(harness: &mut Harness, source: &mut Source, form: (u64, u64)) {
    let length = source.length();
    let other = source.other_length(length);
    let out = source.other_length(length);
    let left = source.vector(form, length);
    match source.below(3) {
        0 => {
            let right = source.vector(form, other);
            harness.binary_each(form, source.code(4), &left, &right, out);
        }
        1 => harness.unary_each(form, source.code(7), &left, out),
        _ => harness.convert_each(form, source.format(), &left, out),
    }
}
