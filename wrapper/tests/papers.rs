//! The papers' edges, through the safe functions.

use slash::{raw, Binary, Format, Loaded, Stop, Unary};
use std::cmp::Ordering;
use std::f32::consts::{E, PI};

const FIXED_3: Format = Format::fixed(3);

#[test]
fn rounding_gives_the_marked_edges() {
    let fixed = |k: u64, n: u64, d: u64, r: u64, s: u64, mark: u64| {
        let word = (r << (k + 1)) + (mark << k) + s;
        assert_eq!(
            slash::round(Format::fixed(k), n, d),
            Ok(word),
            "{n}/{d} at fixed k = {k}"
        );
    };
    fixed(9, 277, 642, 85, 197, 1);
    fixed(2, 5, 2, 2, 1, 1);
    fixed(3, 1, 10, 0, 1, 1);
    fixed(3, 15, 2, 7, 1, 1);
    fixed(3, 8, 1, 1, 0, 1);
    fixed(3, 7, 1, 7, 1, 0);
    fixed(2, 6, 23, 1, 3, 1);
    fixed(15, 277, 642, 277, 642, 0);
    assert_eq!(
        slash::round(Format::floating(26), 355, 113),
        Ok(0x0c00_58f1)
    );
}

#[test]
fn operations_give_the_papers_words() {
    assert_eq!(slash::binary(FIXED_3, Binary::Add, 0x13, 0x15), Ok(0x1a));
    // Floor, ceiling and mod 1 of -2/3: -1, +0 and 1/3.
    assert_eq!(slash::unary(FIXED_3, Unary::Floor, 0xa3), Ok(0x91));
    assert_eq!(slash::unary(FIXED_3, Unary::Ceiling, 0xa3), Ok(0x01));
    assert_eq!(slash::unary(FIXED_3, Unary::ModOne, 0xa3), Ok(0x13));
    assert_eq!(
        slash::compare(FIXED_3, 0x01, 0x81),
        Ok(Some(Ordering::Equal))
    );
    assert_eq!(
        slash::compare(FIXED_3, 0x13, 0x15),
        Ok(Some(Ordering::Greater))
    );
    assert_eq!(
        slash::compare(FIXED_3, 0x15, 0x13),
        Ok(Some(Ordering::Less))
    );
    assert_eq!(slash::compare(FIXED_3, 0x00, 0x13), Ok(None));
    assert_eq!(slash::gcd(FIXED_3, 0x22), Ok(2));
    // 6/23 to fixed k = 2 at once.
    assert_eq!(
        slash::convert(Format::fixed(5), Format::fixed(2), 407),
        Ok(0xf)
    );
}

#[test]
fn a_list_keeps_what_lies_beyond_the_quotients() {
    let mut list = [9; 5];
    // 1/3 is 0 and 1 over 3.
    assert_eq!(slash::quotients(FIXED_3, 0x13, &mut list), Ok(2));
    assert_eq!(list, [0, 3, 9, 9, 9]);
    assert_eq!(
        slash::quotients(FIXED_3, 0x13, &mut list[..1]),
        Err(Stop {
            number: 7,
            place: 0
        })
    );
    assert_eq!(list, [0, 3, 9, 9, 9]);
    assert_eq!(slash::quotients(FIXED_3, 0x10, &mut []), Ok(0));
}

#[test]
fn a_list_of_the_count_is_just_long_enough() {
    let recorder = Format::fixed(15);
    // 277/642, zero, infinity and not-a-number.
    for (word, count) in [(0x01150282, 7), (1, 1), (0x10000, 0), (0, 0)] {
        assert_eq!(slash::quotient_count(recorder, word), Ok(count));
        let mut list = vec![9; count];
        assert_eq!(slash::quotients(recorder, word, &mut list), Ok(count));
        if count > 0 {
            let (number, place) = (7, 0);
            let short = slash::quotients(recorder, word, &mut list[1..]);
            assert_eq!(short, Err(Stop { number, place }));
        }
    }
}

#[test]
fn stops_are_the_papers() {
    let stop = |number, place| Stop { number, place };
    assert_eq!(slash::round(Format::fixed(1), 1, 1), Err(stop(1, 0)));
    assert_eq!(slash::round(Format::fixed(32), 1, 0), Err(stop(1, 0)));
    assert_eq!(slash::round(Format::floating(32), 1, 0), Err(stop(6, 0)));
    assert_eq!(slash::unary(FIXED_3, Unary::Negate, 0x100), Err(stop(4, 0)));
    assert_eq!(slash::gcd(Format::floating(3), 0x08), Err(stop(5, 0)));
    assert_eq!(slash::quotient_count(Format::fixed(1), 0), Err(stop(1, 0)));
    assert_eq!(slash::quotient_count(FIXED_3, 0x100), Err(stop(4, 0)));
    assert_eq!(
        slash::quotient_count(Format::floating(3), 0x08),
        Err(stop(5, 0))
    );
}

#[test]
fn vectors_store_all_or_nothing() {
    let mut out = [7, 8];
    let add = |left: &[u64], right: &[u64], out: &mut [u64]| {
        slash::binary_each(FIXED_3, Binary::Add, left, right, out)
    };
    assert_eq!(
        add(&[0x13, 0x100], &[0x15, 1], &mut out),
        Err(Stop {
            number: 4,
            place: 1
        })
    );
    assert_eq!(
        add(&[0x13], &[0x15], &mut out),
        Err(Stop {
            number: 3,
            place: 0
        })
    );
    assert_eq!(out, [7, 8]);
    assert_eq!(add(&[0x13, 1], &[0x15, 1], &mut out), Ok(()));
    assert_eq!(out, [0x1a, 1]);
    assert_eq!(
        slash::unary_each(FIXED_3, Unary::Floor, &[0xa3, 0x10], &mut out),
        Ok(())
    );
    assert_eq!(out, [0x91, 0x10]);
    let (source, target) = (Format::fixed(5), Format::fixed(2));
    assert_eq!(
        slash::convert_each(source, target, &[407, 1], &mut out),
        Ok(())
    );
    assert_eq!(out, [0xf, 1]);
    assert_eq!(add(&[], &[], &mut []), Ok(()));
}

const FLOATING_26: Format = Format::floating(26);

#[test]
fn twisting_and_untwisting_give_the_papers_fields() {
    // 355/113, approximate: sign, mark and slash position stay.
    let top = 0x4c00_0000;
    let (plain, twisted) = (top + 22_769, top + 18_350_435);
    assert_eq!(slash::twist(FLOATING_26, plain), Ok(twisted));
    assert_eq!(slash::untwist(FLOATING_26, twisted), Ok(plain));
}

#[test]
fn twisting_leaves_infinity_and_not_a_number_as_they_are() {
    for field in [0, 1, 22_769, 18_350_435, (1 << 25) - 1] {
        for sign_and_mark in 0..4 {
            let word = (sign_and_mark << 30) + (31 << 25) + field;
            assert_eq!(slash::twist(FLOATING_26, word), Ok(word));
            assert_eq!(slash::untwist(FLOATING_26, word), Ok(word));
        }
    }
}

/// The word of floating k = 6 (a field of 5 bits, a slash position of 3), twisted bit by bit.
fn twisted_bit_by_bit(word: u64) -> u64 {
    let (e, field) = (word >> 5 & 7, word & 31);
    if e > 4 {
        return word;
    }
    let denominator = (0..e).map(|bit| (field >> bit & 1) << (4 - bit));
    word - field + denominator.sum::<u64>() + (field >> e)
}

#[test]
fn each_way_undoes_the_other() {
    let form = Format::floating(6);
    // Slash positions 5 and 6 are undefined.
    let words: Vec<u64> = (0..1 << 10)
        .filter(|word| !matches!(word >> 5 & 7, 5 | 6))
        .collect();
    let expected: Vec<u64> = words.iter().copied().map(twisted_bit_by_bit).collect();
    let mut twisted = vec![0; words.len()];
    assert_eq!(slash::twist_each(form, &words, &mut twisted), Ok(()));
    assert_eq!(twisted, expected);
    let mut back = vec![0; words.len()];
    assert_eq!(slash::untwist_each(form, &twisted, &mut back), Ok(()));
    assert_eq!(back, words);
    for (&word, &twisted) in words.iter().zip(&twisted) {
        assert_eq!(slash::twist(form, word), Ok(twisted));
        assert_eq!(slash::untwist(form, twisted), Ok(word));
        let untwisted = slash::untwist(form, word).expect("a defined slash position");
        assert_eq!(slash::twist(form, untwisted), Ok(word));
    }
}

#[test]
fn twisting_stops_as_the_papers_say() {
    let refused = |form, word, number| {
        let stop = Err(Stop { number, place: 0 });
        assert_eq!(slash::twist(form, word), stop);
        assert_eq!(slash::untwist(form, word), stop);
    };
    refused(Format::floating(1), 0, 1);
    refused(Format::floating(33), 0, 1);
    refused(Format { kind: 3, k: 26 }, 0, 1);
    // A fixed format, before all else.
    refused(FIXED_3, 0x13, 1);
    refused(FIXED_3, 0x100, 1);
    refused(Format::floating(3), 0x40, 4);
    refused(Format::floating(3), 0x48, 4);
    refused(Format::floating(3), 0x08, 5);
}

#[test]
fn a_refused_vector_to_twist_leaves_what_is_lent() {
    let ways = [slash::twist_each, slash::untwist_each];
    let refused = |form, operand: &[u64], number, place| {
        for way in ways {
            let mut out = [7, 8, 9];
            assert_eq!(way(form, operand, &mut out), Err(Stop { number, place }));
            assert_eq!(out, [7, 8, 9]);
        }
    };
    refused(FIXED_3, &[0x100], 1, 0);
    refused(Format::floating(33), &[1], 1, 0);
    let form = Format::floating(3);
    refused(form, &[0x40, 1], 3, 0);
    refused(form, &[1, 1, 0x40], 4, 2);
    refused(form, &[1, 0x48, 0x08], 4, 1);
    refused(form, &[1, 0x08, 0x40], 5, 1);
    assert_eq!(slash::twist_each(form, &[], &mut []), Ok(()));
}

/// The paper's recording, and what is printed for it.
const RECORDING: &str = "rate\t1024\n0\t277\t642\n4294967290\t10\t34\n100\t100\t100\n";
const LISTING: &str = "1\t01150282\t277/642\t43.1\n2\t00020005\t2/5\t40.0\n3\t00000000\t-\t-\n\
                       all\t012502aa\t293/682\t43.0\n";

#[test]
fn a_night_is_listed_as_the_paper_prints_it() {
    let listing = slash::night(RECORDING.as_bytes());
    assert_eq!(listing.as_deref(), Ok(LISTING.as_bytes()));
}

#[test]
fn a_breath_is_stored_as_it_is_listed() {
    let recorded = |onset, peak, next| slash::breath(1024, onset, peak, next);
    assert_eq!(recorded(0, 277, 642), Ok(0x0115_0282));
    assert_eq!(recorded(4_294_967_290, 10, 34), Ok(0x0002_0005));
    assert_eq!(recorded(100, 100, 100), Ok(0));
    // In equal to whole, and a tick more; in of 0.
    assert_eq!(recorded(7, 8, 8), Ok(0x0001_0001));
    assert_eq!(recorded(7, 9, 8), Ok(0));
    assert_eq!(recorded(7, 7, 8), Ok(1));
    // A next onset before its onset.
    assert_eq!(recorded(642, 919, 600), Ok(0));
}

#[test]
fn a_whole_of_more_than_120_seconds_is_void() {
    for rate in 1..=4096_u32 {
        let longest = 120 * rate;
        for onset in [0, 100, u32::MAX - 50, longest.wrapping_neg()] {
            let stored = |whole: u32| {
                let next = onset.wrapping_add(whole);
                slash::breath(rate.into(), onset, next, next)
            };
            assert_eq!(stored(longest), Ok(0x0001_0001), "rate {rate}");
            assert_eq!(stored(longest + 1), Ok(0), "rate {rate}");
        }
    }
    // Left out of the total, too.
    let listing = slash::night(b"rate\t1\n0\t60\t120\n0\t60\t121\n9\t10\t8\n");
    let expected = "1\t00010002\t1/2\t50.0\n2\t00000000\t-\t-\n3\t00000000\t-\t-\n\
                    all\t00010002\t1/2\t50.0\n";
    assert_eq!(listing.as_deref(), Ok(expected.as_bytes()));
}

#[test]
fn a_total_may_be_longer_than_120_seconds() {
    let listing = slash::night(b"rate\t1\n0\t40\t120\n0\t40\t120\n").expect("a listing");
    assert!(listing.ends_with(b"\nall\t00010003\t1/3\t33.3\n"));
}

#[test]
fn a_bad_rate_leaves_the_word() {
    let (number, place) = (19, 0);
    for rate in [0, 4097, 8192, (1 << 32) + 1024, 1 << 63, u64::MAX] {
        let mut word = 7;
        // SAFETY: the pointer comes from a live number.
        let returned = unsafe { raw::slash_breath(rate, 0, 277, 642, &mut word) };
        assert_eq!((returned, word), (19, 7));
        let stop = Err(Stop { number, place });
        assert_eq!(slash::breath(rate, 0, 277, 642), stop);
        // Of a void breath, too.
        assert_eq!(slash::breath(rate, 0, 0, 0), stop);
    }
}

const RATE: &[u8] = b"rate\t1024\n";
const GOOD: &[u8] = b"0\t277\t642\n";

/// The recording of the most breaths.
fn longest_recording() -> Vec<u8> {
    [RATE, &GOOD.repeat(65_536)].concat()
}

/// The listing of a night with nothing in it.
const NOTHING: &[u8] = b"all\t00000000\t-\t-\n";

/// What the archive returns for a recording, with the length and the bytes that it was lent.
fn lent_to_night(recording: &[u8]) -> (u64, u64, Vec<u8>) {
    let (mut length, mut listing) = (LENT_LENGTH, vec![LENT_BYTE; raw::LISTING_BYTES]);
    let (start, count) = (recording.as_ptr(), recording.len());
    // SAFETY: the pointers come from live Rust values, with their lengths.
    let returned = unsafe { raw::slash_night(start, count, listing.as_mut_ptr(), &mut length) };
    (returned, length, listing)
}

const LENT_LENGTH: u64 = 7;
const LENT_BYTE: u8 = 0xa5;

/// Asserts that the recording of these lines is refused, and that what is lent stays as it was.
fn assert_recording_refused(number: u8, place: u64, lines: &[&[u8]]) {
    let recording = lines.concat();
    assert_eq!(slash::night(&recording), Err(Stop { number, place }));
    let (returned, length, listing) = lent_to_night(&recording);
    assert_eq!(returned, place * 256 + u64::from(number));
    assert_eq!(length, LENT_LENGTH);
    assert!(listing.iter().all(|&byte| byte == LENT_BYTE));
}

#[test]
fn a_refused_recording_stops_at_its_line_and_leaves_what_is_lent() {
    let refused = |number, place, breaths: &[&[u8]]| {
        assert_recording_refused(number, place, &[&[RATE], breaths].concat());
    };
    refused(
        9,
        3,
        &[GOOD, b"4294967295\t4294967295\t42949672950\n", GOOD],
    );
    refused(9, 4, &[GOOD, GOOD, b"0\t277\t642"]);
    refused(10, 2, &[b"0\t277\n", GOOD]);
    refused(10, 2, &[RATE, GOOD]);
    refused(10, 3, &[GOOD, b"\n"]);
    refused(10, 3, &[GOOD, b"0\t277\t642\t\n"]);
    refused(11, 3, &[GOOD, b"0\t277\t4294967296\n"]);
    refused(11, 3, &[GOOD, b"0\t0277\t642\n", b"\n"]);
    refused(11, 2, &[b"0\t\t642\n"]);
}

#[test]
fn breath_65537_stops_at_line_65538() {
    let longest = longest_recording();
    for begun in [&b"0"[..], b"\n", GOOD] {
        assert_recording_refused(8, 65_538, &[&longest, begun]);
    }
}

#[test]
fn a_first_line_that_is_no_rate_line_is_refused() {
    let no_rate_lines: [&[u8]; 15] = [
        b"\n",
        b"rate\n",
        b"rate\t\n",
        b"rate\t0\n",
        b"rate\t4097\n",
        b"rate\t007\n",
        b"rate\t4294968320\n",
        b"rate\t+1\n",
        b"rate\t1024\t\n",
        b"rate\t\t1024\n",
        b"rate 1024\n",
        b"Rate\t1024\n",
        b"rate\t1024\r\n",
        b"rate\t111111111111111111111111111\n",
        GOOD,
    ];
    for first in no_rate_lines {
        assert_recording_refused(19, 1, &[first]);
        assert_recording_refused(19, 1, &[first, RATE, GOOD]);
    }
    // Over 32 bytes before the line feed, or none.
    assert_recording_refused(9, 1, &[b"rate\t1111111111111111111111111111\n", GOOD]);
    assert_recording_refused(9, 1, &[b"rate\t1024"]);
    assert_recording_refused(9, 1, &[b"0"]);
}

#[test]
fn a_night_with_nothing_in_it_is_listed_and_read_back() {
    for recording in [&b""[..], RATE] {
        assert_eq!(slash::night(recording).as_deref(), Ok(NOTHING));
    }
    let loaded = Loaded {
        words: vec![],
        total: 0,
    };
    assert_eq!(slash::load(NOTHING), Ok(loaded));
    let mut lent = Lent::of_lengths(0, 1);
    assert_eq!(lent.load(NOTHING), 0);
    assert_eq!((&lent.numbers[..], &lent.words[..]), (&[][..], &[9][..]));
    assert_eq!((lent.count, lent.total), (0, 0));
}

#[test]
fn a_first_line_all_that_differs_from_it_is_refused() {
    let refused = |text: &[u8], stop: u64| {
        let before = Lent::of_lengths(2, 3);
        let mut lent = before.clone();
        assert_eq!(lent.load(text), stop);
        assert_eq!(lent, before);
    };
    refused(b"all\t00010002\t1/2\t50.0\n", 256 + 14);
    refused(b"all\t00000000\t0/1\t0.0\n", 256 + 14);
    refused(b"all\t00000001\t-\t-\n", 256 + 14);
    refused(b"all\t00000000\t-\n", 256 + 13);
    refused(&NOTHING.repeat(2), 2 * 256 + 14);
    refused(&[NOTHING, b"\n"].concat(), 2 * 256 + 13);
    refused(b"", 256 + 14);
}

#[test]
fn a_listing_keeps_what_lies_beyond_it() {
    let widest = b"4294966653\t4294966930\t4294967295\n";
    let behind_rate = |breaths: &[u8]| [RATE, breaths].concat();
    for recording in [
        vec![],
        behind_rate(b""),
        behind_rate(GOOD),
        behind_rate(widest),
        longest_recording(),
    ] {
        let expected = slash::night(&recording).expect("a listing");
        let (returned, length, listing) = lent_to_night(&recording);
        assert_eq!((returned, length), (0, expected.len() as u64));
        let (listed, beyond) = listing.split_at(expected.len());
        assert!(listed == expected);
        assert!(beyond.iter().all(|&byte| byte == LENT_BYTE));
    }
}

#[test]
fn a_listing_is_read_back() {
    let loaded = Loaded {
        words: vec![0x0115_0282, 0x0002_0005, 0],
        total: 0x0125_02aa,
    };
    assert_eq!(slash::load(LISTING.as_bytes()), Ok(loaded));
    let longest = slash::night(&longest_recording()).expect("a listing");
    let loaded = Loaded {
        words: vec![0x0115_0282; 65_536],
        total: 0x0115_0282,
    };
    assert!(slash::load(&longest) == Ok(loaded));
}

/// All that is lent to the archive for a listing: the two lists, the count and the total.
#[derive(Clone, Debug, PartialEq)]
struct Lent {
    numbers: Vec<u64>,
    words: Vec<u64>,
    count: u64,
    total: u64,
}

impl Lent {
    fn of_lengths(numbers: usize, words: usize) -> Lent {
        Lent {
            numbers: vec![8; numbers],
            words: vec![9; words],
            count: 10,
            total: 11,
        }
    }

    /// What the archive returns for a listing.
    fn load(&mut self, listing: &[u8]) -> u64 {
        let (start, length) = (listing.as_ptr(), listing.len());
        let (numbers, words) = (&mut self.numbers, &mut self.words);
        // SAFETY: the pointers come from live Rust values, with their lengths.
        unsafe {
            raw::slash_load(
                start,
                length,
                numbers.as_mut_ptr(),
                numbers.len(),
                words.as_mut_ptr(),
                words.len(),
                &mut self.count,
                &mut self.total,
            )
        }
    }
}

#[test]
fn lists_keep_what_lies_beyond_the_breaths() {
    let mut lent = Lent::of_lengths(4, 5);
    assert_eq!(lent.load(LISTING.as_bytes()), 0);
    assert_eq!(lent.numbers, [1, 2, 3, 8]);
    assert_eq!(lent.words, [0x0115_0282, 0x0002_0005, 0, 9, 9]);
    assert_eq!((lent.count, lent.total), (3, 0x0125_02aa));
}

#[test]
fn a_list_shorter_than_the_breaths_leaves_what_is_lent() {
    for (numbers, words) in [(2, 3), (3, 2), (0, 0)] {
        let before = Lent::of_lengths(numbers, words);
        let mut lent = before.clone();
        assert_eq!(lent.load(LISTING.as_bytes()), 7);
        assert_eq!(lent, before);
    }
    assert_eq!(Lent::of_lengths(3, 3).load(LISTING.as_bytes()), 0);
}

#[test]
fn a_refused_listing_stops_at_its_line_and_leaves_what_is_lent() {
    let refused = |number: u8, place: u64, listing: &str| {
        let stop = Err(Stop { number, place });
        assert_eq!(slash::load(listing.as_bytes()), stop, "{listing:?}");
        // Of no places, so that 7 would come, too, did it not come last.
        for places in [0, 4] {
            let before = Lent::of_lengths(places, places);
            let mut lent = before.clone();
            assert_eq!(
                lent.load(listing.as_bytes()),
                place * 256 + u64::from(number)
            );
            assert_eq!(lent, before);
        }
    };
    let changed = |from, to| LISTING.replace(from, to);
    refused(13, 2, &changed("2\t0002", "02\t0002"));
    refused(13, 2, &changed("40.0", "40.00"));
    refused(13, 4, LISTING.trim_end());
    refused(13, 5, &changed("43.0\n", "43.0\n\n"));
    refused(14, 2, &changed("2\t0002", "18446744073709551618\t0002"));
    refused(14, 4, &LISTING[..LISTING.find("all").expect("a total")]);
    refused(14, 5, &changed("43.0\n", "43.0\n5\t00000000\t-\t-\n"));
    refused(14, 1, "all\t00000000\t0/1\t0.0\n");
    refused(14, 1, "");
    refused(15, 2, &changed("40.0", "40.1"));
    refused(15, 2, &changed("00020005\t2/5", "0004000a\t4/10"));
    refused(15, 3, &changed("-\t-", "0/1\t0.0"));
    // The first bad line stops, whatever stands behind it.
    refused(15, 2, &changed("40.0\n3\t", "40.1\nx\t"));
}

/// A record of the scoring package: a kind, and the bits of two numbers.
type Record = [u32; 3];

/// A record of kind 1, from its seconds.
fn timed(inspiration: f32, whole: f32) -> Record {
    [1, inspiration.to_bits(), whole.to_bits()]
}

/// A record of kind 2.
fn rated(ratio: f32) -> Record {
    [2, ratio.to_bits(), 0]
}

/// The records' bytes.
fn exported(records: &[Record]) -> Vec<u8> {
    let fields = records.iter().flatten();
    fields.flat_map(|field| field.to_le_bytes()).collect()
}

/// Bits of numbers: 2^-10, the last below 2^10, and 1, each with its neighbours.
const LEAST: u32 = 0x3a80_0000;
const BELOW_LEAST: u32 = LEAST - 1;
const GREATEST: u32 = 0x447f_ffff;
const ABOVE_GREATEST: u32 = GREATEST + 1;
const ONE: u32 = 0x3f80_0000;
const BELOW_ONE: u32 = ONE - 1;
const ABOVE_ONE: u32 = ONE + 1;

#[test]
fn a_record_has_its_lowest_bytes_first() {
    // 1.5 s of 4 s, then the ratio 0.375.
    let records = [
        [1, 0, 0, 0, 0, 0, 0xc0, 0x3f, 0, 0, 0x80, 0x40],
        [2, 0, 0, 0, 0, 0, 0xc0, 0x3e, 0, 0, 0, 0],
    ];
    assert_eq!(records.concat(), exported(&[timed(1.5, 4.0), rated(0.375)]));
    let mut words = [7, 8];
    assert_eq!(slash::timings(&records.concat(), &mut words), Ok(()));
    assert_eq!(words, [0x0003_0008, 0x0003_0008]);
}

#[test]
fn a_record_gives_the_word_of_its_ratio() {
    // A record; numerator, denominator and mark of its word.
    let expected = [
        (timed(1.5, 4.0), 3, 8, 0),
        (rated(0.375), 3, 8, 0),
        // The paper's breath, at 1024 ticks a second, then at 1000, where the floats are a little off.
        (timed(277.0 / 1024.0, 642.0 / 1024.0), 277, 642, 0),
        (timed(0.277, 0.642), 277, 642, 1),
        // The first number equal to the second.
        (timed(4.0, 4.0), 1, 1, 0),
        (timed(0.1, 0.1), 1, 1, 0),
        ([1, LEAST, LEAST], 1, 1, 0),
        ([1, GREATEST, GREATEST], 1, 1, 0),
        ([2, ONE, 0], 1, 1, 0),
        // 0.1 is 13421773/2^27, whose convergents are 0/1, 1/9, 1/10, 6710886/67108859 and itself.
        (rated(0.1), 1, 10, 1),
        (rated(0.3), 3, 10, 1),
        (timed(0.1, 0.3), 1, 3, 1),
        (timed(1.6, 4.0), 2, 5, 1),
        (timed(1.7, 4.3), 17, 43, 1),
        (timed(E, PI), 24697, 28543, 1),
        // The largest parts that the word has, and past them.
        (timed(1.0 / 1024.0, 32767.0 / 1024.0), 1, 32767, 0),
        (timed(1.0 / 1024.0, 32768.0 / 1024.0), 0, 1, 1),
        (timed(32766.0 / 1024.0, 32767.0 / 1024.0), 32766, 32767, 0),
        (timed(32767.0 / 1024.0, 32768.0 / 1024.0), 1, 1, 1),
        // The ends of the ranges.
        ([1, LEAST, GREATEST], 0, 1, 1),
        ([1, GREATEST - 1, GREATEST], 1, 1, 1),
        ([2, LEAST, 0], 1, 1024, 0),
        ([2, BELOW_ONE, 0], 1, 1, 1),
    ];
    let records: Vec<Record> = expected.iter().map(|case| case.0).collect();
    let mut words = vec![7; records.len()];
    assert_eq!(slash::timings(&exported(&records), &mut words), Ok(()));
    for ((record, r, s, mark), word) in expected.into_iter().zip(words) {
        assert_eq!(word, (r << 16) + (mark << 15) + s, "{record:x?}");
    }
}

/// 2^33 times a number from 2^-10 on, a whole one, by its bits.
fn scaled(bits: u32) -> u64 {
    u64::from(bits & 0x7f_ffff | 0x80_0000) << ((bits >> 23) - 117)
}

#[test]
fn no_word_misses_a_ratio_by_less() {
    // Beside a few, records drawn from all that are good.
    let mut state = 1_u64;
    let mut drawn = |least: u32, greatest: u32| {
        state = state
            .wrapping_mul(6_364_136_223_846_793_005)
            .wrapping_add(1);
        least + (state >> 33) as u32 % (greatest - least + 1)
    };
    let mut records = vec![[1, LEAST, GREATEST], [2, LEAST, 0], rated(0.1)];
    for _ in 0..100 {
        let whole = drawn(LEAST, GREATEST);
        records.push([1, drawn(LEAST, whole), whole]);
        records.push([2, drawn(LEAST, ONE), 0]);
    }
    let mut words = vec![0; records.len()];
    assert_eq!(slash::timings(&exported(&records), &mut words), Ok(()));
    for ([kind, first, second], word) in records.into_iter().zip(words) {
        let n = scaled(first);
        let d = scaled(if kind == 1 { second } else { ONE });
        let miss = |r: u64, s: u64| (s * n).abs_diff(r * d);
        let (r, s) = (word >> 16, word & 0x7fff);
        assert!(r <= 0x7fff, "sign 0");
        assert_eq!(word >> 15 & 1, u64::from(miss(r, s) != 0));
        for denominator in 1..=0x7fff {
            // Any other numerator misses by more than these two.
            let below = denominator * n / d;
            for numerator in [below, below + 1] {
                let pair = (miss(numerator, denominator), numerator + denominator);
                assert!((numerator, denominator) == (r, s) || pair > (miss(r, s), r + s));
            }
        }
    }
}

/// Asserts that the bytes, with so many places lent, are refused, and that the places stay as they were.
fn assert_refused(bytes: &[u8], places: usize, number: u8, place: u64) {
    let mut words = vec![7; places];
    let stop = Err(Stop { number, place });
    assert_eq!(slash::timings(bytes, &mut words), stop, "{bytes:x?}");
    assert!(words.iter().all(|&word| word == 7));
}

#[test]
fn a_refused_record_stops_at_its_index_and_leaves_what_is_lent() {
    let refused = |number, place, records: &[Record]| {
        assert_refused(&exported(records), records.len(), number, place);
    };
    let good = timed(1.5, 4.0);
    for kind in [0, 3, 0x0101, 0x0100_0000, 0x8000_0001, u32::MAX] {
        refused(17, 0, &[[kind, good[1], good[2]]]);
        // Of an unknown kind, the numbers aren't looked at.
        refused(17, 1, &[good, [kind, u32::MAX, u32::MAX], good]);
    }
    // Numbers that are good nowhere.
    let never = [
        // Zeros and subnormal ones; positive ones below 2^-10 and from 2^10 on.
        [0, 0x8000_0000, 0x0000_0001, 0x007f_ffff],
        [0x0080_0000, BELOW_LEAST, ABOVE_GREATEST, 0x7f7f_ffff],
        // Negative ones, infinities and NaNs.
        [0x8000_0001, 0xbf00_0000, 0xbf80_0000, 0xff7f_ffff],
        [0x7f80_0000, 0xff80_0000, 0x7f80_0001, u32::MAX],
    ];
    for bits in never.concat() {
        refused(18, 2, &[good, good, [1, bits, ONE]]);
        refused(18, 2, &[good, good, [1, LEAST, bits]]);
        refused(18, 0, &[[1, bits, bits], good]);
        refused(18, 1, &[good, [2, bits, 0], good]);
    }
    refused(18, 0, &[[2, ABOVE_ONE, 0]]);
    // Longer in than the whole breath, by as little as can be.
    refused(18, 1, &[good, [1, ABOVE_ONE, ONE]]);
    refused(18, 0, &[[1, GREATEST, GREATEST - 1]]);
    // A ratio with any bit in its second number, that of -0.0 too.
    for bit in 0..32 {
        refused(18, 0, &[[2, ONE, 1 << bit]]);
    }
    // Good numbers of the other kind.
    refused(18, 1, &[good, [1, ONE, 0]]);
    refused(18, 1, &[good, [2, LEAST, ONE]]);
}

#[test]
fn the_lowest_bad_record_stops() {
    let refused = |number, place, records: &[Record]| {
        assert_refused(&exported(records), records.len(), number, place);
    };
    let (good, unknown, bad) = (rated(0.5), [3, ONE, ONE], [1, ONE, LEAST]);
    refused(17, 1, &[good, unknown, bad, unknown]);
    refused(18, 1, &[good, bad, unknown, bad]);
    refused(18, 0, &[bad, good, unknown]);
    let mut many = [good; 1000];
    many[999] = bad;
    refused(18, 999, &many);
    many[300] = unknown;
    refused(17, 300, &many);
}

#[test]
fn lengths_are_checked_before_records() {
    // Records of an unknown kind.
    let bytes = [0xff; 60];
    for length in 0..=bytes.len() {
        for places in 0..=6 {
            let refused = |number| assert_refused(&bytes[..length], places, number, 0);
            match length % 12 {
                0 if places != length / 12 => refused(3),
                0 if places != 0 => refused(17),
                0 => assert_eq!(slash::timings(&[], &mut []), Ok(())),
                _ => refused(16),
            }
        }
    }
    // Good ones, with a byte or a place too many or too few.
    let records = exported(&[rated(0.5), rated(0.25), rated(0.75)]);
    assert_refused(&records[..23], 2, 16, 0);
    assert_refused(&records[..25], 2, 16, 0);
    assert_refused(&records[..24], 1, 3, 0);
    assert_refused(&records[..24], 3, 3, 0);
    assert_refused(&records[..24], 24, 3, 0);
}
