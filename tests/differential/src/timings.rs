//! Timings from the scoring package, from documents 00 and 01 and CR 5 of 02 alone.
//!
//! What is good is decided by the numbers' values; ratios are formed of whole numbers of a common unit.

use crate::night::ratio_word;
use crate::paper::{Answer, Pair, Stop};

const RECORD_BYTES: usize = 12;

/// No number is smaller, of either kind.
const SMALLEST: f32 = 1.0 / 1024.0;

/// Every timing is smaller.
const END: f32 = 1024.0;

/// What a record says of a breath.
#[derive(Clone, Copy, Debug, PartialEq)]
enum Record {
    Timings { inspiration: f32, whole: f32 },
    Ratio(f32),
}

/// Stores the word of each record's ratio, one place a record; stops 16 and 3, then the first bad record's.
pub fn timings(records: &[u8], words: &mut [u64]) -> Answer<()> {
    if !records.len().is_multiple_of(RECORD_BYTES) {
        return stop(16);
    }
    if records.len() / RECORD_BYTES != words.len() {
        return stop(3);
    }
    let read_at = |(place, bytes): (usize, &[u8])| {
        read(bytes).map_err(|number| Stop {
            number,
            place: place as u64,
        })
    };
    let records = records.chunks(RECORD_BYTES).enumerate().map(read_at);
    let records: Vec<Record> = records.collect::<Answer<_>>()?;
    for (word, record) in words.iter_mut().zip(records) {
        *word = ratio_word(ratio(record));
    }
    Ok(())
}

fn stop<T>(number: u64) -> Answer<T> {
    Err(Stop { number, place: 0 })
}

/// The good record that twelve bytes are, or a stop's number.
fn read(bytes: &[u8]) -> Result<Record, u64> {
    let part = |at: usize| {
        let lowest_first = bytes[at..at + 4].iter().rev();
        lowest_first.fold(0, |value, &byte| value << 8 | u32::from(byte))
    };
    let (first, second) = (f32::from_bits(part(4)), f32::from_bits(part(8)));
    let record = match part(0) {
        1 => Record::Timings {
            inspiration: first,
            whole: second,
        },
        2 => Record::Ratio(first),
        _ => return Err(17),
    };
    if is_good(record, second) {
        Ok(record)
    } else {
        Err(18)
    }
}

/// Whether a record's numbers keep the rules. No comparison holds of a not-a-number.
fn is_good(record: Record, second: f32) -> bool {
    match record {
        Record::Timings { inspiration, whole } => {
            let in_range = |timing| (SMALLEST..END).contains(timing);
            in_range(&inspiration) && in_range(&whole) && inspiration <= whole
        }
        Record::Ratio(ratio) => (SMALLEST..=1.0).contains(&ratio) && second.to_bits() == 0,
    }
}

/// A good record's ratio.
fn ratio(record: Record) -> Pair {
    match record {
        Record::Timings { inspiration, whole } => (units(inspiration), units(whole)),
        Record::Ratio(ratio) => (units(ratio), units(1.0)),
    }
}

/// How many times 2^-33 a number is. From 2^-10 on that is whole: there the lowest of the 24 bits that a
/// number has is worth 2^-33, and more in larger numbers.
fn units(number: f32) -> u128 {
    let bits = number.to_bits();
    let (exponent, fraction) = (bits >> 23, bits % (1 << 23));
    let units = u128::from(fraction + (1 << 23)) << (exponent - SMALLEST.to_bits() / (1 << 23));
    debug_assert!(units as f64 == f64::from(number) * 2f64.powi(33));
    units
}

#[cfg(test)]
mod tests {
    use super::*;

    fn record(kind: u32, first: f32, second: f32) -> Vec<u8> {
        [kind, first.to_bits(), second.to_bits()]
            .iter()
            .flat_map(|part| part.to_le_bytes())
            .collect()
    }

    /// The word of the only record, or its stop's number.
    fn alone(kind: u32, first: f32, second: f32) -> Result<u64, u64> {
        let mut words = [0];
        let told = timings(&record(kind, first, second), &mut words);
        told.map(|()| words[0]).map_err(|stop| stop.number)
    }

    fn told(bytes: &[u8], places: usize) -> (u64, u64) {
        let mut words = vec![7; places];
        let stop = timings(bytes, &mut words).expect_err("a stop");
        assert!(words.iter().all(|&word| word == 7));
        (stop.number, stop.place)
    }

    #[test]
    fn the_papers_breaths_as_seconds_have_their_words() {
        let seconds = |ticks: u32| ticks as f32 / 1024.0;
        assert_eq!(alone(1, seconds(277), seconds(642)), Ok(0x0115_0282));
        assert_eq!(alone(1, seconds(16), seconds(40)), Ok(0x0002_0005));
        assert_eq!(alone(1, seconds(293), seconds(682)), Ok(0x0125_02aa));
        assert_eq!(alone(1, 3.5, 3.5), Ok(0x0001_0001));
    }

    #[test]
    fn a_ratio_is_that_of_its_bits() {
        assert_eq!(alone(2, 0.5, 0.0), Ok(0x0001_0002));
        assert_eq!(alone(2, 1.0, 0.0), Ok(0x0001_0001));
        assert_eq!(alone(2, SMALLEST, 0.0), Ok(0x0001_0400));
        // Both are only near the fraction.
        assert_eq!(alone(2, 0.4, 0.0), Ok(0x0002_8005));
        assert_eq!(alone(1, 0.7, 2.1), Ok(0x0001_8003));
    }

    #[test]
    fn the_largest_parts_are_held() {
        let seconds = |ticks: u32| ticks as f32 / 1024.0;
        assert_eq!(alone(1, seconds(1), seconds(32767)), Ok(0x0001_7fff));
        assert_eq!(
            alone(1, seconds(32766), seconds(32767)),
            Ok(0x7ffe_0000 | 0x7fff)
        );
        assert_eq!(alone(1, seconds(1), seconds(32768)), Ok(0x0000_8001));
        assert_eq!(alone(1, SMALLEST, 1023.5), Ok(0x0000_8001));
        assert_eq!(alone(1, seconds(32767), seconds(32768)), Ok(0x0001_8001));
    }

    #[test]
    fn a_number_that_breaks_the_rules_gets_18() {
        let below = |number: f32| f32::from_bits(number.to_bits() - 1);
        assert!(alone(1, SMALLEST, below(END)).is_ok());
        for (first, second) in [
            (below(SMALLEST), 1.0),
            (2.0, END),
            (below(END), END),
            (END, END),
            (2.0, below(2.0)),
            (f32::NAN, 1.0),
            (1.0, f32::NAN),
            (1.0, f32::INFINITY),
            (-1.0, 1.0),
            (-2.0, -1.0),
            (0.0, 1.0),
            (-0.0, 1.0),
            (f32::MIN_POSITIVE / 2.0, 1.0),
        ] {
            assert_eq!(alone(1, first, second), Err(18), "{first} of {second}");
        }
        for (first, second) in [
            (below(SMALLEST), 0.0),
            (f32::from_bits(1.0f32.to_bits() + 1), 0.0),
            (0.5, -0.0),
            (0.5, f32::from_bits(1)),
            (0.5, 1.0),
            (-0.5, 0.0),
            (f32::NAN, 0.0),
        ] {
            assert_eq!(alone(2, first, second), Err(18), "{first} and {second}");
        }
    }

    #[test]
    fn other_kinds_get_17() {
        for kind in [0, 3, 0x0100_0000, 0x0200_0000, 0x0001_0001, u32::MAX] {
            assert_eq!(alone(kind, 1.0, 1.0), Err(17));
            assert_eq!(alone(kind, f32::NAN, -1.0), Err(17));
        }
    }

    #[test]
    fn lengths_come_first_and_the_lowest_record_next() {
        let (good, unknown, broken) = (
            record(1, 1.0, 2.0),
            record(0, 1.0, 2.0),
            record(1, 2.0, 1.0),
        );
        assert_eq!(timings(&[], &mut []), Ok(()));
        assert_eq!(told(&[], 1), (3, 0));
        assert_eq!(told(&good, 0), (3, 0));
        assert_eq!(told(&good[..11], 0), (16, 0));
        assert_eq!(told(&unknown[..11], 1), (16, 0));
        assert_eq!(told(&unknown, 2), (3, 0));
        let of = |records: [&[u8]; 3]| told(&records.concat(), 3);
        assert_eq!(of([&good, &broken, &unknown]), (18, 1));
        assert_eq!(of([&good, &unknown, &broken]), (17, 1));
        assert_eq!(of([&good, &good, &unknown]), (17, 2));
    }
}
