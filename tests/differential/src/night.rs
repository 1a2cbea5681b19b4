//! One breath's word and the listing of a night's recording, from documents 00 and 01 and CRs 1, 3 and 7 of 02
//! alone.

use crate::paper::{self, Answer, Format, Pair, Stop};
use std::cmp::Ordering;
use std::ops::RangeInclusive;

/// The most breaths of a night.
pub const MOST_BREATHS: usize = 65536;

const MOST_BYTES: usize = 32;

/// The ticks that a second may have.
const RATES: RangeInclusive<u64> = 1..=4096;

/// The seconds of the longest breath that isn't void.
pub const MOST_SECONDS: u64 = 120;

// Breaths.

/// Stop 19 for a rate that no recording has.
pub fn check_rate(rate: u64) -> Answer<()> {
    if RATES.contains(&rate) {
        Ok(())
    } else {
        Err(Stop {
            number: 19,
            place: 0,
        })
    }
}

/// The ticks of breathing in and of the whole breath.
#[derive(Clone, Copy, Debug, PartialEq, Eq)]
pub struct Breath {
    pub inward: u32,
    pub whole: u32,
}

impl Breath {
    /// The breath between tick marks of a clock that is 32 bits wide.
    pub fn between(onset: u32, peak: u32, next: u32) -> Breath {
        Breath {
            inward: peak.wrapping_sub(onset),
            whole: next.wrapping_sub(onset),
        }
    }

    fn is_void(self, rate: u64) -> bool {
        self.whole == 0 || self.inward > self.whole || u64::from(self.whole) > MOST_SECONDS * rate
    }

    /// The word that is stored of the breath at a good rate.
    pub fn word(self, rate: u64) -> u64 {
        if self.is_void(rate) {
            VOID
        } else {
            ratio_word((self.inward.into(), self.whole.into()))
        }
    }

    /// Sums of in and whole with this breath too, unless it is void; none where one has no 64 bits.
    pub fn added(self, rate: u64, (in_sum, whole_sum): (u64, u64)) -> Option<(u64, u64)> {
        if self.is_void(rate) {
            return Some((in_sum, whole_sum));
        }
        let in_sum = in_sum.checked_add(self.inward.into())?;
        let whole_sum = whole_sum.checked_add(self.whole.into())?;
        Some((in_sum, whole_sum))
    }
}

/// The word that is stored of one breath; stop 19.
pub fn breath(rate: u64, onset: u32, peak: u32, next: u32) -> Answer<u64> {
    check_rate(rate)?;
    Ok(Breath::between(onset, peak, next).word(rate))
}

/// The word of a void breath, and of a void total.
pub const VOID: u64 = 0;

/// The format of the words that are listed.
pub fn stored() -> Format {
    paper::format(1, 15).expect("a format")
}

/// The word of a ratio whose denominator isn't 0.
pub fn ratio_word(pair: Pair) -> u64 {
    let number = paper::Number {
        negative: false,
        marked: false,
        size: paper::Size::Finite(pair),
    };
    paper::write(stored(), number).expect("a word")
}

// Recordings.

/// The listing of a recording, or the stop of its first bad line.
pub fn listing(recording: &[u8]) -> Answer<Vec<u8>> {
    let (lines, end) = listed(recording);
    end.map(|()| lines)
}

/// The bytes that `night` prints for a recording: of a refused one the breaths before its bad line too.
pub fn printed(recording: &[u8]) -> Vec<u8> {
    let (mut lines, end) = listed(recording);
    if let Err(Stop { number, place }) = end {
        lines.extend(format!("refused\t{number}\t{place}\n").bytes());
    }
    lines
}

/// The lines that are listed of a recording, of a refused one those before its bad line, and how it ends.
pub fn listed(recording: &[u8]) -> (Vec<u8>, Answer<()>) {
    let mut lines = String::new();
    let end = list(recording, &mut lines);
    (lines.into_bytes(), end)
}

/// Lists the breaths up to a bad line or, where there is none, to the line `all`.
fn list(recording: &[u8], listed: &mut String) -> Answer<()> {
    let mut lines = recording.split_inclusive(|&byte| byte == b'\n');
    let total = match lines.next() {
        None => VOID,
        Some(first) => {
            let rate = rate_of(first).map_err(stop_at(1))?;
            list_breaths(rate, lines, listed)?
        }
    };
    *listed += &line("all", total);
    Ok(())
}

/// Lists the breaths behind the rate line up to a bad line; gives the word of the total.
fn list_breaths<'a>(
    rate: u64,
    lines: impl Iterator<Item = &'a [u8]>,
    listed: &mut String,
) -> Answer<u64> {
    let mut sums = (0, 0);
    for (bytes, number) in lines.zip(1..) {
        // The rate line is counted as a line, but as no breath.
        let stop = stop_at(number + 1);
        if number > MOST_BREATHS {
            return Err(stop(8));
        }
        let breath = breath_of(bytes).map_err(stop)?;
        *listed += &line(&number.to_string(), breath.word(rate));
        sums = breath.added(rate, sums).expect("sums of 64 bits");
    }
    Ok(total(sums))
}

/// The word of the sums of in and whole: a breath that isn't void has a whole of 1 or more.
pub fn total(sums: (u64, u64)) -> u64 {
    match sums {
        (_, 0) => VOID,
        (in_sum, whole_sum) => ratio_word((in_sum.into(), whole_sum.into())),
    }
}

/// The stop with a number at a line.
pub fn stop_at(line: usize) -> impl Fn(u64) -> Stop {
    let place = line as u64;
    move |number| Stop { number, place }
}

/// A line without its line feed, or 9.
fn text_of(line: &[u8]) -> Result<&[u8], u64> {
    let text = line.strip_suffix(b"\n").ok_or(9u64)?;
    if text.len() > MOST_BYTES {
        return Err(9);
    }
    Ok(text)
}

/// The rate that the first line tells, or a stop's number.
pub fn rate_of(line: &[u8]) -> Result<u64, u64> {
    let rate = text_of(line)?
        .strip_prefix(b"rate\t")
        .and_then(whole_number);
    rate.map(u64::from)
        .filter(|rate| RATES.contains(rate))
        .ok_or(19)
}

/// The breath of a line, or a stop's number.
pub fn breath_of(line: &[u8]) -> Result<Breath, u64> {
    let fields: Vec<&[u8]> = text_of(line)?.split(|&byte| byte == b'\t').collect();
    let [onset, peak, next] = fields[..] else {
        return Err(10);
    };
    let tick_mark = |bytes| whole_number(bytes).ok_or(11u64);
    let (onset, peak, next) = (tick_mark(onset)?, tick_mark(peak)?, tick_mark(next)?);
    Ok(Breath::between(onset, peak, next))
}

/// The number of 32 bits that the bytes are, if they are just what it is printed as.
fn whole_number(bytes: &[u8]) -> Option<u32> {
    let text = std::str::from_utf8(bytes).ok()?;
    let number: u32 = text.parse().ok()?;
    (number.to_string() == text).then_some(number)
}

// Listings.

/// The listed line of a word, one from 0 to 1 or void.
pub fn line(name: &str, word: u64) -> String {
    if word == VOID {
        return format!("{name}\t00000000\t-\t-\n");
    }
    let Ok(paper::Number {
        size: paper::Size::Finite(pair),
        ..
    }) = paper::read(stored(), word)
    else {
        unreachable!("a ratio of at most 1 is finite")
    };
    let (fraction, percentage) = shares(pair);
    format!("{name}\t{word:08x}\t{fraction}\t{percentage}\n")
}

/// A fraction as it is listed, and its percentage.
pub fn shares((n, d): Pair) -> (String, String) {
    let tenths = tenths(n, d);
    (
        format!("{n}/{d}"),
        format!("{}.{}", tenths / 10, tenths % 10),
    )
}

/// 1000 times the fraction n/d to the nearest whole, of two that are as near the even one.
fn tenths(n: u128, d: u128) -> u128 {
    let (below, rest) = (1000 * n / d, 1000 * n % d);
    match (2 * rest).cmp(&d) {
        Ordering::Less => below,
        Ordering::Equal => below + below % 2,
        Ordering::Greater => below + 1,
    }
}

#[cfg(test)]
mod tests {
    use super::*;

    const PAPERS: &str = "0\t277\t642\n4294967290\t10\t34\n100\t100\t100\n";
    const LISTING: &str = "1\t01150282\t277/642\t43.1\n2\t00020005\t2/5\t40.0\n3\t00000000\t-\t-\n\
                           all\t012502aa\t293/682\t43.0\n";
    const NOTHING: &str = "all\t00000000\t-\t-\n";

    fn text(recording: &str) -> String {
        String::from_utf8(printed(recording.as_bytes())).expect("text")
    }

    #[test]
    fn the_papers_recording_behind_its_rate_prints_the_same() {
        assert_eq!(text(&format!("rate\t1024\n{PAPERS}")), LISTING);
        assert_eq!(breath(1024, 0, 277, 642), Ok(0x0115_0282));
    }

    #[test]
    fn a_night_without_a_breath_prints_a_void_all() {
        assert_eq!(text(""), NOTHING);
        assert_eq!(text("rate\t1\n"), NOTHING);
    }

    #[test]
    fn a_whole_of_just_120_seconds_is_not_void() {
        for rate in RATES {
            let longest = 120 * rate as u32;
            assert_eq!(breath(rate, 5, 5 + longest, 5 + longest), Ok(0x1_0001));
            assert_eq!(breath(rate, 5, 5, 6 + longest), Ok(VOID));
        }
        // A next onset before its onset, and the total without it.
        assert_eq!(
            text("rate\t1\n0\t60\t120\n0\t0\t121\n7\t8\t6\n"),
            "1\t00010002\t1/2\t50.0\n2\t00000000\t-\t-\n3\t00000000\t-\t-\nall\t00010002\t1/2\t50.0\n"
        );
    }

    #[test]
    fn a_rate_out_of_range_gets_19() {
        for rate in [0, 4097, 1 << 32 | 1024, u64::MAX] {
            let stop = breath(rate, 0, 277, 642).expect_err("a stop");
            assert_eq!((stop.number, stop.place), (19, 0));
        }
    }

    #[test]
    fn a_first_line_that_is_no_rate_line_gets_9_or_19() {
        let refused = |first: &str, number: u64| {
            let expected = format!("refused\t{number}\t1\n");
            assert_eq!(text(&format!("{first}\n{PAPERS}")), expected, "{first:?}");
        };
        for first in [
            "",
            "rate",
            "rate\t",
            "rate\t1024\t",
            "rate\t\t1024",
            "0\t277\t642",
        ] {
            refused(first, 19);
        }
        for first in [
            "rate\t0",
            "rate\t4097",
            "rate\t007",
            "rate\t+1",
            "rate\t4294967297",
        ] {
            refused(first, 19);
        }
        refused(&format!("rate\t{}", "1".repeat(27)), 19);
        refused(&format!("rate\t{}", "1".repeat(28)), 9);
        assert_eq!(text("rate\t1024"), "refused\t9\t1\n");
    }

    #[test]
    fn stops_count_the_rate_line_and_breaths_do_not() {
        assert_eq!(text("rate\t1024\nrate\t1024\n"), "refused\t10\t2\n");
        let good = "0\t277\t642\n".repeat(65536);
        assert!(text(&format!("rate\t1024\n{good}")).ends_with("\nall\t01150282\t277/642\t43.1\n"));
        let refused = text(&format!("rate\t1024\n{good}0"));
        assert!(refused.ends_with("\n65536\t01150282\t277/642\t43.1\nrefused\t8\t65538\n"));
    }
}
