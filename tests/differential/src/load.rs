//! A printed listing read back, from documents 00 and 01 and CRs 1 to 3 of 02 alone.

use crate::night::{self, shares, stop_at, stored, MOST_BREATHS, VOID};
use crate::paper::{self, Answer, Number, Pair, Size, Stop};

/// What a listing says: the breaths' words, the first one first, and the total's.
#[derive(Debug, PartialEq, Eq)]
pub struct Loaded {
    pub words: Vec<u64>,
    pub total: u64,
}

/// Fills lent lists of breath numbers and words; gives the breath count and the total's word.
pub fn load(text: &[u8], numbers: &mut [u64], words: &mut [u64]) -> Answer<(u64, u64)> {
    let loaded = read(text)?;
    let count = loaded.words.len();
    if numbers.len() < count || words.len() < count {
        return Err(Stop {
            number: 7,
            place: 0,
        });
    }
    words[..count].copy_from_slice(&loaded.words);
    for (index, number) in numbers[..count].iter_mut().enumerate() {
        *number = index as u64 + 1;
    }
    Ok((count as u64, loaded.total))
}

/// The bytes that are printed for some words.
pub fn printed(words: &[u64], total: u64) -> Vec<u8> {
    let breaths = words.iter().zip(1..);
    let lines = breaths.map(|(&word, number): (_, u64)| night::line(&number.to_string(), word));
    let listed: String = lines.chain([night::line("all", total)]).collect();
    listed.into_bytes()
}

/// What a listing says, or the stop of its first bad line.
pub fn read(text: &[u8]) -> Answer<Loaded> {
    let (mut words, mut total, mut line) = (Vec::new(), None, 1);
    for bytes in text.split_inclusive(|&byte| byte == b'\n') {
        let columns = columns(bytes).ok_or(stop_at(line)(13))?;
        if total.is_some() || !is_in_sequence(columns, line) {
            return Err(stop_at(line)(14));
        }
        let word = word(columns).ok_or(stop_at(line)(15))?;
        match columns[0] {
            "all" => total = Some(word),
            _ => words.push(word),
        }
        line += 1;
    }
    let total = total.ok_or(stop_at(line)(14))?;
    // "Printing the loaded words yields the bytes."
    debug_assert!(printed(&words, total) == text);
    Ok(Loaded { words, total })
}

/// The columns of a line that has the shape: name, word, fraction, percentage.
fn columns(bytes: &[u8]) -> Option<[&str; 4]> {
    let line = std::str::from_utf8(bytes).ok()?.strip_suffix('\n')?;
    let mut parts = line.split('\t');
    let columns = [parts.next()?, parts.next()?, parts.next()?, parts.next()?];
    let [name, word, fraction, percentage] = columns;
    let is_name = name == "all" || is_whole(name);
    let is_word = word.len() == 8 && word.chars().all(|digit| "0123456789abcdef".contains(digit));
    let has_shares = match (fraction, percentage) {
        ("-", "-") => true,
        _ => is_fraction(fraction) && is_decimal(percentage),
    };
    (is_name && is_word && has_shares && parts.next().is_none()).then_some(columns)
}

fn is_digits(text: &str) -> bool {
    text.chars().all(|digit| digit.is_ascii_digit())
}

/// Whether the text is a whole number, however large, without leading zeros.
fn is_whole(text: &str) -> bool {
    !text.is_empty() && is_digits(text) && (text == "0" || !text.starts_with('0'))
}

fn is_fraction(text: &str) -> bool {
    let parts = text.split_once('/');
    parts.is_some_and(|(numerator, denominator)| is_whole(numerator) && is_whole(denominator))
}

/// Whether the text is a decimal number of one place.
fn is_decimal(text: &str) -> bool {
    let parts = text.split_once('.');
    parts.is_some_and(|(whole, place)| is_whole(whole) && place.len() == 1 && is_digits(place))
}

/// The line that a night with nothing in it has.
const NOTHING: [&str; 4] = ["all", "00000000", "-", "-"];

/// Whether a line with these columns comes here, no `all` before it.
fn is_in_sequence(columns: [&str; 4], line: usize) -> bool {
    match columns[0] {
        "all" => line > 1 || columns == NOTHING,
        number => line <= MOST_BREATHS && number == line.to_string(),
    }
}

/// The word of a line, if a listing has it and the columns are its own.
fn word([_, word, fraction, percentage]: [&str; 4]) -> Option<u64> {
    let word = u64::from_str_radix(word, 16).ok()?;
    if word == VOID {
        return (fraction == "-" && percentage == "-").then_some(word);
    }
    let (own_fraction, own_percentage) = shares(listed_pair(word)?);
    (fraction == own_fraction && percentage == own_percentage).then_some(word)
}

/// The pair of a word that a listing has and that isn't void: canonical, with sign 0 and from 0 to 1.
fn listed_pair(word: u64) -> Option<Pair> {
    let number = paper::read(stored(), word).ok()?;
    let Number {
        negative: false,
        size: Size::Finite((n, d)),
        ..
    } = number
    else {
        return None;
    };
    (paper::write(stored(), number) == Ok(word) && n <= d).then_some((n, d))
}

/// The stop that reading would have at the first line that no listing has, were these words printed.
pub fn print_stop(words: &[u64], total: u64) -> Option<Stop> {
    let is_listed = |word| word == VOID || listed_pair(word).is_some();
    let stop = |number, line: usize| {
        let place = line as u64;
        Some(Stop { number, place })
    };
    for (&word, line) in words.iter().zip(1..) {
        if line > MOST_BREATHS {
            return stop(14, line);
        }
        if !is_listed(word) {
            return stop(15, line);
        }
    }
    match words.len() + 1 {
        1 if total != VOID => stop(14, 1),
        last if !is_listed(total) => stop(15, last),
        _ => None,
    }
}

#[cfg(test)]
mod tests {
    use super::*;

    const LISTING: &str = "1\t01150282\t277/642\t43.1\n2\t00020005\t2/5\t40.0\n3\t00000000\t-\t-\n\
                           all\t012502aa\t293/682\t43.0\n";

    #[test]
    fn the_papers_listing_is_loaded_and_printed_again() {
        let loaded = read(LISTING.as_bytes()).expect("a listing");
        assert_eq!(loaded.words, [0x0115_0282, 0x0002_0005, 0]);
        assert_eq!(loaded.total, 0x0125_02aa);
        assert_eq!(printed(&loaded.words, loaded.total), LISTING.as_bytes());
    }

    #[test]
    fn a_night_with_nothing_in_it_is_one_line() {
        let nothing = "all\t00000000\t-\t-\n";
        assert_eq!(night::printed(b""), nothing.as_bytes());
        let loaded = Loaded {
            words: Vec::new(),
            total: VOID,
        };
        assert_eq!(read(nothing.as_bytes()), Ok(loaded));
        assert_eq!(load(nothing.as_bytes(), &mut [], &mut []), Ok((0, VOID)));
        assert_eq!(print_stop(&[], VOID), None);
        for total in [1, 2, 1 << 32] {
            assert_eq!(print_stop(&[], total).map(|stop| stop.number), Some(14));
        }
        assert_eq!(refused(&nothing.repeat(2)), (14, 2));
        assert_eq!(refused(&format!("{nothing}1\t00000000\t-\t-\n")), (14, 2));
        assert_eq!(refused(&format!("{nothing}\n")), (13, 2));
    }

    /// The stop of the paper's listing in which a text stands in the place of the only one like it.
    fn changed(from: &str, to: &str) -> (u64, u64) {
        assert_eq!(LISTING.matches(from).count(), 1, "{from:?}");
        refused(&LISTING.replace(from, to))
    }

    fn refused(text: &str) -> (u64, u64) {
        let stop = read(text.as_bytes()).expect_err("a stop");
        (stop.number, stop.place)
    }

    #[test]
    fn a_line_without_the_shape_gets_13() {
        assert_eq!(changed("2\t0002", "02\t0002"), (13, 2));
        assert_eq!(changed("\t01150282", "\t0115028A"), (13, 1));
        assert_eq!(changed("43.1", "43.10"), (13, 1));
        assert_eq!(changed("43.1", "043.1"), (13, 1));
        assert_eq!(changed("2/5", "02/5"), (13, 2));
        assert_eq!(changed("2/5", "-"), (13, 2));
        assert_eq!(changed("43.0\n", "43.0"), (13, 4));
        assert_eq!(changed("3\t0000", "\n3\t0000"), (13, 3));
        assert_eq!(changed("43.0\n", "43.0\n\n"), (13, 5));
        assert_eq!(refused("\n"), (13, 1));
    }

    #[test]
    fn a_line_out_of_sequence_gets_14() {
        assert_eq!(refused(""), (14, 1));
        assert_eq!(changed("2\t0002", "0\t0002"), (14, 2));
        assert_eq!(changed("2\t0002", "18446744073709551618\t0002"), (14, 2));
        assert_eq!(changed("all\t012502aa\t293/682\t43.0\n", ""), (14, 4));
        assert_eq!(changed("43.0\n", "43.0\n5\t00000000\t-\t-\n"), (14, 5));
        assert_eq!(refused("all\t00000000\t0/1\t0.0\n"), (14, 1));
        assert_eq!(refused("all\t00010002\t1/2\t50.0\n"), (14, 1));
        assert_eq!(refused("all\t80000001\t-\t-\n"), (14, 1));
        let listing = |breaths: usize| printed(&vec![VOID; breaths], VOID);
        assert_eq!(
            read(&listing(65536)).map(|loaded| loaded.words.len()),
            Ok(65536)
        );
        let stop = Stop {
            number: 14,
            place: 65537,
        };
        assert_eq!(read(&listing(65537)), Err(stop));
    }

    #[test]
    fn a_word_that_no_listing_has_or_with_other_columns_gets_15() {
        assert_eq!(changed("40.0", "40.1"), (15, 2));
        assert_eq!(changed("40.0", "18446744073709551656.0"), (15, 2));
        assert_eq!(changed("2/5", "4/10"), (15, 2));
        assert_eq!(changed("2/5\t40.0", "-\t-"), (15, 2));
        assert_eq!(changed("-\t-", "0/1\t0.0"), (15, 3));
        assert_eq!(changed("012502aa", "812502aa"), (15, 4));
        assert_eq!(changed("00020005\t2/5", "0004000a\t4/10"), (15, 2));
        assert_eq!(
            changed("00020005\t2/5\t40.0", "00050002\t5/2\t250.0"),
            (15, 2)
        );
        assert_eq!(
            changed("00020005\t2/5\t40.0", "00010000\t1/0\t0.0"),
            (15, 2)
        );
        // A zero with a message.
        assert_eq!(
            changed("00020005\t2/5\t40.0", "00000003\t0/1\t0.0"),
            (15, 2)
        );
    }

    #[test]
    fn a_mark_a_zero_and_a_one_are_good() {
        for words in [vec![0x0002_8005], vec![1, 0x8001], vec![0x1_0001, 0x1_8001]] {
            let loaded = read(&printed(&words, VOID));
            assert_eq!(loaded.map(|loaded| loaded.words), Ok(words));
        }
    }

    #[test]
    fn a_list_that_is_too_short_gets_7_behind_all_other_stops() {
        let told = |numbers: usize, words: usize| {
            load(
                LISTING.as_bytes(),
                &mut vec![0; numbers],
                &mut vec![0; words],
            )
        };
        let stop = Stop {
            number: 7,
            place: 0,
        };
        assert_eq!(told(2, 3), Err(stop));
        assert_eq!(told(3, 2), Err(stop));
        assert_eq!(told(3, 4), Ok((3, 0x0125_02aa)));
        assert_eq!(
            load(b"", &mut [], &mut []).map_err(|stop| stop.number),
            Err(14)
        );
    }
}
