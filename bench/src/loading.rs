//! A night's listing read back, and texts that are refused at their one long line.

use crate::contenders::{listed, loaded, Lent, LOADS, NIGHTS};
use crate::{in_turn, median, ratio, timed, BREATHS, ROUNDS};

/// What a number holds that is lent where two readings are compared.
const LENT: u64 = 0x7e11_7a1e_7e11_7a1e;

/// The digits of the long lines' numbers.
const DIGITS: [usize; 2] = [1_000_000, 2_000_000];

pub fn section(recording: &[u8]) -> String {
    let mut listing = vec![0; slash::raw::LISTING_BYTES];
    let (status, length) = listed(NIGHTS[0], recording, &mut listing);
    assert_eq!(status, 0);
    listing.truncate(length);
    let mut section =
        format!("## A listing read back\n\nThe listing of that recording, {length} bytes.\n\n");
    section += &in_memory(recording, &listing);
    section += &long_lines();
    section
}

fn lent() -> Lent {
    Lent {
        numbers: vec![LENT; BREATHS],
        words: vec![LENT; BREATHS],
        count: LENT,
        total: LENT,
    }
}

/// The library's function beside the hand-written one, and beside the function that made the listing.
fn in_memory(recording: &[u8], listing: &[u8]) -> String {
    for bytes in [0, 1, listing.len() / 2, listing.len() - 1, listing.len()] {
        assert_loaded_alike(&listing[..bytes]);
    }
    let (mut lent, mut again) = (lent(), vec![0; slash::raw::LISTING_BYTES]);
    let mut times = [(); 3].map(|()| Vec::new());
    for round in 0..ROUNDS {
        for at in in_turn(times.len(), round) {
            let (spent, status) = match LOADS.get(at) {
                Some(&load) => timed(|| loaded(load, listing, &mut lent)),
                None => timed(|| listed(NIGHTS[0], recording, &mut again).0),
            };
            assert_eq!(status, 0);
            times[at].push(spent / BREATHS as f64);
        }
    }
    let [archive, hand, night] = &times;
    format!(
        "In memory: the archive's `slash_load` takes {:.1} ns a breath, hand-written Rust {:.2} times as \
         long; the archive's `slash_night` took {:.1} ns a breath in the same rounds. Both loads read the \
         listing through before they store anything, as a refused one must leave the lent lists as they \
         were.\n\n",
        median(archive),
        ratio(archive, hand),
        median(night)
    )
}

/// Holds the two functions to each other: what they return, and all that they are lent.
fn assert_loaded_alike(listing: &[u8]) {
    let [archive, hand] = LOADS.map(|load| {
        let mut lent = lent();
        (loaded(load, listing, &mut lent), lent)
    });
    assert!(
        archive == hand,
        "{} bytes are loaded otherwise",
        listing.len()
    );
}

/// What a byte costs of a line whose number has many digits, which is read to its end and refused.
fn long_lines() -> String {
    let texts = DIGITS.map(|digits| format!("{}\t00000000\t-\t-\n", "1".repeat(digits)));
    let mut lent = lent();
    let mut times = DIGITS.map(|_| LOADS.map(|_| Vec::new()));
    for round in 0..ROUNDS {
        for (text, times) in texts.iter().zip(&mut times) {
            for at in in_turn(LOADS.len(), round) {
                let (spent, status) = timed(|| loaded(LOADS[at], text.as_bytes(), &mut lent));
                assert_eq!(status, 256 + 14);
                times[at].push(spent / text.len() as f64);
            }
        }
    }
    let [[first, hand_first], [second, hand_second]] = &times;
    format!(
        "A text of one long line, twice as long the second time: one whose number has {} digits is refused in \
         {:.2} ns a byte, one whose number has {} in {:.2}; hand-written Rust takes {:.2} and {:.2} times as \
         long.\n",
        DIGITS[0],
        median(first),
        DIGITS[1],
        median(second),
        ratio(first, hand_first),
        ratio(second, hand_second)
    )
}
