//! Keeps ratios for a storage unit that wants numerators at the right: rounds those of two breaths, in of
//! whole, and the papers' 355/113 into floating words, twists them, masks the numerators out,
//! and untwists them.

use slash::{Format, Stop};

/// The format: its slash position has 5 bits, as 2^5 is the least power of 2 that is at least 26.
const K: u64 = 26;
const LAST_POSITION: u64 = 31;

const RATIOS: [(u64, u64); 3] = [(277, 642), (16, 40), (355, 113)];

/// The numerator of a twisted word: one AND, with a mask by its slash position. An infinity or a
/// not-a-number has none, and gets 0.
fn numerator(twisted: u64) -> u64 {
    let e = twisted >> (K - 1) & LAST_POSITION;
    if e > K - 2 {
        return 0;
    }
    let mask = (1 << (K - 1 - e)) - 1;
    twisted & mask
}

fn main() -> Result<(), Stop> {
    let form = Format::floating(K);
    let (mut words, mut twisted, mut back) = ([0; 3], [0; 3], [0; 3]);
    for (word, (n, d)) in words.iter_mut().zip(RATIOS) {
        *word = slash::round(form, n, d)?;
    }

    // To the storage unit, where numerators are read, and back.
    slash::twist_each(form, &words, &mut twisted)?;
    for ((word, twisted), (n, d)) in words.into_iter().zip(twisted).zip(RATIOS) {
        let numerator = numerator(twisted);
        println!("{n}/{d}: word {word:08x}, twisted {twisted:08x}, numerator {numerator}");
    }
    slash::untwist_each(form, &twisted, &mut back)?;
    let same = if words == back { "the same" } else { "others" };
    println!("the words that came back are {same}");

    // A fixed word has its numerator at one place always: such a format is refused.
    let stop =
        slash::twist_each(Format::fixed(15), &words, &mut twisted).expect_err("a fixed format");
    println!("fixed k = 15: stop {}, {}", stop.number, stop.text());
    Ok(())
}
