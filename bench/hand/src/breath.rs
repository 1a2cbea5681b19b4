//! One breath as the recorder stores it, in fixed k = 15, by hand-written code: by Euclid's loop, as the archive
//! goes, or with HALVING by another algorithm where a word holds the ratio as it is.

use crate::{proportion, Answer};
use std::num::NonZeroU32;

pub const BAD_RATE: u64 = 19;

/// The word of a void breath.
pub const VOID: u32 = 0;

/// The largest rate, in ticks a second.
const MOST_TICKS: u64 = 4096;

/// The seconds of the longest breath that isn't void.
const MOST_SECONDS: u32 = 120;

/// The largest part of a word.
const LARGEST: u32 = 32767;

#[inline]
pub fn breath<const HALVING: bool>(rate: u64, onset: u32, peak: u32, next: u32) -> Answer {
    let Some(longest) = longest(rate) else {
        return Err(BAD_RATE);
    };
    let (inward, whole) = (peak.wrapping_sub(onset), next.wrapping_sub(onset));
    Ok(word::<HALVING>(longest, inward, whole).into())
}

/// The ticks of the longest breath that isn't void, if the rate is one.
#[inline]
pub fn longest(rate: u64) -> Option<u32> {
    let is_rate = (1..=MOST_TICKS).contains(&rate);
    is_rate.then(|| MOST_SECONDS * rate as u32)
}

/// The rate of which these are the ticks of the longest breath.
#[inline]
pub fn rate(longest: u32) -> u64 {
    (longest / MOST_SECONDS).into()
}

/// The word of a breath with these durations.
#[inline]
pub fn word<const HALVING: bool>(longest: u32, inward: u32, whole: u32) -> u32 {
    // No ticks less one are more than the longest.
    if inward > whole || whole.wrapping_sub(1) >= longest {
        VOID
    } else if inward == 0 {
        1
    } else if HALVING && whole <= LARGEST {
        held(inward, whole)
    } else {
        proportion(inward, whole.into())
    }
}

/// The word of n/d, 0 < n <= d, which are held: in lowest terms, both parts divided at once by their greatest
/// common divisor. That is found by halving and subtracting, which took half the time of Euclid's loop.
#[inline]
fn held(n: u32, d: u32) -> u32 {
    let pair = (n << 16 | d) >> (n | d).trailing_zeros();
    let (mut a, mut b) = (n >> n.trailing_zeros(), d >> d.trailing_zeros());
    // Both are odd: for the larger comes the odd part of the difference.
    while let Some(difference) = NonZeroU32::new(a.wrapping_sub(b)) {
        (a, b) = (a.abs_diff(b) >> difference.trailing_zeros(), a.min(b));
        if b == 1 {
            return pair;
        }
    }
    pair / a
}
