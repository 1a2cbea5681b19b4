//! Twisting and counting with tables. The layout is looked up by k, and a vector's words have masks and factors
//! looked up by slash position, products in place of shifts, and their denominators turned eight at once. The
//! last quotients of a word are looked up by a small divisor and what remains.

use crate::twisting::Layout;
use crate::{counted_by, nearest, ordered, Answer, UNKNOWN_FORMAT};

/// By k; k = 0 and 1 are never asked for.
const LAYOUTS: [Layout; 33] = {
    let mut layouts = [Layout::of(2); 33];
    let mut k = 2;
    while k <= 32 {
        layouts[k] = Layout::of(k as u32);
        k += 1;
    }
    layouts
};

#[inline]
fn find(kind: u64, k: u64) -> Result<Layout, u64> {
    if kind == 2 && (2..=32).contains(&k) {
        Ok(LAYOUTS[k as usize])
    } else {
        Err(UNKNOWN_FORMAT)
    }
}

// Words.

#[inline]
pub fn twist(kind: u64, k: u64, word: u64) -> Answer {
    find(kind, k)?.twist(word)
}

#[inline]
pub fn untwist(kind: u64, k: u64, twisted: u64) -> Answer {
    find(kind, k)?.untwist(twisted)
}

// Vectors.

#[inline]
pub fn twist_each(kind: u64, k: u64, operand: &[u64], out: &mut [u64]) -> Answer {
    let layout = find(kind, k)?;
    layout.check_each(operand, out)?;
    let moves = Moves::of(layout, |e| (1 << e) - 1, |e| 1 << (31 - e));
    let numerator = |word: u64, factor: u64| ((word & layout.field) * factor) >> 31;
    moves.store_each(numerator, operand, out);
    Ok(0)
}

#[inline]
pub fn untwist_each(kind: u64, k: u64, operand: &[u64], out: &mut [u64]) -> Answer {
    let layout = find(kind, k)?;
    layout.check_each(operand, out)?;
    let field = layout.field as u32;
    let moves = Moves::of(layout, |e| field & !(field >> e), |e| 1 << e);
    let numerator = |word: u64, factor: u64| word.wrapping_mul(factor) & layout.field;
    moves.store_each(numerator, operand, out);
    Ok(0)
}

/// The words whose denominators are turned at once. Of so few the compiler keeps all in registers; with 16
/// a word takes a quarter longer.
const BLOCK: usize = 8;

/// For each slash position the field's bits that are the denominator's, and the factor that moves the
/// numerator. They are made at each call.
struct Moves {
    layout: Layout,
    denominators: [u32; 32],
    factors: [u64; 32],
}

impl Moves {
    /// The last position has no denominator, and its field stays where it is, as at position 0.
    #[inline]
    fn of(layout: Layout, denominator: impl Fn(u32) -> u32, factor: impl Fn(u32) -> u64) -> Moves {
        let mut moves = Moves {
            layout,
            denominators: [0; 32],
            factors: [factor(0); 32],
        };
        for e in 0..layout.field_bits {
            moves.denominators[e as usize] = denominator(e);
            moves.factors[e as usize] = factor(e);
        }
        moves
    }

    #[inline]
    fn store_each(&self, numerator: impl Fn(u64, u64) -> u64, operand: &[u64], out: &mut [u64]) {
        let layout = self.layout;
        let last = layout.last & 31;
        // The new word without its denominator, and that denominator, not yet turned.
        let parted = |word: u64| {
            let e = (word >> layout.field_bits & last) as usize;
            let rest = word & !layout.field | numerator(word, self.factors[e]);
            (rest, word as u32 & self.denominators[e])
        };
        let (blocks, operand) = operand.as_chunks::<BLOCK>();
        let (out_blocks, out) = out.as_chunks_mut::<BLOCK>();
        for (words, out) in blocks.iter().zip(out_blocks) {
            let mut denominators = [0; BLOCK];
            for place in 0..BLOCK {
                (out[place], denominators[place]) = parted(words[place]);
            }
            for place in 0..BLOCK {
                out[place] |= layout.turned(denominators[place]);
            }
        }
        for (&word, out) in operand.iter().zip(out) {
            let (rest, denominator) = parted(word);
            *out = rest | layout.turned(denominator);
        }
    }
}

// Counts of quotients.

/// Divisors below this have their counts in a table.
const SMALL: usize = 128;

/// By a small divisor and what remains: how many quotients there are, this one and those behind it.
static SMALL_COUNTS: [[u8; SMALL]; SMALL] = {
    let mut counts = [[1; SMALL]; SMALL];
    let mut divisor = 2;
    while divisor < SMALL {
        let mut rest = 1;
        while rest < divisor {
            counts[divisor][rest] = 1 + counts[rest][divisor % rest];
            rest += 1;
        }
        divisor += 1;
    }
    counts
};

#[inline]
pub fn quotient_count(kind: u64, k: u64, operand: u64) -> Answer {
    counted_by(counted, kind, k, operand)
}

/// How many partial quotients n/d has, d at least 1.
#[inline]
fn counted(n: u32, d: u32) -> u64 {
    let (mut a, mut b, mut count) = ordered(n, d);
    while b as usize >= SMALL {
        let (next, passed) = nearest(a % b, b);
        (a, b) = (b, next);
        count += 1 + passed;
    }
    if b == 0 {
        return count;
    }
    count + u64::from(SMALL_COUNTS[b as usize][(a % b) as usize])
}
