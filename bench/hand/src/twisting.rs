//! Floating words rearranged for storage: the numerator at the right of the field, the denominator without
//! its leading bit at the left, turned.

use crate::{
    at, Answer, BITS_ABOVE_WIDTH, UNDEFINED_SLASH_POSITION, UNEQUAL_LENGTHS, UNKNOWN_FORMAT,
};

/// Where a floating format has what.
#[derive(Clone, Copy)]
pub(crate) struct Layout {
    /// The bits of the field, and the lowest slash position above those of fractions.
    pub(crate) field_bits: u32,
    pub(crate) field: u64,
    /// The slash position of infinities and not-a-numbers.
    pub(crate) last: u64,
}

impl Layout {
    #[inline]
    pub(crate) const fn of(k: u32) -> Layout {
        let field_bits = k - 1;
        Layout {
            field_bits,
            field: (1 << field_bits) - 1,
            last: (!0_u32 >> field_bits.leading_zeros()) as u64,
        }
    }

    #[inline]
    fn find(kind: u64, k: u64) -> Result<Layout, u64> {
        if kind == 2 && (2..=32).contains(&k) {
            Ok(Layout::of(k as u32))
        } else {
            Err(UNKNOWN_FORMAT)
        }
    }

    /// The slash position, and 0 in place of the last: the field of an infinity or a not-a-number stays
    /// where it is, as at position 0. A choice between two numbers is faster than a branch by the word.
    #[inline]
    fn position(self, word: u64) -> u64 {
        let e = word >> self.field_bits & self.last;
        if e == self.last {
            0
        } else {
            e
        }
    }

    #[inline]
    fn checked_position(self, word: u64) -> Answer {
        if word >> self.field_bits > 4 * self.last + 3 {
            return Err(BITS_ABOVE_WIDTH);
        }
        let e = self.position(word);
        if e >= u64::from(self.field_bits) {
            return Err(UNDEFINED_SLASH_POSITION);
        }
        Ok(e)
    }

    /// The field's bits from the other end; bits above the field fall away.
    #[inline]
    pub(crate) fn turned(self, bits: u32) -> u64 {
        u64::from(bits.reverse_bits() >> (32 - self.field_bits))
    }

    /// The field is turned as a whole, which need not wait for the slash position.
    #[inline]
    fn twisted_at(self, e: u64, word: u64) -> u64 {
        let numerator = (word & self.field) >> e;
        let denominator = self.turned(word as u32) & !(self.field >> e);
        word & !self.field | numerator | denominator
    }

    #[inline]
    fn untwisted_at(self, e: u64, twisted: u64) -> u64 {
        let numerator = twisted << e & self.field;
        let denominator = self.turned(twisted as u32) & ((1 << e) - 1);
        twisted & !self.field | numerator | denominator
    }

    #[inline]
    pub(crate) fn twist(self, word: u64) -> Answer {
        Ok(self.twisted_at(self.checked_position(word)?, word))
    }

    #[inline]
    pub(crate) fn untwist(self, twisted: u64) -> Answer {
        Ok(self.untwisted_at(self.checked_position(twisted)?, twisted))
    }
}

// Words.

#[inline]
pub fn twist(kind: u64, k: u64, word: u64) -> Answer {
    Layout::find(kind, k)?.twist(word)
}

#[inline]
pub fn untwist(kind: u64, k: u64, twisted: u64) -> Answer {
    Layout::find(kind, k)?.untwist(twisted)
}

// Vectors.

// Each loop goes word by word, and its branch is right but for infinities and not-a-numbers.

#[inline]
pub fn twist_each(kind: u64, k: u64, operand: &[u64], out: &mut [u64]) -> Answer {
    let layout = Layout::find(kind, k)?;
    layout.check_each(operand, out)?;
    for (&word, out) in operand.iter().zip(out) {
        let e = word >> layout.field_bits & layout.last;
        *out = if e == layout.last {
            word
        } else {
            layout.twisted_at(e, word)
        };
    }
    Ok(0)
}

#[inline]
pub fn untwist_each(kind: u64, k: u64, operand: &[u64], out: &mut [u64]) -> Answer {
    let layout = Layout::find(kind, k)?;
    layout.check_each(operand, out)?;
    for (&twisted, out) in operand.iter().zip(out) {
        let e = twisted >> layout.field_bits & layout.last;
        *out = if e == layout.last {
            twisted
        } else {
            layout.untwisted_at(e, twisted)
        };
    }
    Ok(0)
}

impl Layout {
    /// One pass without a branch says whether all words are good; only otherwise the first bad one is found.
    #[inline]
    pub(crate) fn check_each(self, operand: &[u64], out: &[u64]) -> Answer {
        if operand.len() != out.len() {
            return Err(UNEQUAL_LENGTHS);
        }
        // The next slash position, 0 behind the last, raised so that one above those of fractions carries.
        let one = 1 << self.field_bits;
        let positions = self.last << self.field_bits;
        let raised = (self.last - u64::from(self.field_bits)) << self.field_bits;
        let (mut bits, mut next) = (0, 0);
        for &word in operand {
            bits |= word;
            next |= (word.wrapping_add(one) & positions) + raised;
        }
        if bits >> self.field_bits <= 4 * self.last + 3 && next >> self.field_bits <= self.last {
            return Ok(0);
        }
        for (place, &word) in operand.iter().enumerate() {
            self.checked_position(word).map_err(at(place))?;
        }
        Ok(0)
    }
}
