//! Formats asked for their limits; words taken apart and put together, by hand-written code.

use crate::{cut, form, put, Answer, Class, Number, DENOMINATOR_ZERO, NOT_A_NUMBER, UNKNOWN_CODE};

/// What a word says, as C has it.
#[repr(C)]
#[derive(Clone, Copy, Debug, Default, PartialEq, Eq)]
pub struct Value {
    pub sign: u64,
    pub value_class: u64,
    pub numerator: u64,
    pub denominator: u64,
    pub mark: u64,
}

/// The classes' numbers.
const FRACTION_CLASS: u64 = 1;
const ZERO_CLASS: u64 = 2;
const INFINITY_CLASS: u64 = 3;
const NOT_A_NUMBER_CLASS: u64 = 4;

#[inline]
pub fn width(kind: u64, k: u64) -> Answer {
    Ok(form(kind, k)?.width().into())
}

#[inline]
pub fn largest(kind: u64, k: u64) -> Answer {
    Ok(form(kind, k)?.largest())
}

#[inline]
pub fn check(kind: u64, k: u64, word: u64) -> Result<(), u64> {
    crate::read(form(kind, k)?, word).map(|_| ())
}

#[inline]
pub fn read(kind: u64, k: u64, word: u64) -> Result<Value, u64> {
    let form = form(kind, k)?;
    let Number {
        class,
        negative,
        n,
        d,
        ..
    } = crate::read(form, word)?;
    let value_class = match class {
        Class::Finite if n == 0 => ZERO_CLASS,
        Class::Finite => FRACTION_CLASS,
        Class::Infinite => INFINITY_CLASS,
        Class::NotANumber => NOT_A_NUMBER_CLASS,
    };
    Ok(Value {
        sign: negative.into(),
        value_class,
        numerator: n,
        denominator: d,
        // A not-a-number's too, which no operation asks for.
        mark: word >> form.mark_at & 1,
    })
}

#[inline]
pub fn write(kind: u64, k: u64, value: &Value) -> Answer {
    let form = form(kind, k)?;
    let is_class = (FRACTION_CLASS..=NOT_A_NUMBER_CLASS).contains(&value.value_class);
    if !is_class || value.sign | value.mark > 1 {
        return Err(UNKNOWN_CODE);
    }
    let (negative, marked) = (value.sign == 1, value.mark == 1);
    match value.value_class {
        FRACTION_CLASS if value.denominator == 0 => Err(DENOMINATOR_ZERO),
        FRACTION_CLASS => {
            let (r, s, changed) = cut(form, value.numerator, value.denominator);
            Ok(put(form, negative, marked | changed, r, s))
        }
        ZERO_CLASS => Ok(put(form, negative, marked, 0, 1)),
        INFINITY_CLASS => Ok(put(form, negative, marked, 1, 0)),
        _ => Ok(crate::write(form, NOT_A_NUMBER)),
    }
}
