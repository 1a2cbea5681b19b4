//! What words say.

use crate::{header, raw};
use std::fmt;

/// What a word says: its value, and whether it is marked as approximate.
///
/// Shown as `277/642, exact`.
#[derive(Clone, Copy, Debug, PartialEq, Eq, Hash)]
pub struct Number {
    pub value: Value,
    pub approximate: bool,
}

/// The value of a word. Equal ones have the same sign and the same parts: whether 2/4 and 1/2 are the same
/// number is told by [`compare`](crate::compare).
///
/// Shown with its sign as a fraction: a zero as 0/1, an infinity as 1/0, a not-a-number as 0/0.
#[derive(Clone, Copy, Debug, PartialEq, Eq, Hash)]
pub enum Value {
    /// A fraction as it is stored: its parts aren't 0, and are perhaps not in lowest terms.
    Fraction {
        negative: bool,
        numerator: u64,
        denominator: u64,
    },
    Zero {
        negative: bool,
    },
    Infinity {
        negative: bool,
    },
    NotANumber,
}

impl Number {
    /// What the archive stored of a word.
    pub(crate) fn of_stored(stored: raw::Value) -> Number {
        let negative = stored.sign != 0;
        let value = match stored.value_class {
            header::FRACTION => Value::Fraction {
                negative,
                numerator: stored.numerator,
                denominator: stored.denominator,
            },
            header::ZERO => Value::Zero { negative },
            header::INFINITY => Value::Infinity { negative },
            _ => Value::NotANumber,
        };
        Number {
            value,
            approximate: stored.mark != 0,
        }
    }

    /// As the archive takes it.
    pub(crate) fn to_stored(self) -> raw::Value {
        let (negative, value_class, numerator, denominator) = self.value.parts();
        raw::Value {
            sign: negative.into(),
            value_class,
            numerator,
            denominator,
            mark: self.approximate.into(),
        }
    }
}

impl Value {
    /// Whether it is negative, its class, numerator and denominator.
    fn parts(self) -> (bool, u64, u64, u64) {
        match self {
            Value::Fraction {
                negative,
                numerator,
                denominator,
            } => (negative, header::FRACTION, numerator, denominator),
            Value::Zero { negative } => (negative, header::ZERO, 0, 1),
            Value::Infinity { negative } => (negative, header::INFINITY, 1, 0),
            Value::NotANumber => (false, header::NOT_A_NUMBER, 0, 0),
        }
    }
}

impl fmt::Display for Value {
    fn fmt(&self, f: &mut fmt::Formatter) -> fmt::Result {
        let (negative, _, numerator, denominator) = self.parts();
        let sign = if negative { "-" } else { "" };
        write!(f, "{sign}{numerator}/{denominator}")
    }
}

impl fmt::Display for Number {
    fn fmt(&self, f: &mut fmt::Formatter) -> fmt::Result {
        let mark = if self.approximate {
            "approximate"
        } else {
            "exact"
        };
        write!(f, "{}, {mark}", self.value)
    }
}
