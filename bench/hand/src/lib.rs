//! Slash arithmetic written by hand for speed: 64-bit numbers, Euclid's loop with convergents.
//!
//! A refused call returns `Err` of its place times 256 plus the stop's number.

pub mod breath;
pub mod c;
mod line;
pub mod load;
pub mod night;
pub mod tables;
pub mod timings;
pub mod twisting;
pub mod value;

pub type Answer = Result<u64, u64>;

const UNKNOWN_FORMAT: u64 = 1;
const UNKNOWN_CODE: u64 = 2;
const UNEQUAL_LENGTHS: u64 = 3;
const BITS_ABOVE_WIDTH: u64 = 4;
const UNDEFINED_SLASH_POSITION: u64 = 5;
const DENOMINATOR_ZERO: u64 = 6;
const LIST_TOO_SHORT: u64 = 7;

// Formats.

#[derive(Clone, Copy)]
struct Form {
    fixed: bool,
    k: u32,
    /// The bits of a floating word's slash position.
    slash_bits: u32,
    /// The place of the sign.
    sign_at: u32,
    /// The place of the mark.
    mark_at: u32,
}

#[inline]
fn form(kind: u64, k: u64) -> Result<Form, u64> {
    match kind {
        1 if (2..=31).contains(&k) => {
            let k = k as u32;
            Ok(Form {
                fixed: true,
                k,
                slash_bits: 0,
                sign_at: 2 * k + 1,
                mark_at: k,
            })
        }
        2 if (2..=32).contains(&k) => {
            let k = k as u32;
            let slash_bits = 32 - (k - 1).leading_zeros();
            let sign_at = k + slash_bits;
            Ok(Form {
                fixed: false,
                k,
                slash_bits,
                sign_at,
                mark_at: sign_at - 1,
            })
        }
        _ => Err(UNKNOWN_FORMAT),
    }
}

impl Form {
    #[inline]
    fn holds(self, n: u64, d: u64) -> bool {
        if self.fixed {
            (n | d) >> self.k == 0
        } else {
            (64 - (n | 1).leading_zeros()) + (64 - d.leading_zeros()) <= self.k
        }
    }

    /// The slash position of infinities and not-a-numbers.
    #[inline]
    fn last_position(self) -> u64 {
        (1 << self.slash_bits) - 1
    }

    /// The bits of a word.
    #[inline]
    fn width(self) -> u32 {
        self.sign_at + 1
    }

    /// The largest part of a fraction: the other part of a floating one takes a bit at least.
    #[inline]
    fn largest(self) -> u64 {
        let bits = if self.fixed { self.k } else { self.k - 1 };
        (1 << bits) - 1
    }
}

// Words.

#[derive(Clone, Copy, PartialEq)]
enum Class {
    Finite,
    Infinite,
    NotANumber,
}

/// What a word stands for; n/d is its size where it is finite.
#[derive(Clone, Copy)]
struct Number {
    class: Class,
    negative: bool,
    marked: bool,
    n: u64,
    d: u64,
}

const NOT_A_NUMBER: Number = Number {
    class: Class::NotANumber,
    negative: false,
    marked: false,
    n: 0,
    d: 0,
};

#[inline]
fn infinite(negative: bool, marked: bool) -> Number {
    Number {
        class: Class::Infinite,
        negative,
        marked,
        n: 1,
        d: 0,
    }
}

#[inline]
fn finite(negative: bool, marked: bool, n: u64, d: u64) -> Number {
    Number {
        class: Class::Finite,
        negative,
        marked,
        n,
        d,
    }
}

#[inline]
fn read(form: Form, word: u64) -> Result<Number, u64> {
    if form.width() < 64 && word >> form.width() != 0 {
        return Err(BITS_ABOVE_WIDTH);
    }
    let negative = word >> form.sign_at & 1 == 1;
    let marked = word >> form.mark_at & 1 == 1;
    if form.fixed {
        let low = (1 << form.k) - 1;
        let (n, d) = (word >> (form.k + 1) & low, word & low);
        if n != 0 && d != 0 {
            Ok(finite(negative, marked, n, d))
        } else if d & 1 == 1 {
            Ok(finite(negative, marked, 0, 1))
        } else if n & 1 == 1 {
            Ok(infinite(negative, marked))
        } else {
            Ok(NOT_A_NUMBER)
        }
    } else {
        let e = word >> (form.k - 1) & form.last_position();
        let f = word & ((1 << (form.k - 1)) - 1);
        if e <= u64::from(form.k) - 2 {
            let n = f >> e;
            if n == 0 {
                Ok(finite(negative, marked, 0, 1))
            } else {
                Ok(finite(negative, marked, n, f & ((1 << e) - 1) | 1 << e))
            }
        } else if e != form.last_position() {
            Err(UNDEFINED_SLASH_POSITION)
        } else if f & 1 == 0 {
            Ok(infinite(negative, marked))
        } else {
            Ok(NOT_A_NUMBER)
        }
    }
}

#[inline]
fn write(form: Form, number: Number) -> u64 {
    let Number {
        class,
        negative,
        marked,
        n,
        d,
    } = number;
    match class {
        Class::NotANumber if form.fixed => 0,
        Class::NotANumber => form.last_position() << (form.k - 1) | 1,
        Class::Infinite => put(form, negative, marked, 1, 0),
        Class::Finite => {
            let (r, s, changed) = cut(form, n, d);
            put(form, negative, marked | changed, r, s)
        }
    }
}

/// The word of a held pair in lowest terms.
#[inline]
fn put(form: Form, negative: bool, marked: bool, r: u64, s: u64) -> u64 {
    let top = u64::from(negative) << form.sign_at | u64::from(marked) << form.mark_at;
    if form.fixed {
        top | r << (form.k + 1) | s
    } else if s == 0 {
        top | form.last_position() << (form.k - 1)
    } else {
        let e = 63 - s.leading_zeros();
        top | u64::from(e) << (form.k - 1) | r << e | s ^ 1 << e
    }
}

/// The last convergent of n/d, d at least 1, that the format holds, and whether it isn't n/d.
#[inline]
fn cut(form: Form, mut n: u64, mut d: u64) -> (u64, u64, bool) {
    let (mut r0, mut s0, mut r1, mut s1) = (0u64, 1u64, 1u64, 0u64);
    while d != 0 {
        let quotient = n / d;
        let (Some(r), Some(s)) = (quotient.checked_mul(r1), quotient.checked_mul(s1)) else {
            return (r1, s1, true);
        };
        let (Some(r), Some(s)) = (r.checked_add(r0), s.checked_add(s0)) else {
            return (r1, s1, true);
        };
        if !form.holds(r, s) {
            return (r1, s1, true);
        }
        (n, d) = (d, n - quotient * d);
        (r0, s0, r1, s1) = (r1, s1, r, s);
    }
    (r1, s1, false)
}

/// The mark of a word of fixed k = 15.
const MARK: u32 = 1 << 15;

/// The word of n/d from 0 to 1, n not 0, rounded into fixed k = 15. The first convergent is 0, so that d is
/// divided by n to begin with; the divisions behind it take 32 bits. Both parts of a convergent are in one
/// number, the denominator the upper one: it isn't the smaller, so that it tells whether both are held.
#[inline]
fn proportion(n: u32, d: u64) -> u32 {
    let quotient = d / u64::from(n);
    if quotient > 32767 {
        return MARK | 1;
    }
    let (mut a, mut b) = (n, (d - quotient * u64::from(n)) as u32);
    let (mut before, mut last) = (1 << 16, quotient << 16 | 1);
    while b != 0 {
        let quotient = a / b;
        let next = u64::from(quotient) * last + before;
        if next >> 31 != 0 {
            return MARK | (last as u32).rotate_left(16);
        }
        (a, b) = (b, a - quotient * b);
        (before, last) = (last, next);
    }
    (last as u32).rotate_left(16)
}

// The functions on words.

#[inline]
pub fn round(kind: u64, k: u64, n: u64, d: u64) -> Answer {
    let form = form(kind, k)?;
    if d == 0 {
        return Err(DENOMINATOR_ZERO);
    }
    let (r, s, changed) = cut(form, n, d);
    Ok(put(form, false, changed, r, s))
}

#[inline]
fn sum(left: Number, right: Number) -> Number {
    let marked = left.marked | right.marked;
    match (left.class, right.class) {
        (Class::Finite, Class::Finite) => {
            let (ad, bc, bd) = (left.n * right.d, left.d * right.n, left.d * right.d);
            if left.negative == right.negative {
                finite(left.negative & (ad + bc != 0), marked, ad + bc, bd)
            } else if ad > bc {
                finite(left.negative, marked, ad - bc, bd)
            } else {
                finite(right.negative & (bc != ad), marked, bc - ad, bd)
            }
        }
        (Class::Finite, _) => infinite(right.negative, marked),
        (_, Class::Finite) => infinite(left.negative, marked),
        _ if left.negative == right.negative => infinite(left.negative, marked),
        _ => NOT_A_NUMBER,
    }
}

#[inline]
fn product(left: Number, right: Number) -> Number {
    let (negative, marked) = (left.negative ^ right.negative, left.marked | right.marked);
    match (left.class, right.class) {
        (Class::Finite, Class::Finite) => {
            finite(negative, marked, left.n * right.n, left.d * right.d)
        }
        _ if left.n == 0 || right.n == 0 => NOT_A_NUMBER,
        _ => infinite(negative, marked),
    }
}

#[inline]
fn quotient(left: Number, right: Number) -> Number {
    let (negative, marked) = (left.negative ^ right.negative, left.marked | right.marked);
    match (left.class, right.class) {
        (Class::Finite, Class::Finite) => match (left.n, right.n) {
            (0, 0) => NOT_A_NUMBER,
            (_, 0) => infinite(negative, marked),
            _ => finite(negative, marked, left.n * right.d, left.d * right.n),
        },
        (Class::Infinite, Class::Infinite) => NOT_A_NUMBER,
        (Class::Infinite, _) => infinite(negative, marked),
        _ => finite(negative, marked, 0, 1),
    }
}

#[inline]
fn operate(form: Form, code: u64, left: Number, mut right: Number) -> u64 {
    if left.class == Class::NotANumber || right.class == Class::NotANumber {
        return write(form, NOT_A_NUMBER);
    }
    right.negative ^= code == 2;
    let result = match code {
        1 | 2 => sum(left, right),
        3 => product(left, right),
        _ => quotient(left, right),
    };
    write(form, result)
}

#[inline]
pub fn binary(kind: u64, k: u64, code: u64, left: u64, right: u64) -> Answer {
    let form = form(kind, k)?;
    if !(1..=4).contains(&code) {
        return Err(UNKNOWN_CODE);
    }
    let (left, right) = (read(form, left)?, read(form, right)?);
    Ok(operate(form, code, left, right))
}

/// 0 below, 1 equal, 2 above, 3 unordered.
#[inline]
pub fn compare(kind: u64, k: u64, left: u64, right: u64) -> Answer {
    let form = form(kind, k)?;
    let (left, right) = (read(form, left)?, read(form, right)?);
    if left.class == Class::NotANumber || right.class == Class::NotANumber {
        return Ok(3);
    }
    // Infinities are 1/0, so that products across put them outside; of one kind they are equal.
    let (ad, bc) = match (left.class, right.class) {
        (Class::Infinite, Class::Infinite) => (1, 1),
        (Class::Infinite, _) => (1, 0),
        (_, Class::Infinite) => (0, 1),
        _ => (left.n * right.d, right.n * left.d),
    };
    let signed = |negative: bool, size: u64| {
        if negative {
            -(size as i64)
        } else {
            size as i64
        }
    };
    Ok(
        match signed(left.negative, ad).cmp(&signed(right.negative, bc)) {
            std::cmp::Ordering::Less => 0,
            std::cmp::Ordering::Equal => 1,
            std::cmp::Ordering::Greater => 2,
        },
    )
}

#[inline]
pub fn convert(kind: u64, k: u64, to_kind: u64, to_k: u64, operand: u64) -> Answer {
    let (source, target) = (form(kind, k)?, form(to_kind, to_k)?);
    Ok(write(target, read(source, operand)?))
}

#[inline]
fn change(form: Form, code: u64, operand: u64, number: Number) -> u64 {
    let Number {
        class,
        negative,
        n,
        d,
        ..
    } = number;
    if class == Class::NotANumber {
        return write(form, number);
    }
    let result = match code {
        1 => return operand ^ 1 << form.sign_at,
        2 => return operand & !(1 << form.sign_at),
        3 if class == Class::Infinite => Number {
            class: Class::Finite,
            n: 0,
            d: 1,
            ..number
        },
        3 if n == 0 => infinite(negative, number.marked),
        3 => Number {
            n: d,
            d: n,
            ..number
        },
        6 if class == Class::Infinite => NOT_A_NUMBER,
        7 => number,
        _ if class == Class::Infinite => number,
        6 if n % d == 0 => Number {
            negative: false,
            n: 0,
            d: 1,
            ..number
        },
        6 if negative => Number {
            negative: false,
            n: d - n % d,
            ..number
        },
        6 => Number { n: n % d, ..number },
        // Floor of a negative number and ceiling of another go away from zero.
        _ => {
            let away = negative == (code == 4) && n % d != 0;
            let whole = n / d + u64::from(away);
            Number {
                negative: negative && whole != 0,
                n: whole,
                d: 1,
                ..number
            }
        }
    };
    write(form, result)
}

#[inline]
pub fn unary(kind: u64, k: u64, code: u64, operand: u64) -> Answer {
    let form = form(kind, k)?;
    if !(1..=7).contains(&code) {
        return Err(UNKNOWN_CODE);
    }
    let number = read(form, operand)?;
    Ok(change(form, code, operand, number))
}

#[inline]
pub fn gcd(kind: u64, k: u64, operand: u64) -> Answer {
    let form = form(kind, k)?;
    let Number { class, n, d, .. } = read(form, operand)?;
    if class != Class::Finite || n == 0 {
        return Ok(0);
    }
    let (mut a, mut b) = (n, d);
    while b != 0 {
        (a, b) = (b, a % b);
    }
    Ok(a)
}

/// The parts of a finite word, which have 32 bits at most; none for an infinity or a not-a-number.
#[inline]
fn finite_parts(form: Form, word: u64) -> Result<Option<(u32, u32)>, u64> {
    let Number { class, n, d, .. } = read(form, word)?;
    Ok((class == Class::Finite).then_some((n as u32, d as u32)))
}

#[inline]
pub fn quotients(kind: u64, k: u64, operand: u64, list: &mut [u32]) -> Answer {
    let form = form(kind, k)?;
    let Some((mut a, mut b)) = finite_parts(form, operand)? else {
        return Ok(0);
    };
    // There are 2k quotients at most, so that only those for a shorter list are counted first.
    let always_fit = list.len() >= 2 * form.k as usize;
    if !always_fit && counted(a, b) > list.len() as u64 {
        return Err(LIST_TOO_SHORT);
    }
    let mut count = 0;
    while b != 0 {
        list[count] = a / b;
        (a, b, count) = (b, a % b, count + 1);
    }
    Ok(count as u64)
}

#[inline]
pub fn quotient_count(kind: u64, k: u64, operand: u64) -> Answer {
    counted_by(counted, kind, k, operand)
}

/// The count of a word's quotients, by a way to count those of n/d.
#[inline]
fn counted_by(counted: fn(u32, u32) -> u64, kind: u64, k: u64, operand: u64) -> Answer {
    let parts = finite_parts(form(kind, k)?, operand)?;
    Ok(parts.map_or(0, |(n, d)| counted(n, d)))
}

/// By what the divisor is divided next, and how many quotients are passed over. Where more than
/// half of the divisor remains, the next quotient is 1, and leaves what the rest lacks of the
/// divisor. Dividing the divisor by that, in place of the rest, makes the quotient behind it larger
/// by 1 and leaves the same. So counting takes 7 divisions for 10 quotients. (Listing by nearest
/// remainders was no faster where it was measured.)
#[inline]
fn nearest(rest: u32, divisor: u32) -> (u32, u64) {
    if rest > divisor / 2 {
        (divisor - rest, 1)
    } else {
        (rest, 0)
    }
}

/// The parts in order, and what of the count is known before any division: below 1 the first
/// quotient is 0 and leaves n, so that the larger part is divided in any case.
#[inline]
fn ordered(n: u32, d: u32) -> (u32, u32, u64) {
    let a = n.max(d);
    let (b, passed) = nearest(n.min(d), a);
    (a, b, u64::from(n < d) + passed)
}

/// How many partial quotients n/d has, d at least 1.
#[inline]
fn counted(n: u32, d: u32) -> u64 {
    let (mut a, mut b, mut count) = ordered(n, d);
    while b != 0 {
        let (next, passed) = nearest(a % b, b);
        (a, b) = (b, next);
        count += 1 + passed;
    }
    count
}

// Vectors.

fn at(place: usize) -> impl Fn(u64) -> u64 {
    move |stop| place as u64 * 256 + stop
}

#[inline]
pub fn binary_each(
    kind: u64,
    k: u64,
    code: u64,
    left: &[u64],
    right: &[u64],
    out: &mut [u64],
) -> Answer {
    let form = form(kind, k)?;
    if !(1..=4).contains(&code) {
        return Err(UNKNOWN_CODE);
    }
    if left.len() != right.len() || left.len() != out.len() {
        return Err(UNEQUAL_LENGTHS);
    }
    for (place, (&left, &right)) in left.iter().zip(right).enumerate() {
        read(form, left).map_err(at(place))?;
        read(form, right).map_err(at(place))?;
    }
    for ((&left, &right), out) in left.iter().zip(right).zip(out) {
        *out = operate(form, code, read(form, left)?, read(form, right)?);
    }
    Ok(0)
}

#[inline]
pub fn unary_each(kind: u64, k: u64, code: u64, operand: &[u64], out: &mut [u64]) -> Answer {
    let form = form(kind, k)?;
    if !(1..=7).contains(&code) {
        return Err(UNKNOWN_CODE);
    }
    check_one(form, operand, out)?;
    for (&operand, out) in operand.iter().zip(out) {
        *out = change(form, code, operand, read(form, operand)?);
    }
    Ok(0)
}

#[inline]
pub fn convert_each(
    kind: u64,
    k: u64,
    to_kind: u64,
    to_k: u64,
    operand: &[u64],
    out: &mut [u64],
) -> Answer {
    let (source, target) = (form(kind, k)?, form(to_kind, to_k)?);
    check_one(source, operand, out)?;
    for (&operand, out) in operand.iter().zip(out) {
        *out = write(target, read(source, operand)?);
    }
    Ok(0)
}

fn check_one(form: Form, operand: &[u64], out: &[u64]) -> Answer {
    if operand.len() != out.len() {
        return Err(UNEQUAL_LENGTHS);
    }
    for (place, &word) in operand.iter().enumerate() {
        read(form, word).map_err(at(place))?;
    }
    Ok(0)
}
