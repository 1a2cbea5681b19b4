"""The operations on words of slash arithmetic, from 00, 01 and CR 6 of 02 alone."""

import math
from fractions import Fraction

import slash
from slash import FRACTION, INFINITY, NOT_A_NUMBER, ZERO, Stop, Value

# Numbers of the stops that slash.py doesn't cause.
UNKNOWN_CODE = 2
LIST_TOO_SHORT = 7

# What two values compare as.
BELOW = -1
EQUAL = 0
ABOVE = 1
UNORDERED = 2

# Values before they are written. An exact result is worked out as a Fraction,
# and slash.write_value rounds it once and marks it. A Fraction is in lowest
# terms, which the N over D of demand 3 need not be; but a common factor of N
# and D scales the misses of all pairs alike, so the best pair is the same.


def not_a_number():
    """The not-a-number, which has neither sign nor mark."""
    return Value(NOT_A_NUMBER, 0, 0, 0, 0)


def infinity(sign, mark):
    """The infinity of this sign and mark."""
    return Value(INFINITY, sign, *slash.INFINITY_PAIR, mark)


def finite(sign, size, mark):
    """The finite value of this sign, size and mark."""
    return Value(FRACTION, sign, size.numerator, size.denominator, mark)


def finite_of(exact, mark):
    """The finite value with an exact result's own sign; a zero has sign 0."""
    return finite(int(exact < 0), abs(exact), mark)


def size_of(value):
    """The exact absolute value of a finite value."""
    return Fraction(value.numerator, value.denominator)


def exact_of(value):
    """The exact value of a finite value; both zeros are 0."""
    return -size_of(value) if value.sign else size_of(value)


def marks_of(left, right):
    """The mark that the operands pass on: 1 if either has it."""
    return max(left.mark, right.mark)


def sign_of_product(left, right):
    """The product of the operands' signs: 1 if they differ."""
    return int(left.sign != right.sign)


# Binary operations. No operand is a not-a-number here.


def total(left, right):
    """+: the left value plus the right one."""
    mark = marks_of(left, right)
    signs = {v.sign for v in (left, right) if v.value_class == INFINITY}
    if len(signs) == 2:
        return not_a_number()
    if len(signs) == 1:
        return infinity(signs.pop(), mark)
    return finite_of(exact_of(left) + exact_of(right), mark)


def difference(left, right):
    """-: the left value plus the right one with its sign turned."""
    return total(left, right._replace(sign=1 - right.sign))


def product(left, right):
    """x: the left value times the right one."""
    sign, mark = sign_of_product(left, right), marks_of(left, right)
    classes = {left.value_class, right.value_class}
    if classes == {ZERO, INFINITY}:
        return not_a_number()
    if INFINITY in classes:
        return infinity(sign, mark)
    return finite(sign, size_of(left) * size_of(right), mark)


def quotient(left, right):
    """/: the left value divided by the right one."""
    sign, mark = sign_of_product(left, right), marks_of(left, right)
    if left.value_class == right.value_class and left.value_class != FRACTION:
        return not_a_number()
    if left.value_class == INFINITY or right.value_class == ZERO:
        return infinity(sign, mark)
    if right.value_class == INFINITY:
        return finite(sign, Fraction(0), mark)
    return finite(sign, size_of(left) / size_of(right), mark)


BINARY = {1: total, 2: difference, 3: product, 4: quotient}


def binary(form, code, left_word, right_word):
    """The word that a binary code gives; stop 2, then each word's stops."""
    if code not in BINARY:
        raise Stop(UNKNOWN_CODE)
    left = slash.read_word(form, left_word)
    right = slash.read_word(form, right_word)
    if NOT_A_NUMBER in (left.value_class, right.value_class):
        return slash.not_a_number_word(form)
    return slash.write_value(form, BINARY[code](left, right))


# Comparison.


def compared(form, left_word, right_word):
    """What the left word's value compares as to the right one's."""
    left = slash.read_word(form, left_word)
    right = slash.read_word(form, right_word)
    if NOT_A_NUMBER in (left.value_class, right.value_class):
        return UNORDERED
    if place_on_line(left) == place_on_line(right):
        return EQUAL
    return BELOW if place_on_line(left) < place_on_line(right) else ABOVE


def place_on_line(value):
    """A pair that orders values: infinities lie outside all finite ones."""
    if value.value_class == INFINITY:
        return (-1 if value.sign else 1), Fraction(0)
    return 0, exact_of(value)


# Conversion.


def converted(source, target, word):
    """The word of the target format for a word of the source format."""
    return slash.write_value(target, slash.read_word(source, word))


# Operations on one word. No operand is a not-a-number here. Those on values
# give canonical words; negation and absolute value are on the word itself.


def negated(form, word):
    """The word with bit s turned; it is the highest bit of both kinds."""
    return word ^ 2 ** (slash.width(form) - 1)


def absolute(form, word):
    """The word with bit s cleared."""
    return word % 2 ** (slash.width(form) - 1)


def reciprocal(value):
    """One over the value; zero and infinity trade, both by their pairs."""
    classes = {ZERO: INFINITY, INFINITY: ZERO, FRACTION: FRACTION}
    return value._replace(
        value_class=classes[value.value_class],
        numerator=value.denominator,
        denominator=value.numerator,
    )


def floor(value):
    """The largest whole number at or below the value."""
    if value.value_class == INFINITY:
        return value
    return finite_of(Fraction(math.floor(exact_of(value))), value.mark)


def ceiling(value):
    """The least whole number at or above the value."""
    if value.value_class == INFINITY:
        return value
    return finite_of(Fraction(math.ceil(exact_of(value))), value.mark)


def modulo_one(value):
    """The value less its floor."""
    if value.value_class == INFINITY:
        return not_a_number()
    exact = exact_of(value)
    return finite_of(exact - math.floor(exact), value.mark)


def normalised(value):
    """The value itself; writing puts it into its canonical word."""
    return value


UNARY_ON_WORDS = {1: negated, 2: absolute}
UNARY_ON_VALUES = {3: reciprocal, 4: floor, 5: ceiling, 6: modulo_one, 7: normalised}


def unary(form, code, word):
    """The word that a unary code gives; stop 2, then the word's stops."""
    if code not in UNARY_ON_WORDS and code not in UNARY_ON_VALUES:
        raise Stop(UNKNOWN_CODE)
    value = slash.read_word(form, word)
    if value.value_class == NOT_A_NUMBER:
        return slash.not_a_number_word(form)
    if code in UNARY_ON_WORDS:
        return UNARY_ON_WORDS[code](form, word)
    return slash.write_value(form, UNARY_ON_VALUES[code](value))


def common_divisor(form, word):
    """The greatest common divisor of a fraction's stored parts, or else 0."""
    value = slash.read_word(form, word)
    if value.value_class != FRACTION:
        return 0
    return math.gcd(value.numerator, value.denominator)


def quotients_of(form, word):
    """The partial quotients of a finite absolute value; none for the rest."""
    value = slash.read_word(form, word)
    if value.value_class in (INFINITY, NOT_A_NUMBER):
        return []
    return slash.partial_quotients(value.numerator, value.denominator)


def lend_quotients(form, word, lent):
    """Puts the partial quotients into a lent list and counts them; stop 7."""
    quotients = quotients_of(form, word)
    if len(lent) < len(quotients):
        raise Stop(LIST_TOO_SHORT)
    lent[: len(quotients)] = quotients
    return len(quotients)


def quotient_count(form, word):
    """The count of the partial quotients alone, with no list lent.

    Euclid's divisions of the stored parts are counted, for each yields one quotient;
    no quotient is kept, and the parts aren't brought to lowest terms, as quotients_of
    does. A zero, 0/1, takes one division; an infinity, 1/0, and a not-a-number, 0/0,
    take none.
    """
    value = slash.read_word(form, word)
    dividend, divisor, count = value.numerator, value.denominator, 0
    while divisor != 0:
        dividend, divisor = divisor, dividend % divisor
        count += 1
    return count
