"""Formats, and the words of them."""

import re
from ctypes import byref, c_uint32
from dataclasses import dataclass
from fractions import Fraction
from functools import cached_property
from numbers import Rational

from .library import Value, library, number, stored, unsigned

FIXED = number("FIXED")
FLOATING = number("FLOATING")
KIND_NAMES = {FIXED: "fixed", FLOATING: "floating"}

RATIO_TEXT = re.compile(r"([+-]?)([0-9]+)(?:/([0-9]+))?")


@dataclass(frozen=True)
class Format:
    """A word format: fixed with parts of k bits, or floating with parts that share k bits.

    Stop 1 for a format that there isn't: k is from 2 to 31 where fixed, to 32 where floating.

    >>> Format.fixed(15)
    Format.fixed(15)
    >>> Format.fixed(15).width, Format.fixed(15).largest
    (32, 32767)
    """

    kind: int
    k: int

    def __post_init__(self):
        object.__setattr__(self, "kind", unsigned(self.kind))
        object.__setattr__(self, "k", unsigned(self.k))
        stored(library.slash_width, *self.numbers)

    @classmethod
    def fixed(cls, k):
        """The fixed format whose parts have k bits each, k from 2 to 31."""
        return cls(FIXED, k)

    @classmethod
    def floating(cls, k):
        """The floating format whose parts share k bits, k from 2 to 32."""
        return cls(FLOATING, k)

    @property
    def numbers(self):
        """The kind and k, as the archive's functions take them."""
        return self.kind, self.k

    @property
    def width(self):
        """How many bits a word of the format has."""
        return stored(library.slash_width, *self.numbers)

    @property
    def largest(self):
        """The largest numerator that the format holds; the largest denominator is the same."""
        return stored(library.slash_largest, *self.numbers)

    def word(self, value, approximate=False):
        """The word of a value rounded into the format: of a whole number, a Fraction, or text as "277/642".

        It is the best that the format holds, and is marked approximate where it isn't the value, or where the
        value is said to be approximate already. A float is refused, since it rarely is the ratio that is meant:
        say Fraction(x) if it is. Stop 6 for a denominator 0.

        >>> Format.fixed(15).word("277/642")
        <Word 01150282 of fixed 15: 277/642, exact>
        >>> Format.fixed(9).word(Fraction(277, 642))
        <Word 156c5 of fixed 9: 85/197, approximate>
        """
        sign, numerator, denominator = signed_parts(value)
        return self._written("FRACTION", sign, numerator, denominator, approximate)

    @property
    def infinity(self):
        """The format's infinity."""
        return self._written("INFINITY")

    @property
    def not_a_number(self):
        """The format's not-a-number."""
        return self._written("NOT_A_NUMBER")

    def _written(self, value_class, sign=0, numerator=0, denominator=0, approximate=False):
        value = Value(sign, number(value_class), numerator, denominator, bool(approximate))
        return Word(self, stored(library.slash_write, *self.numbers, byref(value)))

    def __str__(self):
        return f"{KIND_NAMES[self.kind]} {self.k}"

    def __repr__(self):
        return f"Format.{KIND_NAMES[self.kind]}({self.k})"


def signed_parts(value):
    """The sign, 0 or 1, the numerator and the denominator of a whole number, a fraction or a text."""
    if isinstance(value, str):
        shape = RATIO_TEXT.fullmatch(value)
        if shape is None:
            raise ValueError(f"{value!r} is not as 277/642 or -1/3 or 2")
        sign, numerator, denominator = shape[1] == "-", int(shape[2]), int(shape[3] or 1)
    elif isinstance(value, Rational):
        sign, numerator, denominator = value < 0, abs(value.numerator), value.denominator
    else:
        raise TypeError(f"a word is made of a whole number, a Fraction or text as '277/642', not of {value!r}")
    return int(sign), unsigned(numerator), unsigned(denominator)


@dataclass(frozen=True, eq=False, repr=False)
class Word:
    """A word of a format, by its bits: a signed fraction, a zero, an infinity or a not-a-number.

    Stop 4 for bits above the format's width, stop 5 for an undefined slash position. Every answer is the
    archive's. Words of one format are added, subtracted, multiplied and divided by the operators, and each
    result is the best word for the exact result; word % 1 is what is left modulo 1. Words of any formats are
    compared by their values, which marks don't touch; all comparisons with a not-a-number but != are False.
    A word is true, a zero's too, so that `if word` asks whether there is one: a void breath has None.

    >>> word = Word(Format.fixed(15), 0x01150282)
    >>> word
    <Word 01150282 of fixed 15: 277/642, exact>
    >>> word.fraction, word.mark, word.quotients
    (Fraction(277, 642), 0, (0, 2, 3, 6, 1, 3, 3))
    >>> third = Format.fixed(3).word("1/3")
    >>> third + Format.fixed(3).word("1/5")
    <Word 1a of fixed 3: 1/2, approximate>
    >>> third < Format.floating(26).word("1/2")
    True
    """

    format: Format
    bits: int

    def __post_init__(self):
        object.__setattr__(self, "bits", unsigned(self.bits))
        library.slash_check(*self._numbers)

    # What the word says.

    @cached_property
    def _value(self):
        value = Value()
        library.slash_read(*self._numbers, byref(value))
        return value

    @property
    def _numbers(self):
        """The format and the bits, as the archive's functions take them."""
        return (*self.format.numbers, self.bits)

    @property
    def sign(self):
        """1 where the word is negative, a zero or an infinity too; else 0."""
        return self._value.sign

    @property
    def numerator(self):
        """The numerator as it is stored, perhaps not in lowest terms; of a zero 0, of an infinity 1."""
        return self._value.numerator

    @property
    def denominator(self):
        """The denominator as it is stored; of a zero 1, of an infinity 0. (A not-a-number is 0/0.)"""
        return self._value.denominator

    @property
    def mark(self):
        """1 where the word is approximate, else 0."""
        return self._value.mark

    @property
    def is_approximate(self):
        """Whether the word is marked: it, or a word that it was made of, was rounded to another value."""
        return self._value.mark == 1

    @property
    def is_zero(self):
        """Whether the value is 0, of either sign."""
        return self._value.value_class == number("ZERO")

    @property
    def is_infinite(self):
        """Whether the value is an infinity, of either sign."""
        return self._value.value_class == number("INFINITY")

    @property
    def is_nan(self):
        """Whether the word is a not-a-number."""
        return self._value.value_class == number("NOT_A_NUMBER")

    @property
    def fraction(self):
        """The value as a fractions.Fraction, in lowest terms.

        As Python's own floats do it: OverflowError for an infinity, ValueError for a not-a-number.
        """
        if self.is_infinite:
            raise OverflowError("an infinity is no fraction")
        if self.is_nan:
            raise ValueError("a not-a-number is no fraction")
        size = Fraction(self.numerator, self.denominator)
        return -size if self.sign else size

    @property
    def quotients(self):
        """The partial quotients of the value's size, first one first; none of an infinity or a not-a-number."""
        places = (c_uint32 * number("MOST_QUOTIENTS"))()
        count = stored(library.slash_quotients, *self._numbers, places, len(places))
        return tuple(places[:count])

    @property
    def quotient_count(self):
        """How many partial quotients there are."""
        return stored(library.slash_quotient_count, *self._numbers)

    @property
    def gcd(self):
        """The greatest common divisor of the stored parts of a nonzero fraction; 0 of any other value."""
        return stored(library.slash_gcd, *self._numbers)

    def __float__(self):
        """The nearest float, for a plot: what is worked with it is no longer ours."""
        if self.is_nan:
            return float("nan")
        size = float("inf") if self.is_infinite else self.numerator / self.denominator
        return -size if self.sign else size

    def __str__(self):
        sign = "-" if self.sign else ""
        return f"{sign}{self.numerator}/{self.denominator}, {'approximate' if self.mark else 'exact'}"

    def __repr__(self):
        return f"<Word {self.digits} of {self.format}: {self}>"

    @property
    def digits(self):
        """The bits in hexadecimal, with as many digits as the format's width takes."""
        return f"{self.bits:0{(self.format.width + 3) // 4}x}"

    # Operations.

    def __add__(self, other):
        return self._with(other, "ADD")

    def __sub__(self, other):
        return self._with(other, "SUBTRACT")

    def __mul__(self, other):
        return self._with(other, "MULTIPLY")

    def __truediv__(self, other):
        return self._with(other, "DIVIDE")

    def _with(self, other, operation):
        """The word of an operation on this word and another one of its format."""
        if not isinstance(other, Word):
            return NotImplemented
        if other.format != self.format:
            raise TypeError(f"one word is of {self.format}, the other of {other.format}: convert one of them")
        numbers = (*self.format.numbers, number(operation), self.bits, other.bits)
        return Word(self.format, stored(library.slash_binary, *numbers))

    def _alone(self, operation):
        """The word of an operation on this word."""
        return Word(self.format, stored(library.slash_unary, *self.format.numbers, number(operation), self.bits))

    def __neg__(self):
        return self._alone("NEGATE")

    def __pos__(self):
        return self

    def __abs__(self):
        return self._alone("ABSOLUTE")

    def __mod__(self, other):
        return self.mod_one() if other == 1 else NotImplemented

    def reciprocal(self):
        """One over the value; zero and infinity of one sign trade."""
        return self._alone("RECIPROCAL")

    def floor(self):
        """The largest whole number at or below the value, as a word; math.floor gives the same."""
        return self._alone("FLOOR")

    def ceiling(self):
        """The least whole number at or above the value, as a word; math.ceil gives the same."""
        return self._alone("CEILING")

    __floor__ = floor
    __ceil__ = ceiling

    def mod_one(self):
        """What is left of the value modulo 1, from 0 to below 1 but for rounding; word % 1 is the same."""
        return self._alone("MOD_ONE")

    def normalised(self):
        """The same value in its one canonical word."""
        return self._alone("NORMALISE")

    def convert(self, to):
        """The word of another format for this one: the best that it holds, marked if that isn't the value.

        >>> Format.fixed(15).word("277/642").convert(Format.fixed(9))
        <Word 156c5 of fixed 9: 85/197, approximate>
        """
        return Word(to, stored(library.slash_convert, *self.format.numbers, *to.numbers, self.bits))

    def twisted(self):
        """The bits of a floating word, rearranged for storage with the numerator at the right.

        They are no Word: no function can tell them from a plain word's. Stop 1 of a fixed word.

        >>> word = Word(Format.floating(26), 0x4c0058f1)
        >>> Word.untwisted(word.format, word.twisted()) == word
        True
        """
        return stored(library.slash_twist, *self._numbers)

    @classmethod
    def untwisted(cls, form, twisted):
        """The floating word of which these are the twisted bits. Stop 1 for a fixed format, then 4 and 5."""
        return cls(form, stored(library.slash_untwist, *form.numbers, unsigned(twisted)))

    # Comparisons.

    def __eq__(self, other):
        return self._is(other, "EQUAL")

    def __lt__(self, other):
        return self._is(other, "BELOW")

    def __le__(self, other):
        return self._is(other, "BELOW", "EQUAL")

    def __gt__(self, other):
        return self._is(other, "ABOVE")

    def __ge__(self, other):
        return self._is(other, "ABOVE", "EQUAL")

    def _is(self, other, *orders):
        """Whether this value lies so to that of another word."""
        if not isinstance(other, Word):
            return NotImplemented
        left, right = self, other
        if left.format != right.format:
            left, right = left.convert(WIDEST), right.convert(WIDEST)
        order = stored(library.slash_compare, *left.format.numbers, left.bits, right.bits)
        return order in map(number, orders)

    def __hash__(self):
        # Equal values have equal parts in lowest terms, and +0 equals -0.
        lowest = self.normalised()
        return hash((lowest.sign and not lowest.is_zero, lowest.numerator, lowest.denominator))


# No part of any format's words has more than 31 bits, so that each value is held here as it is.
WIDEST = Format.fixed(31)
