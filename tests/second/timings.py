"""Ratios from the scoring package's records, from documents 00 and 01 and CR 5 of 02 alone.

A record is cut into its kind and its two numbers by struct. Each number becomes the exact
fraction that its bits stand for; the fractions decide what is in range and form the ratio.
"""

import struct
from fractions import Fraction
from math import isfinite

import vectors
from night import stored_word
from slash import Stop

# Numbers of the stops that the other modules don't cause.
BROKEN_RECORD = 16
UNKNOWN_KIND = 17
BAD_NUMBER = 18

# The bytes of a record, four for its kind and for each of its numbers.
RECORD_BYTES = 12

# The least timing and what all timings are below, in seconds; the least ratio and the largest.
LEAST_TIMING = Fraction(1, 2**10)
END_OF_TIMINGS = Fraction(2**10)
LEAST_RATIO = Fraction(1, 2**10)
LARGEST_RATIO = Fraction(1)


def store_ratios(exported, out):
    """The word of each record's ratio in a lent vector; stops 16 and 3, then the records'."""
    if len(exported) % RECORD_BYTES != 0:
        raise Stop(BROKEN_RECORD)
    starts = range(0, len(exported), RECORD_BYTES)
    records = [exported[start : start + RECORD_BYTES] for start in starts]
    vectors.check_lengths(records, out)
    ratios = [ratio_at(place, record) for place, record in enumerate(records)]
    out[:] = [ratio_word(ratio) for ratio in ratios]


def ratio_word(ratio):
    """The word that an exact ratio is rounded to, marked if that changed it.

    A Fraction is in lowest terms; a common factor would scale the misses of all pairs alike.
    """
    return stored_word(ratio.numerator, ratio.denominator)


# Records, read.


def ratio_at(place, record):
    """The exact ratio of the record at a place; its stop 17 or 18 with that place."""
    try:
        return ratio_of(record)
    except Stop as stop:
        raise Stop(stop.number, place) from None


def ratio_of(record):
    """The exact ratio of a record; stop 17, then 18."""
    kind, first, second = struct.unpack("<I4s4s", record)
    if kind not in KINDS:
        raise Stop(UNKNOWN_KIND)
    return KINDS[kind](first, second)


def ratio_of_timings(first, second):
    """The seconds of inspiration over those of the whole breath; stop 18."""
    inspiration, whole = value_of(first), value_of(second)
    for timing in (inspiration, whole):
        if not LEAST_TIMING <= timing < END_OF_TIMINGS:
            raise Stop(BAD_NUMBER)
    if inspiration > whole:
        raise Stop(BAD_NUMBER)
    return inspiration / whole


def ratio_itself(first, second):
    """The ratio that a record holds as it is; stop 18, also if a bit of the second isn't 0."""
    ratio = value_of(first)
    if not LEAST_RATIO <= ratio <= LARGEST_RATIO or any(second):
        raise Stop(BAD_NUMBER)
    return ratio


KINDS = {1: ratio_of_timings, 2: ratio_itself}


def value_of(number):
    """The exact value of a number's four bytes; stop 18 for an infinity or a not-a-number."""
    (value,) = struct.unpack("<f", number)
    if not isfinite(value):
        raise Stop(BAD_NUMBER)
    return Fraction(value)
