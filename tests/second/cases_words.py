"""The cases on formats, words and rounding, as request lines."""

import random

import slash
from cases_common import (
    LARGEST,
    asked_once,
    random_part,
    random_part_of_any_size,
    request,
)
from slash import FIXED, FLOATING, FRACTION, INFINITY, NOT_A_NUMBER, ZERO, Format

# Consecutive Fibonacci numbers, the last two below 2^64.
FIBONACCI = (7540113804746346429, 12200160415121876738)


def requests():
    """All request lines in order, each asked once."""
    return asked_once(GROUPS)


# 1. Edges.


def unknown_formats():
    """Kinds and k that no format has, and the nearest that one has, for every request.

    The numbers above 255 are good ones again when bits are dropped. The other
    arguments would cause a later stop, or none.
    """
    kinds = (0, 1, 2, 3, 4, 257, 258, 2**32 + 1, 2**63, LARGEST - 1, LARGEST)
    ks = (0, 1, 2, 3, 31, 32, 33, 34, 63, 64, 65, 258, 2**32 + 2, 2**63 + 2, LARGEST)
    for kind in kinds:
        for k in ks:
            yield request("f", kind, k)
            for word in (0, LARGEST):
                yield request("r", kind, k, word)
            for n, d in ((1, 2), (1, 0)):
                yield request("n", kind, k, n, d)
                yield request("w", kind, k, FRACTION, 0, n, d, 0)
            for value_class in (ZERO, INFINITY, NOT_A_NUMBER):
                yield request("w", kind, k, value_class, 0, 0, 0, 0)


def edges():
    """Document 01's Edges and Wrong turns on rounding and words."""
    yield request("n", FIXED, 9, 277, 642)
    yield request("n", FIXED, 2, 5, 2)
    for n, d in ((1, 10), (15, 2), (8, 1), (7, 1), (6, 23), (1, 4), (8, 15)):
        yield request("n", FIXED, 3, n, d)
    for n, d in ((5, 2), (5, 1), (9, 1), (7, 1), (8, 1), (1, 7), (1, 8)):
        yield request("n", FLOATING, 4, n, d)
    yield request("w", FLOATING, 26, FRACTION, 0, 355, 113, 1)
    yield request("r", FLOATING, 26, 0x4C0058F1)
    for n, d in ((6, 23), (1, 4)):
        yield request("n", FIXED, 2, n, d)
    for word in (0x13, 0x15, 0x1A, 0):
        yield request("r", FIXED, 3, word)
    # In equal to whole.
    for whole in (1, 2, 642, 32767, 32768, 2**32 - 1):
        yield request("n", FIXED, 15, whole, whole)
    # The ratios and words of the night in document 01.
    for n, d in ((277, 642), (16, 40), (293, 682)):
        yield request("n", FIXED, 15, n, d)
    for word in (0x01150282, 0x00020005, 0, 0x012502AA):
        yield request("r", FIXED, 15, word)


# 2. Every format.


def formats():
    """The width and largest parts of every format."""
    for form in slash.all_formats():
        yield request("f", *form)


def field_bits(form):
    """The highest and lowest bit of each field of the format's words."""
    k = form.k
    if form.kind == FIXED:
        return (2 * k + 1, 2 * k + 1), (2 * k, k + 1), (k, k), (k - 1, 0)
    top = k + slash.slash_width(k)
    return (top, top), (top - 1, top - 1), (top - 2, k - 1), (k - 2, 0)


def words_of_each_format():
    """The least and largest words, those beyond the width, each field's ones alone."""
    rng = random.Random(3)
    for form in slash.all_formats():
        width = slash.width(form)
        words = [0, 1, 2**width - 1, 2**width, 2**width + 1, 2**63, LARGEST]
        words += [2 ** (high + 1) - 2**low for high, low in field_bits(form)]
        words += [rng.getrandbits(width) for _ in range(12)]
        words += [rng.getrandbits(64)]
        for word in words:
            if word <= LARGEST:
                yield request("r", *form, word)


def fixed_words_without_a_part():
    """Zeros, infinities and not-a-numbers of the fixed formats, with messages."""
    rng = random.Random(4)
    for k in range(slash.LEAST_K, slash.LARGEST_K[FIXED] + 1):
        for part in (0, 1, 2, 3, 2**k - 2, 2**k - 1, rng.getrandbits(k)):
            for numerator, denominator in ((0, part), (part, 0)):
                sign, mark = rng.getrandbits(1), rng.getrandbits(1)
                pair = (numerator, denominator)
                word = slash.pair_word(Format(FIXED, k), sign, pair, mark)
                yield request("r", FIXED, k, word)


def slash_positions():
    """Every slash position of every floating format, the undefined ones too."""
    rng = random.Random(5)
    for k in range(slash.LEAST_K, slash.LARGEST_K[FLOATING] + 1):
        for e in range(2 ** slash.slash_width(k)):
            for f in (0, 1, 2 ** (k - 1) - 1, rng.getrandbits(k - 1)):
                sign, mark = rng.getrandbits(1), rng.getrandbits(1)
                word = slash.floating_word(k, sign, mark, e, f)
                yield request("r", FLOATING, k, word)


def undefined_positions_beyond_the_width():
    """Words that earn stop 4 and stop 5: 4 comes first."""
    for k in range(slash.LEAST_K, slash.LARGEST_K[FLOATING] + 1):
        if k - 1 < 2 ** slash.slash_width(k) - 1:
            undefined = slash.floating_word(k, 0, 0, k - 1, 0)
            beyond = 2 ** slash.width(Format(FLOATING, k))
            for word in (undefined, undefined + beyond, undefined + 2**63):
                yield request("r", FLOATING, k, word)


# 3. Every word.


def every_word_of_the_smallest_formats():
    """All words of the smallest formats, and one beyond them."""
    smallest = [Format(FIXED, k) for k in (2, 3)]
    smallest += [Format(FLOATING, k) for k in (2, 3, 4, 5)]
    for form in smallest:
        for word in range(2 ** slash.width(form) + 1):
            yield request("r", *form, word)


# 4. Writing.


def special_values():
    """Zeros, infinities and not-a-numbers, whose other arguments are ignored."""
    for form in slash.all_formats():
        for sign in (0, 1):
            for mark in (0, 1):
                for value_class in (ZERO, INFINITY, NOT_A_NUMBER):
                    yield request("w", *form, value_class, sign, 0, 0, mark)
        for value_class in (ZERO, INFINITY, NOT_A_NUMBER):
            yield request("w", *form, value_class, 0, LARGEST, 0, 0)
            yield request("w", *form, value_class, 1, 5, 3, 1)


def largest_parts():
    """The largest parts, those just beyond, and both together."""
    for form in slash.all_formats():
        r = slash.largest_numerator(form)
        s = slash.largest_denominator(form)
        ratios = [(r, 1), (r + 1, 1), (r + 2, 1), (1, s), (1, s + 1), (1, s + 2)]
        ratios += [(r, s), (r, s - 1), (r - 1, s), (r + 1, s), (r, s + 1)]
        ratios += [(2 * r + 1, 2), (2, 2 * s + 1)]
        for count, (n, d) in enumerate(ratios):
            yield request("w", *form, FRACTION, count % 2, n, d, 0)
            yield request("n", *form, n, d)


def shared_bits():
    """Floating pairs whose bit counts sum to k or one more, for every share."""
    for k in range(slash.LEAST_K, slash.LARGEST_K[FLOATING] + 1):
        for bits in range(1, k):
            n, d = 2**bits - 1, 2 ** (k - bits) - 1
            yield request("w", FLOATING, k, FRACTION, bits % 2, n, d, 0)
            yield request("w", FLOATING, k, FRACTION, bits % 2, n + 1, d, 0)
            yield request("n", FLOATING, k, n + 1, d + 2)


def fractions_not_in_lowest_terms():
    """Fractions to be reduced, and numerator 0, with either mark."""
    ratios = ((2, 4), (6, 9), (10, 5), (3, 3), (0, 1), (0, 6), (0, LARGEST))
    ratios += ((LARGEST, LARGEST), (2**63, 2**62), (2**62, 2**63))
    for form in slash.all_formats():
        for count, (n, d) in enumerate(ratios):
            for mark in (0, 1):
                yield request("w", *form, FRACTION, (count + mark) % 2, n, d, mark)


def denominator_zero():
    """Stop 6, whatever the numerator."""
    for form in slash.all_formats():
        for n in (0, 1, 2, LARGEST):
            yield request("n", *form, n, 0)
            yield request("w", *form, FRACTION, n % 2, n, 0, 1)


def random_fractions():
    """Random fractions written, and the words that come of it read back."""
    rng = random.Random(6)
    for form in slash.all_formats():
        for bits in (form.k, form.k, form.k + 1, 64):
            n = rng.getrandbits(bits)
            d = random_part(rng, bits)
            value = slash.Value(FRACTION, rng.getrandbits(1), n, d, rng.getrandbits(1))
            yield request("w", *form, *value)
            yield request("r", *form, slash.write_value(form, value))


# 5. Rounding.


def every_small_ratio():
    """All small ratios in the formats whose pairs are all searched."""
    searched = [Format(FIXED, k) for k in (2, 3, 4)]
    searched += [Format(FLOATING, k) for k in (2, 3, 4, 5, 6, 7)]
    for form in searched:
        for n in range(34):
            for d in range(1, 34):
                yield request("n", *form, n, d)


def extreme_ratios():
    """Ratios of numbers at the ends of 32 and 64 bits."""
    parts = [0, 1, 2, 2**32 - 1, 2**32, 2**32 + 1, 2**63 - 1, 2**63]
    parts += [*FIBONACCI, LARGEST - 1, LARGEST]
    forms = [Format(FIXED, k) for k in (2, 3, 15, 16, 30, 31)]
    forms += [Format(FLOATING, k) for k in (2, 3, 16, 17, 26, 31, 32)]
    for form in forms:
        for n in parts:
            for d in parts:
                yield request("n", *form, n, d)


def fibonacci_ratios():
    """Ratios whose convergents are the closest together, in every format."""
    low, high = FIBONACCI
    for form in slash.all_formats():
        yield request("n", *form, low, high)
        yield request("n", *form, high, low)


def random_ratios():
    """Random ratios of 64 bits, 32 bits, about the format's bits, and any bits."""
    rng = random.Random(7)
    for form in slash.all_formats():
        for _ in range(8):
            for bits in (64, 32, form.k + 2):
                yield request("n", *form, rng.getrandbits(bits), random_part(rng, bits))
            n, d = random_part_of_any_size(rng), random_part_of_any_size(rng)
            yield request("n", *form, n, d)


def ties():
    """Mediants, which both neighbours miss by as much, and ratios on each side.

    A mediant times any number ties too.
    """
    rng = random.Random(8)
    for form in slash.all_formats():
        for bits in (2, 8, 16, 31, 31):
            n, d = rng.getrandbits(bits), random_part(rng, bits)
            lower, upper = slash.neighbours(form, n, d)
            mediant = slash.added(lower, 1, upper)
            times = rng.getrandbits(16) + 2
            yield request("n", *form, *mediant)
            yield request("n", *form, mediant[0] * times, mediant[1] * times)
            yield request("n", *form, *slash.added(mediant, 1, lower))
            yield request("n", *form, *slash.added(mediant, 1, upper))


def held_values():
    """Held values times any number, which are exact."""
    rng = random.Random(9)
    for form in slash.all_formats():
        for _ in range(4):
            n, d = random_part(rng, 31), random_part(rng, 31)
            pair, _ = slash.neighbours(form, n, d)
            times = rng.getrandbits(20) + 1
            yield request("n", *form, pair[0] * times, pair[1] * times)


GROUPS = [
    unknown_formats,
    edges,
    formats,
    words_of_each_format,
    fixed_words_without_a_part,
    slash_positions,
    undefined_positions_beyond_the_width,
    every_word_of_the_smallest_formats,
    special_values,
    largest_parts,
    shared_bits,
    fractions_not_in_lowest_terms,
    denominator_zero,
    random_fractions,
    every_small_ratio,
    extreme_ratios,
    fibonacci_ratios,
    random_ratios,
    ties,
    held_values,
]
