"""The cases on the binary operations, comparison and conversion, as request lines."""

import random

import slash
from cases_common import (
    END_FORMATS,
    LARGEST,
    UNKNOWN_FORMATS,
    asked_once,
    beyond_words,
    chosen,
    edge_words,
    fraction_word,
    random_edge_words,
    random_fraction,
    random_word,
    request,
    small_formats,
    stopping_words,
    undefined_words,
    wide_fraction,
)
from slash import FIXED, FLOATING, Format

CODES = (1, 2, 3, 4)

# Those above 255 are good ones again when bits are dropped.
UNKNOWN_CODES = (0, 5, 6, 7, 8, 257, 2**32 + 1, 2**63 + 4, LARGEST)


def requests():
    """All request lines in order, each asked once."""
    return asked_once(GROUPS)


# 1. Edges of document 01.


def paper_sums():
    """The marked sum 13 + 15 and its turned, signed and marked kin."""
    for code in CODES:
        for left, right in ((0x13, 0x15), (0x15, 0x13), (0x1B, 0x15), (0x93, 0x15)):
            yield request("b", FIXED, 3, code, left, right)


def paper_conversions():
    """The marked ratios by conversion from every format that holds them."""
    targets = [(FIXED, 9, 277, 642), (FIXED, 2, 5, 2), (FIXED, 3, 1, 10)]
    targets += [(FIXED, 3, n, d) for n, d in ((15, 2), (8, 1), (7, 1))]
    targets += [(FLOATING, 4, n, d) for n, d in ((5, 2), (5, 1), (9, 1))]
    targets += [(FLOATING, 26, 355, 113)]
    for form in slash.all_formats():
        for kind, k, n, d in targets:
            if slash.holds(form, n, d):
                word = slash.pair_word(form, 0, (n, d), k % 2)
                yield request("v", *form, kind, k, word)


def one_stage_and_two():
    """6/23 converted to fixed k = 2 at once, and by way of fixed k = 3."""
    three, two = Format(FIXED, 3), Format(FIXED, 2)
    for form in slash.all_formats():
        if slash.holds(form, 6, 23):
            word = slash.pair_word(form, 0, (6, 23), 0)
            yield request("v", *form, *two, word)
            yield request("v", *form, *three, word)
    quarter = slash.pair_word(three, 0, (1, 4), 0)
    marked_quarter = slash.pair_word(three, 0, (1, 4), 1)
    for word in (quarter, marked_quarter):
        yield request("v", *three, *two, word)


# 2. Every word of the small formats.


def every_pair_of_words():
    """All pairs of words of the smallest formats, with every code and compared."""
    for form in small_formats(3, 4):
        for left in range(2 ** slash.width(form)):
            for code in CODES:
                yield request("B", *form, code, left)
            yield request("O", *form, left)


def every_conversion():
    """All words of the small formats, from each to each and to itself."""
    small = small_formats(4, 5)
    for source in small:
        for target in small:
            yield request("V", *source, *target)


# 3. Edge words of every format.


def a_sum_and_a_product(rng):
    """The code of + or -, and that of x or /."""
    return 1 + rng.getrandbits(1), 3 + rng.getrandbits(1)


def edges_of_every_format():
    """Each edge word on the left and on the right of some other one."""
    rng = random.Random(20)
    for form in slash.all_formats():
        words = random_edge_words(rng, form)
        for word in words:
            low, high = a_sum_and_a_product(rng)
            yield request("b", *form, low, word, chosen(rng, words))
            yield request("b", *form, high, chosen(rng, words), word)
            yield request("o", *form, word, chosen(rng, words))


def edges_of_the_widest_formats():
    """Every edge word with every other in the largest format of each kind."""
    rng = random.Random(21)
    for form in (Format(FIXED, 31), Format(FLOATING, 32)):
        for left in random_edge_words(rng, form):
            for right in random_edge_words(rng, form):
                for code in a_sum_and_a_product(rng):
                    yield request("b", *form, code, left, right)


def edges_with_themselves():
    """Each edge word with itself and its negation, to be 0, 1 and so on."""
    rng = random.Random(22)
    for form in slash.all_formats():
        sign = 2 ** (slash.width(form) - 1)
        for word in random_edge_words(rng, form):
            other = chosen(rng, (word, word ^ sign))
            yield request("b", *form, chosen(rng, CODES), word, other)
            yield request("o", *form, word, other)


def zeros_with_zeros():
    """Sums, differences, products and quotients of zeros, by every sign."""
    for form in slash.all_formats():
        zeros = [edge_words(form, sign, 0)[0] for sign in (0, 1)]
        for left in zeros:
            for right in zeros:
                for code in CODES[:3]:
                    yield request("b", *form, code, left, right)
                yield request("o", *form, left, right)


def limits():
    """Results just beyond the largest and the smallest fraction, by every sign."""
    for form in slash.all_formats():
        r, s = slash.largest_numerator(form), slash.largest_denominator(form)
        for sign in (0, 1):
            large, small = [
                slash.pair_word(form, sign, pair, 0) for pair in ((r, 1), (1, s))
            ]
            one = slash.pair_word(form, 1, (1, 1), 0)
            yield request("b", *form, 1, large, large)
            yield request("b", *form, 2, large, one)
            yield request("b", *form, 3, large, large)
            yield request("b", *form, 3, small, small)
            yield request("b", *form, 4, small, large)
            yield request("b", *form, 4, large, small)


# 4. Random words of every format.


def random_words():
    """Random words with each code."""
    rng = random.Random(23)
    for form in slash.all_formats():
        for _ in range(8):
            for code in CODES:
                left, right = random_word(rng, form), random_word(rng, form)
                yield request("b", *form, code, left, right)
            left, right = random_word(rng, form), random_word(rng, form)
            yield request("o", *form, left, right)


def neighbouring_words():
    """Held pairs with none between, whose difference is as small as can be."""
    rng = random.Random(24)
    for form in slash.all_formats():
        for _ in range(3):
            ratio = rng.getrandbits(32), rng.getrandbits(32) + 1
            lower, upper = slash.neighbours(form, *ratio)
            sign = rng.getrandbits(1)
            left = slash.pair_word(form, sign, lower, rng.getrandbits(1))
            right = slash.pair_word(form, sign, upper, rng.getrandbits(1))
            yield request("b", *form, 2, left, right)
            yield request("b", *form, 2, right, left)
            yield request("b", *form, 4, left, right)
            yield request("o", *form, left, right)
            yield request("o", *form, right, left)


def equal_values():
    """A fraction and a multiple of it: 0, 1, and equal though the words differ."""
    rng = random.Random(25)
    for form in slash.all_formats():
        for _ in range(4):
            pair = random_fraction(rng, form)
            multiple = slash.added(pair, 1, pair)
            if slash.holds(form, *multiple):
                left = fraction_word(rng, form, pair)
                right = fraction_word(rng, form, multiple)
                yield request("b", *form, 1, left, right)
                yield request("b", *form, 2, left, right)
                yield request("b", *form, 4, left, right)
                yield request("o", *form, left, right)


def reciprocal_values():
    """A fraction and its reciprocal, whose product is exactly 1 or less than it."""
    rng = random.Random(26)
    for form in slash.all_formats():
        for _ in range(3):
            n, d = wide_fraction(rng, form)
            left = fraction_word(rng, form, (n, d))
            right = fraction_word(rng, form, (d, n))
            yield request("b", *form, 3, left, right)
            yield request("b", *form, 4, left, right)
            yield request("b", *form, 1, left, right)


# 5. Conversions.


def conversions_of_edges():
    """Each edge word of every format to some format."""
    rng = random.Random(27)
    formats = slash.all_formats()
    for form in formats:
        for word in random_edge_words(rng, form):
            yield request("v", *form, *chosen(rng, formats), word)


def conversions_of_random_words():
    """Random words to some format, to a smaller one of each kind, and to their own."""
    rng = random.Random(28)
    formats = slash.all_formats()
    for form in formats:
        # No format has a smaller k than the least.
        smaller = [target for target in formats if target.k < form.k] or formats
        for _ in range(8):
            for targets in (formats, smaller):
                target = chosen(rng, targets)
                yield request("v", *form, *target, random_word(rng, form))
        yield request("v", *form, *form, random_word(rng, form))


def conversions_between_kinds():
    """The widest words of each kind to the formats of about their width."""
    rng = random.Random(29)
    for k in range(slash.LEAST_K, slash.LARGEST_K[FIXED] + 1):
        fixed, floating = Format(FIXED, k), Format(FLOATING, k)
        for _ in range(4):
            word = fraction_word(rng, fixed, wide_fraction(rng, fixed))
            yield request("v", *fixed, *floating, word)
            word = fraction_word(rng, floating, wide_fraction(rng, floating))
            yield request("v", *floating, *fixed, word)


# 6. Stops.


def unknown_formats():
    """Stop 1, which comes before an unknown code and before the words' stops."""
    for kind, k in UNKNOWN_FORMATS:
        for word in (0, LARGEST):
            for code in (1, 0):
                yield request("b", kind, k, code, word, word)
            yield request("o", kind, k, word, word)
            yield request("v", kind, k, FIXED, 3, word)
            yield request("v", FIXED, 3, kind, k, word)
            yield request("v", kind, k, FIXED, 1, word)
            yield request("v", FIXED, 1, kind, k, word)
    for kind, k in END_FORMATS:
        yield request("b", kind, k, 1, 0, 0)
        yield request("o", kind, k, 0, 0)
        yield request("v", kind, k, FIXED, 3, 0)
        yield request("v", FIXED, 3, kind, k, 0)


def unknown_codes():
    """Stop 2, which comes before the words' stops."""
    for form in (Format(FIXED, 3), Format(FIXED, 31), Format(FLOATING, 3)):
        for code in UNKNOWN_CODES:
            for left, right in ((1, 1), (LARGEST, 1), (1, LARGEST), (LARGEST, LARGEST)):
                yield request("b", *form, code, left, right)
    undefined = undefined_words(Format(FLOATING, 5))[0]
    for code in UNKNOWN_CODES:
        yield request("b", FLOATING, 5, code, undefined, undefined)


def stopping_operands():
    """Stops 4 and 5 on either side and both: the left operand's comes first."""
    rng = random.Random(30)
    for form in slash.all_formats():
        stopping = stopping_words(form)
        good = random_word(rng, form)
        for left in [good, *stopping]:
            for right in [good, *stopping]:
                yield request("b", *form, chosen(rng, CODES), left, right)
                yield request("o", *form, left, right)


def stops_beside_a_not_a_number():
    """A not-a-number on one side does not spare the other side its stop."""
    rng = random.Random(31)
    for form in slash.all_formats():
        not_a_number = slash.not_a_number_word(form)
        for word in stopping_words(form):
            yield request("b", *form, chosen(rng, CODES), not_a_number, word)
            yield request("b", *form, chosen(rng, CODES), word, not_a_number)
            yield request("o", *form, not_a_number, word)


def stopping_conversions():
    """Stops 4 and 5 by the source's format, whatever the target's."""
    for form in slash.all_formats():
        for word in beyond_words(form) + undefined_words(form) + stopping_words(form):
            for target in (Format(FIXED, 31), Format(FLOATING, 2), form):
                yield request("v", *form, *target, word)


GROUPS = [
    paper_sums,
    paper_conversions,
    one_stage_and_two,
    every_pair_of_words,
    every_conversion,
    edges_of_every_format,
    edges_of_the_widest_formats,
    edges_with_themselves,
    zeros_with_zeros,
    limits,
    random_words,
    neighbouring_words,
    equal_values,
    reciprocal_values,
    conversions_of_edges,
    conversions_of_random_words,
    conversions_between_kinds,
    unknown_formats,
    unknown_codes,
    stopping_operands,
    stops_beside_a_not_a_number,
    stopping_conversions,
]
