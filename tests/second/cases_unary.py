"""The cases on the operations on one word, as request lines."""

import random

import operations
import slash
from cases_common import (
    END_FORMATS,
    LARGEST,
    UNKNOWN_FORMATS,
    asked_once,
    beyond_words,
    chosen,
    fraction_word,
    random_edge_words,
    random_part,
    random_word,
    request,
    small_formats,
    stopping_words,
    undefined_words,
    wide_fraction,
    widest_pair,
)
from slash import FIXED, FLOATING, Format

CODES = (1, 2, 3, 4, 5, 6, 7)
FLOOR, CEILING, MODULO_ONE = 4, 5, 6

# Those above 255 are good ones again when bits are dropped.
UNKNOWN_CODES = (0, 8, 9, 255, 257, 2**32 + 1, 2**63 + 7, LARGEST)

# The length of the longest list that is lent.
LONGEST_LIST = 70

# The partial quotients of which fractions are made up that have many.
SMALL_QUOTIENTS = (1, 2, 3)


def requests():
    """All request lines in order, each asked once."""
    return asked_once(GROUPS)


# 1. Edges of document 01.


def paper_floors():
    """Floor, ceiling and mod 1 of -2/3 in every format, and of what lies by it."""
    pairs = ((2, 3), (1, 3), (1, 2), (3, 2), (1, 1), (2, 1), (4, 2), (5, 3))
    for form in slash.all_formats():
        for n, d in pairs:
            if slash.holds(form, n, d):
                word = slash.pair_word(form, 1, (n, d), n % 2)
                for code in (FLOOR, CEILING, MODULO_ONE):
                    yield request("u", *form, code, word)


# 2. Every word of the small formats.


def every_word():
    """All words of the small formats, with every code and their common divisors."""
    for form in small_formats(4, 6):
        for code in CODES:
            yield request("U", *form, code)
        yield request("G", *form)


def quotients_of_every_word():
    """The partial quotients of all words of the smallest formats."""
    for form in small_formats(3, 4):
        for word in range(2 ** slash.width(form)):
            yield request("q", *form, 2 * form.k, word)


# 3. Edge and random words of every format.


def edges_of_every_format():
    """Each edge word with some code of each sort, and its common divisor."""
    rng = random.Random(40)
    for form in slash.all_formats():
        for codes in ((1, 2), (3, 7), (FLOOR, CEILING, MODULO_ONE)):
            for word in random_edge_words(rng, form):
                yield request("u", *form, chosen(rng, codes), word)
        for word in random_edge_words(rng, form):
            yield request("g", *form, word)


def edges_of_the_widest_formats():
    """Each edge word of the largest format of each kind with every code."""
    rng = random.Random(47)
    for form in (Format(FIXED, 31), Format(FLOATING, 32)):
        for code in CODES:
            for word in random_edge_words(rng, form):
                yield request("u", *form, code, word)


def random_words():
    """Random words with every code and their common divisors."""
    rng = random.Random(41)
    for form in slash.all_formats():
        for _ in range(3):
            for code in CODES:
                yield request("u", *form, code, random_word(rng, form))
            yield request("g", *form, random_word(rng, form))


def multiples():
    """Fractions with a large common divisor: reciprocal, normalise and the divisor."""
    rng = random.Random(42)
    for form in slash.all_formats():
        for _ in range(4):
            word = fraction_word(rng, form, multiple_pair(rng, form))
            yield request("u", *form, 3, word)
            yield request("u", *form, 7, word)
            yield request("g", *form, word)


def multiple_pair(rng, form):
    """A held pair that is some multiple of a pair with small parts."""
    small = random_part(rng, 2), random_part(rng, 2)
    if not slash.holds(form, *small):
        return 1, 1

    def held(times):
        return slash.holds(form, small[0] * (times + 1), small[1] * (times + 1))

    times = 1 + rng.getrandbits(32) % (slash.last_allowed(held) + 1)
    return small[0] * times, small[1] * times


# 4. Floor, ceiling and mod 1.


def whole_numbers():
    """Whole numbers, in lowest terms or not, and what lies just beside them."""
    for form in slash.all_formats():
        r, s = slash.largest_numerator(form), slash.largest_denominator(form)
        a, b = widest_pair(form)
        pairs = [(0, 1), (1, 1), (r, 1), (1, s), (b, b), (a // b * b, b)]
        pairs += [(a - 1, b), (b + 1, b), (b - 1, b), (a - 1, 3)]
        pairs += [(r // 2, 2), (r // 2 - 1, 2)]
        for n, d in dict.fromkeys(pairs):
            if d > 0 and slash.holds(form, n, d):
                for sign in (0, 1):
                    word = slash.pair_word(form, sign, (n, d), (n + d) % 2)
                    for code in (FLOOR, CEILING, MODULO_ONE):
                        yield request("u", *form, code, word)


def zeros_and_infinities():
    """Zeros and infinities of both signs and marks, with every code."""
    for form in slash.all_formats():
        for sign in (0, 1):
            mark = (form.k + sign) % 2
            zero = slash.pair_word(form, sign, slash.ZERO_PAIR, mark)
            infinity = slash.pair_word(form, sign, slash.INFINITY_PAIR, mark)
            for code in CODES:
                yield request("u", *form, code, zero)
                yield request("u", *form, code, infinity)


def negative_words():
    """Negative fractions that fill the format's bits; floating mod 1 is rounded."""
    rng = random.Random(43)
    for form in slash.all_formats():
        for _ in range(8 if form.kind == FLOATING else 3):
            pair = wide_fraction(rng, form)
            word = slash.pair_word(form, 1, pair, rng.getrandbits(1))
            for code in (FLOOR, CEILING, MODULO_ONE):
                yield request("u", *form, code, word)


# 5. Partial quotients.


def quotients_in_lists(form, word):
    """The word's partial quotients into lists too short, long enough and longer."""
    yield request("q", *form, 0, word)
    yield from lists_about_the_count(form, word)


def lists_about_the_count(form, word):
    """The word's quotients into lists a place too short, just enough, a place more."""
    count = len(operations.quotients_of(form, word))
    for length in (count - 1, count, count + 1):
        if 0 <= length <= LONGEST_LIST:
            yield request("q", *form, length, word)


def quotients_of_edges():
    """The partial quotients of the edge words of every format."""
    rng = random.Random(44)
    for form in slash.all_formats():
        for word in random_edge_words(rng, form):
            yield from quotients_in_lists(form, word)


def quotients_of_random_words():
    """The partial quotients of random words of every format."""
    rng = random.Random(45)
    for form in slash.all_formats():
        for _ in range(3):
            yield from quotients_in_lists(form, random_word(rng, form))


def quotients_of_long_words():
    """The partial quotients of words that have many, into the longest list too."""
    for form in slash.all_formats():
        for word in long_words(form, SMALL_QUOTIENTS):
            yield from quotients_in_lists(form, word)
            yield request("q", *form, LONGEST_LIST, word)
            yield request("q", *form, 2 * form.k, word)


def long_words(form, quotients):
    """For each of these quotients the longest fraction made up of it, both ways up."""
    for quotient in quotients:
        n, d = longest_pair(form, quotient)
        for pair in ((n, d), (d, n)):
            yield slash.pair_word(form, quotient % 2, pair, (n + d) % 2)


def longest_pair(form, quotient):
    """The last held pair whose partial quotients are all this one.

    With quotient 1 these are the Fibonacci numbers.
    """
    n, d = 1, 1
    while slash.holds(form, quotient * n + d, n):
        n, d = quotient * n + d, n
    return n, d


# 6. Stops.


def unknown_formats():
    """Stop 1, which comes before all others."""
    for kind, k in UNKNOWN_FORMATS:
        for word in (0, LARGEST):
            for code in (1, 0):
                yield request("u", kind, k, code, word)
            yield request("g", kind, k, word)
            yield request("q", kind, k, 0, word)
            yield request("q", kind, k, 3, word)
    for kind, k in END_FORMATS:
        yield request("u", kind, k, 1, 1)
        yield request("g", kind, k, 1)
        yield request("q", kind, k, 3, 1)


def unknown_codes():
    """Stop 2, which comes before the word's stops."""
    for form in (Format(FIXED, 3), Format(FIXED, 31), Format(FLOATING, 5)):
        for code in UNKNOWN_CODES:
            for word in [0, 1, LARGEST, *stopping_words(form)]:
                yield request("u", *form, code, word)


def stopping_operands():
    """Stops 4 and 5 with every code, and before stop 7."""
    rng = random.Random(46)
    for form in slash.all_formats():
        words = beyond_words(form) + undefined_words(form) + stopping_words(form)
        for word in dict.fromkeys(words):
            yield request("u", *form, chosen(rng, CODES), word)
            yield request("u", *form, chosen(rng, CODES), word)
            yield request("g", *form, word)
            for length in (0, 2):
                yield request("q", *form, length, word)


GROUPS = [
    paper_floors,
    every_word,
    quotients_of_every_word,
    edges_of_every_format,
    edges_of_the_widest_formats,
    random_words,
    multiples,
    whole_numbers,
    zeros_and_infinities,
    negative_words,
    quotients_of_edges,
    quotients_of_random_words,
    quotients_of_long_words,
    unknown_formats,
    unknown_codes,
    stopping_operands,
]
