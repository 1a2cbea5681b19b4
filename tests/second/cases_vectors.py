"""The cases on the vector forms, as request lines."""

import random

import slash
from cases_common import (
    END_FORMATS,
    LARGEST,
    UNKNOWN_FORMATS,
    asked_once,
    beyond_words,
    chosen,
    random_edge_words,
    random_word,
    request,
    undefined_words,
)
from slash import FIXED, FLOATING, Format

BINARY_CODES = (1, 2, 3, 4)
UNARY_CODES = (1, 2, 3, 4, 5, 6, 7)

# Those above 255 are good ones again when bits are dropped.
UNKNOWN_BINARY_CODES = (0, 5, 7, 257, 2**32 + 1, LARGEST)
UNKNOWN_UNARY_CODES = (0, 8, 257, 2**32 + 7, LARGEST)

# The lengths of the good vectors; the last is the longest that is asked for.
LENGTHS = (0, 1, 2, 7, 16)

FORMATS = [
    *(Format(FIXED, k) for k in (2, 3, 15, 31)),
    *(Format(FLOATING, k) for k in (2, 3, 4, 5, 17, 26, 32)),
]

# Formats with undefined slash positions.
UNDEFINING = [Format(FLOATING, k) for k in (3, 26)]

# Formats where every place of the longest vectors is tried.
LONG_FORMATS = [Format(FIXED, 15), Format(FLOATING, 26)]

# The most bytes of a request line.
LONGEST_LINE = 1000


def requests():
    """All request lines in order, each asked once."""
    lines = asked_once(GROUPS)
    assert max(map(len, lines)) < LONGEST_LINE
    return lines


# Request lines.


def binary_request(form, code, left, right, out):
    """x: a binary code on two vectors."""
    lengths = len(left), len(right), len(out)
    return request("x", *form, code, *lengths, *left, *right, *out)


def unary_request(form, code, operand, out):
    """y: a unary code on a vector."""
    return request("y", *form, code, len(operand), len(out), *operand, *out)


def convert_request(form, target, operand, out):
    """z: a conversion of a vector."""
    return request("z", *form, *target, len(operand), len(out), *operand, *out)


# Vectors.


def lent(length):
    """A lent result vector, each place with a telltale of its own."""
    return [0x7E110 + place for place in range(length)]


def any_word(rng, form):
    """A random word, one time in four an edge word."""
    if rng.getrandbits(2) == 0:
        return chosen(rng, random_edge_words(rng, form))
    return random_word(rng, form)


def vector(rng, form, length):
    """A vector of good words."""
    return [any_word(rng, form) for _ in range(length)]


def with_word(words, place, word):
    """The vector with another word at one place."""
    return [*words[:place], word, *words[place + 1 :]]


def bad_words(form):
    """The words that stop, with both stops' numbers in some, each once."""
    beyond, undefined = beyond_words(form), undefined_words(form)
    both = [high + low for high in beyond[:1] for low in undefined[-1:]]
    return beyond + undefined + both


# 1. Good vectors.


def good_binary_vectors():
    """Good vectors of every length with every binary code."""
    rng = random.Random(60)
    for form in FORMATS:
        for length in LENGTHS:
            for code in BINARY_CODES:
                left, right = vector(rng, form, length), vector(rng, form, length)
                yield binary_request(form, code, left, right, lent(length))


def good_unary_vectors():
    """Good vectors of every length with every unary code."""
    rng = random.Random(61)
    for form in FORMATS:
        for length in LENGTHS:
            for code in UNARY_CODES:
                operand = vector(rng, form, length)
                yield unary_request(form, code, operand, lent(length))


def good_conversions():
    """Good vectors from each format to the others, the lengths taking turns."""
    rng = random.Random(62)
    for i, source in enumerate(FORMATS):
        for j, target in enumerate(FORMATS):
            for length in (LENGTHS[(i + j) % 5], LENGTHS[(i + 3 * j + 2) % 5]):
                operand = vector(rng, source, length)
                yield convert_request(source, target, operand, lent(length))


def every_length():
    """Every length from 0 to the longest."""
    rng = random.Random(63)
    for length in range(LENGTHS[-1] + 1):
        for form in (Format(FIXED, 15), Format(FLOATING, 17)):
            left, right = vector(rng, form, length), vector(rng, form, length)
            code = chosen(rng, BINARY_CODES)
            yield binary_request(form, code, left, right, lent(length))
            code = chosen(rng, UNARY_CODES)
            yield unary_request(form, code, left, lent(length))
            target = chosen(rng, FORMATS)
            yield convert_request(form, target, right, lent(length))


def one_word_everywhere():
    """Vectors of one word, and vectors where one place alone is another."""
    rng = random.Random(64)
    for form in (Format(FIXED, 3), Format(FLOATING, 26)):
        word, other = random_word(rng, form), random_word(rng, form)
        same = [word] * 7
        for place in range(7):
            odd = with_word(same, place, other)
            code = chosen(rng, BINARY_CODES)
            yield binary_request(form, code, odd, same, lent(7))
            yield binary_request(form, code, same, odd, lent(7))
            yield unary_request(form, chosen(rng, UNARY_CODES), odd, lent(7))
            yield convert_request(form, Format(FIXED, 2), odd, lent(7))


def bad_words_lent():
    """The result's words before the call are none of its business."""
    rng = random.Random(65)
    for form in FORMATS:
        left, right = vector(rng, form, 3), vector(rng, form, 3)
        out = [LARGEST, *undefined_words(form), LARGEST, LARGEST][:3]
        yield binary_request(form, chosen(rng, BINARY_CODES), left, right, out)
        yield unary_request(form, chosen(rng, UNARY_CODES), left, out)
        yield convert_request(form, chosen(rng, FORMATS), right, out)


# 2. Bad words.


def a_bad_word_at_each_place():
    """One bad word at each place of each operand."""
    rng = random.Random(66)
    for form in FORMATS:
        bad = bad_words(form)
        for length in lengths_with_bad_words(form) if bad else ():
            for place in range(length):
                left, right = vector(rng, form, length), vector(rng, form, length)
                code, out = chosen(rng, BINARY_CODES), lent(length)
                worse = with_word(left, place, chosen(rng, bad))
                yield binary_request(form, code, worse, right, out)
                worse = with_word(right, place, chosen(rng, bad))
                yield binary_request(form, code, left, worse, out)
                yield unary_request(form, chosen(rng, UNARY_CODES), worse, out)
                yield convert_request(form, chosen(rng, FORMATS), worse, out)


def lengths_with_bad_words(form):
    """The lengths at whose every place a bad word is put, the longest in two formats."""
    return (1, 7, 16) if form in LONG_FORMATS else (1, 7)


def each_bad_word():
    """Each bad word of every format, at the last of three places."""
    rng = random.Random(67)
    for form in slash.all_formats():
        for i, word in enumerate(bad_words(form)):
            good = vector(rng, form, 3)
            worse, out = with_word(good, 2, word), lent(3)
            if i % 2 == 0:
                yield binary_request(form, chosen(rng, BINARY_CODES), good, worse, out)
            else:
                yield unary_request(form, chosen(rng, UNARY_CODES), worse, out)


def two_bad_words():
    """4 against 5 at one place and at two: the place decides, then the operand."""
    rng = random.Random(68)
    for form in UNDEFINING:
        beyond, undefined = beyond_words(form)[-1], undefined_words(form)[0]
        for here, there in ((beyond, undefined), (undefined, beyond)):
            for i in range(3):
                for j in range(3):
                    left, right = vector(rng, form, 3), vector(rng, form, 3)
                    worse_left = with_word(left, i, here)
                    worse_right = with_word(right, j, there)
                    code, out = chosen(rng, BINARY_CODES), lent(3)
                    yield binary_request(form, code, worse_left, worse_right, out)
                    twice = with_word(worse_left, j, there)
                    yield binary_request(form, code, twice, right, out)
                    code = chosen(rng, UNARY_CODES)
                    yield unary_request(form, code, twice, out)
                    yield convert_request(form, chosen(rng, FORMATS), twice, out)


def bad_words_alone():
    """Vectors of bad words only."""
    rng = random.Random(69)
    for form in FORMATS:
        bad = bad_words(form)
        for length in (1, 2, 16) if bad else ():
            left = [chosen(rng, bad) for _ in range(length)]
            right = [chosen(rng, bad) for _ in range(length)]
            out = lent(length)
            yield binary_request(form, chosen(rng, BINARY_CODES), left, right, out)
            yield unary_request(form, chosen(rng, UNARY_CODES), left, out)
            yield convert_request(form, chosen(rng, FORMATS), right, out)


# 3. Unequal lengths.


def unequal_lengths():
    """Vectors of unequal lengths, with good words and with bad ones, and equal ones."""
    rng = random.Random(70)
    lengths = [(m, n, p) for m in range(3) for n in range(3) for p in range(3)]
    lengths += [(16, 15, 16), (15, 16, 16), (16, 16, 15), (7, 16, 7), (0, 0, 16)]
    for form in (Format(FIXED, 15), Format(FLOATING, 5)):
        bad = bad_words(form)
        for m, n, p in lengths:
            left, right = vector(rng, form, m), vector(rng, form, n)
            code = chosen(rng, BINARY_CODES)
            yield binary_request(form, code, left, right, lent(p))
            worse = [chosen(rng, bad) for _ in left]
            yield binary_request(form, code, worse, right, lent(p))


def unequal_results():
    """One operand and a result that is shorter, longer or as long."""
    rng = random.Random(71)
    lengths = [(m, n) for m in range(4) for n in range(4)]
    lengths += [(16, 15), (15, 16), (0, 16), (16, 0)]
    for form in (Format(FIXED, 3), Format(FLOATING, 17)):
        bad = bad_words(form)
        for m, n in lengths:
            good, worse = vector(rng, form, m), [chosen(rng, bad) for _ in range(m)]
            for operand in (good, worse):
                code, target = chosen(rng, UNARY_CODES), chosen(rng, FORMATS)
                yield unary_request(form, code, operand, lent(n))
                yield convert_request(form, target, operand, lent(n))


# 4. Unknown codes and formats.


def unknown_codes():
    """Stop 2 before 3 and before the words' stops, and without any word."""
    for form in (Format(FIXED, 3), Format(FIXED, 31), Format(FLOATING, 5)):
        good, bad = [1, 1], [LARGEST, *bad_words(form), LARGEST][:2]
        for code in UNKNOWN_BINARY_CODES:
            yield binary_request(form, code, [], [], [])
            yield binary_request(form, code, good, good, lent(2))
            yield binary_request(form, code, good, good[:1], lent(2))
            yield binary_request(form, code, bad, bad, lent(1))
            yield binary_request(form, code, bad, bad, lent(2))
        for code in UNKNOWN_UNARY_CODES:
            yield unary_request(form, code, [], [])
            yield unary_request(form, code, good, lent(2))
            yield unary_request(form, code, bad, lent(3))
            yield unary_request(form, code, bad, lent(2))


def unknown_formats():
    """Stop 1 before all others, and without any word."""
    bad = [LARGEST, LARGEST]
    for unknown in UNKNOWN_FORMATS:
        for code in (1, 0):
            yield binary_request(unknown, code, [1, 1], [1, 1], lent(2))
            yield binary_request(unknown, code, bad, bad[:1], lent(2))
            yield unary_request(unknown, code, [1, 1], lent(2))
            yield unary_request(unknown, code, bad, lent(1))
        yield binary_request(unknown, 1, [], [], [])
        yield unary_request(unknown, 1, [], [])


def unknown_formats_of_conversions():
    """Stop 1 for the source's format, the target's and both."""
    bad = [LARGEST, LARGEST]
    known = Format(FIXED, 3)
    for unknown in UNKNOWN_FORMATS:
        for source, target in ((unknown, known), (known, unknown), (unknown, (1, 1))):
            yield convert_request(source, target, [1, 1], lent(2))
            yield convert_request(source, target, bad, lent(1))
            yield convert_request(source, target, [], [])


def end_formats():
    """The ends of both kinds, which are formats."""
    for form in END_FORMATS:
        yield binary_request(form, 1, [1], [1], lent(1))
        yield unary_request(form, 3, [1], lent(1))
        for target in END_FORMATS:
            yield convert_request(form, target, [1, 2], lent(2))


GROUPS = [
    good_binary_vectors,
    good_unary_vectors,
    good_conversions,
    every_length,
    one_word_everywhere,
    bad_words_lent,
    a_bad_word_at_each_place,
    each_bad_word,
    two_bad_words,
    bad_words_alone,
    unequal_lengths,
    unequal_results,
    unknown_codes,
    unknown_formats,
    unknown_formats_of_conversions,
    end_formats,
]
