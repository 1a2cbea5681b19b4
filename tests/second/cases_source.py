"""The worked examples of document 004, as request lines.

An example is worked step by step. A step asks for a word and returns the one
that this program finds, so that the next step takes it as an operand.
"""

import operations
import slash
from cases_common import asked_once, request
from slash import FIXED, FLOATING, FRACTION, ZERO, Format

# The formats that 004 names, where they are among those of document 01: that of
# its roundings, HALF and SINGLE of its Table 2, HALF of its Table 4.
TWENTY_BITS = Format(FIXED, 9)
HALF = Format(FIXED, 15)
SINGLE = Format(FIXED, 31)
FLOATING_HALF = Format(FLOATING, 26)

# 004 works its determinant in fractions of at most three decimal digits. This
# format has parts up to 1023 and gives the same at each step (checks_source.py).
THREE_DIGITS = Format(FIXED, 10)

# Codes.
PLUS, MINUS, TIMES, OVER = 1, 2, 3, 4
NEGATE, ABSOLUTE, RECIPROCAL, FLOOR, MODULO_ONE = 1, 2, 3, 4, 6


def requests():
    """All request lines in order, each asked once."""
    return asked_once(GROUPS)


# Steps.


def written(form, n, d=1):
    """The word of a ratio."""
    value = slash.Value(FRACTION, 0, n, d, 0)
    yield request("w", *form, *value)
    return slash.write_value(form, value)


def combined(form, code, left, right):
    """The word that a binary code gives."""
    yield request("b", *form, code, left, right)
    return operations.binary(form, code, left, right)


def changed(form, code, word):
    """The word that a unary code gives."""
    yield request("u", *form, code, word)
    return operations.unary(form, code, word)


def converted(source, target, word):
    """The word that a conversion gives."""
    yield request("v", *source, *target, word)
    return operations.converted(source, target, word)


def in_turn(form, code, first, *others):
    """The words under one binary code, the first with the second, and so on."""
    word = first
    for other in others:
        word = yield from combined(form, code, word, other)
    return word


# 1. Continued fractions: 004's (1) and (2), its Table 1 and its Observation 9.

# Table 1: the continued fraction, the fraction, and the decimal representation
# and the relative error by the digits that are printed and how many of them
# stand behind the point.
TABLE_1 = [
    ((0,), (0, 1), (0, 1), (1, 0)),
    ((0, 2), (1, 2), (50, 2), (15, 2)),
    ((0, 2, 3), (3, 7), (428, 3), (67, 4)),
    ((0, 2, 3, 6), (19, 44), (4318, 4), (82, 5)),
    ((0, 2, 3, 6, 1), (22, 51), (43137, 5), (21, 5)),
    ((0, 2, 3, 6, 1, 3), (85, 197), (431472, 6), (18, 6)),
    ((0, 2, 3, 6, 1, 3, 3), (277, 642), (4314641, 7), (0, 0)),
]

# The convergents of 11612/30193, which 004 lists where it rounds that ratio.
CONVERGENTS = [(0, 1), (1, 2), (1, 3), (2, 5), (3, 8), (5, 13)]
CONVERGENTS += [(1288, 3349), (2581, 6711), (11612, 30193)]

# The matrix whose determinant 004 works out, 5/13.
MATRIX = (
    ((10, 13), (20, 17), (1, 13)),
    ((11, 19), (7, 11), (77, 95)),
    ((69, 91), (4, 17), (56, 65)),
)

# All ratios that 004 speaks of.
RATIOS = [fraction for _, fraction, _, _ in TABLE_1] + CONVERGENTS
RATIOS += [entry for row in MATRIX for entry in row]
RATIOS += [(320, 277), (84, 109), (192, 445), (355, 113)]


def source_quotients():
    """The partial quotients of 004's ratios, in every format that holds them."""
    for form in slash.all_formats():
        for n, d in RATIOS:
            if slash.holds(form, n, d):
                word = slash.pair_word(form, 0, (n, d), 0)
                # One place more than there are quotients.
                length = len(operations.quotients_of(form, word)) + 1
                yield request("q", *form, length, word)


def source_table():
    """The rows of Table 1, where all of it is exact."""
    for quotients, _, (_, decimals), (_, error_decimals) in TABLE_1:
        yield from table_row(quotients, decimals, error_decimals)


def table_row(quotients, decimals, error_decimals):
    """The fraction of a row, the digits of its decimals and those of its error."""
    whole = yield from written(SINGLE, 277, 642)
    fraction = yield from continued_fraction(SINGLE, quotients)
    digits = yield from leading_digits(SINGLE, fraction, decimals)
    error = yield from relative_error(SINGLE, fraction, whole)
    error_digits = yield from leading_digits(SINGLE, error, error_decimals)
    return fraction, digits, error_digits


def continued_fraction(form, quotients):
    """a0 + 1/(a1 + ... + 1/ai), worked from the right."""
    word = yield from written(form, quotients[-1])
    for quotient in reversed(quotients[:-1]):
        left = yield from written(form, quotient)
        right = yield from changed(form, RECIPROCAL, word)
        word = yield from combined(form, PLUS, left, right)
    return word


def leading_digits(form, word, decimals):
    """The digits of a value up to so many behind the point, as a whole number."""
    power = yield from written(form, 10**decimals)
    shifted = yield from combined(form, TIMES, power, word)
    return (yield from changed(form, FLOOR, shifted))


def relative_error(form, word, exact):
    """How far a value lies from the exact one, over the exact one."""
    difference = yield from combined(form, MINUS, word, exact)
    distance = yield from changed(form, ABSOLUTE, difference)
    return (yield from combined(form, OVER, distance, exact))


def source_parts():
    """Observation 9: the quotients of 004's ratios by repeated floor and mod 1."""
    for form in (THREE_DIGITS, HALF, SINGLE, FLOATING_HALF):
        for n, d in RATIOS:
            if slash.holds(form, n, d):
                yield from repeated_parts(form, n, d)


def repeated_parts(form, n, d):
    """The floor, then those of one over what mod 1 leaves, until that is 0."""
    word = yield from written(form, n, d)
    floors = [(yield from changed(form, FLOOR, word))]
    rest = yield from changed(form, MODULO_ONE, word)
    while slash.read_word(form, rest).value_class != ZERO:
        word = yield from changed(form, RECIPROCAL, rest)
        floors.append((yield from changed(form, FLOOR, word)))
        rest = yield from changed(form, MODULO_ONE, word)
    return floors


# 2. Rounding: 004's (18) and the gap behind its Corollary 6.2.


def source_roundings():
    """004's ratios rounded; 277/642 gives 22/51, 85/197 and others of Table 1."""
    for form in slash.all_formats():
        for n, d in ((277, 642), (11612, 30193), (355, 113)):
            yield request("n", *form, n, d)
            yield request("w", *form, FRACTION, 0, n, d, 0)
        yield request("n", *form, 192, 445)
    for form in (TWENTY_BITS, THREE_DIGITS, HALF, FLOATING_HALF):
        for n, d in RATIOS:
            yield request("n", *form, n, d)


def source_gap():
    """The gap of the 20-bit format whose mediant is 277/642, worked in 64 bits.

    The mediant by its parts, the size of the gap, the error of the rounding,
    and the mediant rounded.
    """
    lower = yield from written(SINGLE, 192, 445)
    upper = yield from written(SINGLE, 85, 197)
    mediant = yield from mediant_of((192, 445), (85, 197))
    size = yield from combined(SINGLE, MINUS, upper, lower)
    error = yield from combined(SINGLE, MINUS, upper, mediant)
    rounded = yield from converted(SINGLE, TWENTY_BITS, mediant)
    return mediant, size, error, rounded


def mediant_of(lower, upper):
    """The sum of the numerators over that of the denominators, in 64 bits."""
    sums = []
    for left_part, right_part in zip(lower, upper):
        left = yield from written(SINGLE, left_part)
        right = yield from written(SINGLE, right_part)
        sums.append((yield from combined(SINGLE, PLUS, left, right)))
    return (yield from combined(SINGLE, OVER, *sums))


def source_words():
    """004's 20-bit example and 355/113, each sign and mark, written and read back."""
    for form, n, d in ((TWENTY_BITS, 277, 642), (FLOATING_HALF, 355, 113)):
        for sign in (0, 1):
            for mark in (0, 1):
                value = slash.Value(FRACTION, sign, n, d, mark)
                yield request("w", *form, *value)
                yield request("r", *form, slash.write_value(form, value))


def source_integers():
    """004's integer compatibility: whole numbers in the 32-bit formats."""
    for form in (HALF, FLOATING_HALF):
        largest = slash.largest_numerator(form)
        for n in (0, 1, 2, 3, 1000, largest - 1, largest, largest + 1):
            for sign in (0, 1):
                yield request("w", *form, FRACTION, sign, n, 1, 0)


# 3. Exact results in twice the width: 004's Theorem 2. A k has twice its width
# at 2k + 1; the proof's extreme operands need that for sums, and 2k for products.

# The k that have twice their width, without 2, which the proof leaves out.
DOUBLED_KS = range(3, 16)


def source_doubles():
    """The proof's extreme operands in twice the width and just below."""
    for k in DOUBLED_KS:
        for target_k in (2 * k + 1, 2 * k, 2 * k - 1):
            yield from extreme_results(k, Format(FIXED, target_k))


def extreme_results(k, target):
    """x + y, x - -y, x times x and x over y, for x = 1/y = (2^k - 1)/(2^k - 2)."""
    form = Format(FIXED, k)
    narrow_x = yield from written(form, 2**k - 1, 2**k - 2)
    narrow_y = yield from changed(form, RECIPROCAL, narrow_x)
    x = yield from converted(form, target, narrow_x)
    y = yield from converted(form, target, narrow_y)
    negative = yield from changed(target, NEGATE, y)
    total = yield from combined(target, PLUS, x, y)
    difference = yield from combined(target, MINUS, x, negative)
    product = yield from combined(target, TIMES, x, x)
    quotient = yield from combined(target, OVER, x, y)
    return total, difference, product, quotient


# 4. The determinant of 004's Figure 3, and the subtraction that ends it.


def source_determinant():
    """The determinant in the formats that 004 names, and as 004 works it."""
    for form in (THREE_DIGITS, TWENTY_BITS, HALF, SINGLE, FLOATING_HALF):
        _, _, difference = yield from determinant(form)
        expected = yield from written(form, 5, 13)
        yield request("o", *form, difference, expected)


def determinant(form):
    """Both sums of products and their difference, in the order of the parentheses."""
    entries = []
    for row in MATRIX:
        for n, d in row:
            entries.append((yield from written(form, n, d)))
    a, b, c, d, e, f, g, h, i = entries
    left = yield from sum_of_products(form, (a, e, i), (d, h, c), (g, b, f))
    right = yield from sum_of_products(form, (g, e, c), (d, b, i), (a, h, f))
    difference = yield from combined(form, MINUS, left, right)
    return left, right, difference


def sum_of_products(form, *factors):
    """The sum of three products of three words."""
    products = []
    for words in factors:
        products.append((yield from in_turn(form, TIMES, *words)))
    return (yield from in_turn(form, PLUS, *products))


def source_subtraction():
    """320/277 - 84/109 in every format, and by its parts, then rounded to each."""
    _, _, exact = yield from subtraction_of_parts((320, 277), (84, 109))
    for form in slash.all_formats():
        yield from subtraction(form)
        yield from converted(SINGLE, form, exact)


def subtraction(form):
    """320/277 - 84/109 in a format."""
    left = yield from written(form, 320, 277)
    right = yield from written(form, 84, 109)
    return (yield from combined(form, MINUS, left, right))


def subtraction_of_parts(left, right):
    """p/q - r/s as ps - qr over qs: both parts and their ratio, in 64 bits."""
    parts = []
    for part in (*left, *right):
        parts.append((yield from written(SINGLE, part)))
    p, q, r, s = parts
    first = yield from combined(SINGLE, TIMES, p, s)
    second = yield from combined(SINGLE, TIMES, q, r)
    numerator = yield from combined(SINGLE, MINUS, first, second)
    denominator = yield from combined(SINGLE, TIMES, q, s)
    ratio = yield from combined(SINGLE, OVER, numerator, denominator)
    return numerator, denominator, ratio


GROUPS = [
    source_quotients,
    source_table,
    source_parts,
    source_roundings,
    source_gap,
    source_words,
    source_integers,
    source_doubles,
    source_determinant,
    source_subtraction,
]
