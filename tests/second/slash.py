"""Formats, words and rounding of slash arithmetic, from documents 00, 01 and 004 alone."""

from collections import namedtuple
from fractions import Fraction
from functools import lru_cache

# Kinds of format.
FIXED = 1
FLOATING = 2

# The least k of both kinds, and the largest k of each.
LEAST_K = 2
LARGEST_K = {FIXED: 31, FLOATING: 32}

# Classes of value.
FRACTION = 0
ZERO = 1
INFINITY = 2
NOT_A_NUMBER = 3

# Numbers of the stops.
UNKNOWN_FORMAT = 1
BITS_ABOVE_WIDTH = 4
UNDEFINED_SLASH_POSITION = 5
DENOMINATOR_ZERO = 6

# The pairs that stand for the zero and the infinity.
ZERO_PAIR = (0, 1)
INFINITY_PAIR = (1, 0)


class Stop(Exception):
    """A refused call, with the number of the stop and its place."""

    def __init__(self, number, place=0):
        super().__init__(number, place)
        self.number = number
        self.place = place


Format = namedtuple("Format", "kind k")

# The parts are those stored for a fraction, 0/1 for a zero, 1/0 for an
# infinity and 0/0 for a not-a-number.
Value = namedtuple("Value", "value_class sign numerator denominator mark")


# Formats.


def make_format(kind, k):
    """The format of this kind and k; stop 1 if there is none."""
    if kind not in LARGEST_K or not LEAST_K <= k <= LARGEST_K[kind]:
        raise Stop(UNKNOWN_FORMAT)
    return Format(kind, k)


def all_formats():
    """Every format there is, the fixed ones first, k ascending."""
    return [
        Format(kind, k)
        for kind in (FIXED, FLOATING)
        for k in range(LEAST_K, LARGEST_K[kind] + 1)
    ]


def slash_width(k):
    """L, the bits of a floating word's slash position: the least with 2^L >= k."""
    length = 0
    while 2**length < k:
        length += 1
    return length


def width(form):
    """The number of bits in a word of the format."""
    if form.kind == FIXED:
        return 2 * form.k + 2
    return form.k + slash_width(form.k) + 1


def largest_numerator(form):
    """The largest numerator of the held pairs r/s with s at least 1.

    A floating pair shares k bits and its denominator takes at least one.
    """
    if form.kind == FIXED:
        return 2**form.k - 1
    return 2 ** (form.k - 1) - 1


def largest_denominator(form):
    """The largest denominator of the held pairs.

    A floating pair shares k bits and its numerator takes at least one, for
    0 counts as one bit.
    """
    if form.kind == FIXED:
        return 2**form.k - 1
    return 2 ** (form.k - 1) - 1


def bit_count(number):
    """The bits of a number without leading zeros; 0 counts one bit."""
    return max(1, number.bit_length())


def holds(form, numerator, denominator):
    """Whether the format holds the pair."""
    if denominator == 0:
        return numerator == 1
    if form.kind == FIXED:
        return max(numerator, denominator) <= 2**form.k - 1
    return bit_count(numerator) + bit_count(denominator) <= form.k


# Words, read.


def field(word, high, low):
    """The number that stands in bits high to low of a word."""
    return (word >> low) % 2 ** (high - low + 1)


# A small format's words are met in all pairs, so the last ones are kept.
@lru_cache(maxsize=2**12)
def read_word(form, word):
    """The value of a word; stop 4, then stop 5."""
    if word >= 2 ** width(form):
        raise Stop(BITS_ABOVE_WIDTH)
    if form.kind == FIXED:
        return read_fixed(form.k, word)
    return read_floating(form.k, word)


def fields_of(form, word):
    """The fields of a word, the highest first; stop 4, then stop 5."""
    read_word(form, word)
    if form.kind == FIXED:
        return fixed_fields(form.k, word)
    return floating_fields(form.k, word)


def fixed_fields(k, word):
    """A fixed word's sign, numerator, mark and denominator."""
    return (
        field(word, 2 * k + 1, 2 * k + 1),
        field(word, 2 * k, k + 1),
        field(word, k, k),
        field(word, k - 1, 0),
    )


def floating_fields(k, word):
    """A floating word's sign, mark, slash position e and field f."""
    length = slash_width(k)
    return (
        field(word, k + length, k + length),
        field(word, k + length - 1, k + length - 1),
        field(word, k + length - 2, k - 1),
        field(word, k - 2, 0),
    )


def read_fixed(k, word):
    """The value of a fixed word."""
    sign, numerator, mark, denominator = fixed_fields(k, word)
    if numerator != 0 and denominator != 0:
        return Value(FRACTION, sign, numerator, denominator, mark)
    if numerator == 0 and denominator % 2 == 1:
        return Value(ZERO, sign, *ZERO_PAIR, mark)
    if denominator == 0 and numerator % 2 == 1:
        return Value(INFINITY, sign, *INFINITY_PAIR, mark)
    return Value(NOT_A_NUMBER, sign, 0, 0, mark)


def read_floating(k, word):
    """The value of a floating word; stop 5 for an undefined slash position."""
    sign, mark, e, f = floating_fields(k, word)
    if e <= k - 2:
        numerator = f // 2**e
        denominator = f % 2**e + 2**e
        if numerator == 0:
            return Value(ZERO, sign, *ZERO_PAIR, mark)
        return Value(FRACTION, sign, numerator, denominator, mark)
    if e < 2 ** slash_width(k) - 1:
        raise Stop(UNDEFINED_SLASH_POSITION)
    if f % 2 == 0:
        return Value(INFINITY, sign, *INFINITY_PAIR, mark)
    return Value(NOT_A_NUMBER, sign, 0, 0, mark)


# Words, written.


def write_value(form, value):
    """The canonical word of a value, a fraction being rounded; stop 6 for n/0."""
    if value.value_class == NOT_A_NUMBER:
        return not_a_number_word(form)
    if value.value_class == ZERO:
        return pair_word(form, value.sign, ZERO_PAIR, value.mark)
    if value.value_class == INFINITY:
        return pair_word(form, value.sign, INFINITY_PAIR, value.mark)
    pair, changed = rounded(form, value.numerator, value.denominator)
    return pair_word(form, value.sign, pair, max(value.mark, changed))


def not_a_number_word(form):
    """The one word in which a not-a-number is written."""
    if form.kind == FIXED:
        return 0
    return floating_word(form.k, 0, 0, 2 ** slash_width(form.k) - 1, 1)


def pair_word(form, sign, pair, mark):
    """The word with this sign and mark of a held pair in lowest terms."""
    numerator, denominator = pair
    k = form.k
    if form.kind == FIXED:
        return (
            sign * 2 ** (2 * k + 1)
            + numerator * 2 ** (k + 1)
            + mark * 2**k
            + denominator
        )
    if denominator == 0:
        return floating_word(k, sign, mark, 2 ** slash_width(k) - 1, 0)
    # The denominator's leading bit isn't stored: the slash position tells it.
    e = denominator.bit_length() - 1
    return floating_word(k, sign, mark, e, numerator * 2**e + denominator - 2**e)


def floating_word(k, sign, mark, e, f):
    """The floating word with these fields."""
    length = slash_width(k)
    return (
        sign * 2 ** (k + length)
        + mark * 2 ** (k + length - 1)
        + e * 2 ** (k - 1)
        + f
    )


# Rounding. The pair is found by what demand 3 says of it, and never by the
# convergents, so that the two descriptions are held against each other.

# The largest k of each kind where all held pairs are searched.
LARGEST_SEARCHED_K = {FIXED: 4, FLOATING: 7}


def rounded(form, n, d):
    """The pair that n/d is rounded to, and its mark; stop 6 for d = 0."""
    if d == 0:
        raise Stop(DENOMINATOR_ZERO)
    if form.k <= LARGEST_SEARCHED_K[form.kind]:
        pair = best_by_search(form, n, d)
    else:
        pair = best_by_descent(form, n, d)
    return pair, int(miss(pair, n, d) != 0)


def miss(pair, n, d):
    """The size of s times n less r times d, for the pair r/s."""
    return abs(pair[1] * n - pair[0] * d)


def rank(pair, n, d):
    """What demand 3 compares pairs by: the miss, then the sum of the parts."""
    return miss(pair, n, d), pair[0] + pair[1]


@lru_cache(maxsize=None)
def held_pairs(form):
    """Every pair that the format holds, in lowest terms or not."""
    numerators = range(largest_numerator(form) + 1)
    denominators = range(1, largest_denominator(form) + 1)
    return [INFINITY_PAIR] + [
        (r, s) for s in denominators for r in numerators if holds(form, r, s)
    ]


@lru_cache(maxsize=None)
def best_by_search(form, n, d):
    """The best of all pairs that the format holds, each ratio searched once."""
    return min(held_pairs(form), key=lambda pair: rank(pair, n, d))


def best_by_descent(form, n, d):
    """The better of the two neighbours of n/d among the held pairs.

    No other held pair can be best. Below n/d, s*n - r*d is the miss and is
    linear in r and s. A held pair at or below n/d that isn't a lower bound of
    the descent is a multiple of one, or lies strictly between two successive
    ones and is then a sum of positive multiples of them; so it has no smaller
    miss than one of them, and a larger sum. Each lower bound has a smaller
    miss than the one before, so the last one is the best. Above n/d the same
    holds with the upper bounds, which are better and better until n/d itself
    is reached; it then is the lower bound, with miss 0.
    """
    return min(neighbours(form, n, d), key=lambda pair: rank(pair, n, d))


def neighbours(form, n, d):
    """The held pairs in lowest terms with lower <= n/d < upper and none between.

    Descends the Stern-Brocot tree from 0/1 and 1/0. What lies strictly
    between the bounds has at least the parts of their mediant; so once the
    mediant isn't held, nothing between them is.
    """
    lower, upper = ZERO_PAIR, INFINITY_PAIR
    while holds(form, *added(lower, 1, upper)):
        lower = added(lower, steps_up(form, lower, upper, n, d), upper)
        upper = added(upper, steps_down(form, lower, upper, n, d), lower)
    return lower, upper


def added(pair, times, other):
    """The pair to whose parts those of the other are added so many times."""
    return pair[0] + times * other[0], pair[1] + times * other[1]


def at_most(pair, n, d):
    """Whether the pair's value is at most n/d."""
    return pair[0] * d <= pair[1] * n


def steps_up(form, lower, upper, n, d):
    """How often the upper bound can be added to the lower one."""

    def allowed(times):
        pair = added(lower, times, upper)
        return holds(form, *pair) and at_most(pair, n, d)

    return last_allowed(allowed)


def steps_down(form, lower, upper, n, d):
    """How often the lower bound can be added to the upper one."""

    def allowed(times):
        pair = added(upper, times, lower)
        return holds(form, *pair) and not at_most(pair, n, d)

    return last_allowed(allowed)


def last_allowed(allowed):
    """The last allowed number, where 0 is allowed and none after one that isn't."""
    beyond = 1
    while allowed(beyond):
        beyond *= 2
    last = beyond // 2
    while beyond - last > 1:
        middle = (last + beyond) // 2
        if allowed(middle):
            last = middle
        else:
            beyond = middle
    return last


# Convergents, by their definition as truncated continued fractions.


def partial_quotients(n, d):
    """The partial quotients of n/d, d at least 1; the last is at least 2 or the only one."""
    x = Fraction(n, d)
    quotients = [x.numerator // x.denominator]
    while x != quotients[-1]:
        x = 1 / (x - quotients[-1])
        quotients.append(x.numerator // x.denominator)
    return quotients


def truncated_value(quotients):
    """The value of [a0, a1, ..., ai], worked from the right."""
    value = Fraction(quotients[-1])
    for quotient in reversed(quotients[:-1]):
        value = quotient + 1 / value
    return value


def convergents(n, d):
    """The convergents of n/d, d at least 1, as pairs: 1/0 first, n/d last."""
    quotients = partial_quotients(n, d)
    values = [
        truncated_value(quotients[: count + 1]) for count in range(len(quotients))
    ]
    return [INFINITY_PAIR] + [(x.numerator, x.denominator) for x in values]
