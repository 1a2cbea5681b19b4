"""Checks of the count of partial quotients: what CR 6 of 02 says of it."""

import random

import operations
import slash
from answers import LENT, answer
from cases_common import (
    LARGEST,
    UNKNOWN_FORMATS,
    beyond_words,
    random_edge_words,
    random_word,
    request,
    small_formats,
    undefined_words,
)
from cases_unary import SMALL_QUOTIENTS, long_words
from checks_twisting import stop_of
from operations import LIST_TOO_SHORT
from slash import BITS_ABOVE_WIDTH, FIXED, UNDEFINED_SLASH_POSITION

# The random words that are looked at of each format.
RANDOM_WORDS = 4

# What the counts of floating k = 3 are with each sign and mark: 0 to 3 over 1, then 0
# over 2 and 3, 1/2 and 1/3, slash position 2, which is undefined, and no quotients.
SMALL_COUNTS = "1 1 1 1 1 1 2 2 !5 !5 !5 !5 0 0 0 0"

# Worked out by hand from documents 01 and 004 and CR 6.
COUNTED_ANSWERS = [
    # 277/642 is [0,2,3,6,1,3,3] and 355/113 is [3,7,16].
    ("c 1 15 %d" % 0x01150282, "7"),
    ("q 1 15 6 %d" % 0x01150282, "stop 7 0 4242 4242 4242 4242 4242 4242"),
    ("q 1 15 7 %d" % 0x01150282, "7 0 2 3 6 1 3 3"),
    ("q 1 15 8 %d" % 0x01150282, "7 0 2 3 6 1 3 3 4242"),
    ("c 2 26 %d" % 0x4C0058F1, "3"),
    # In fixed k = 3 the zeros 0/1, -0/1 and 0/7 have the one quotient 0.
    ("c 1 3 1", "1"),
    ("c 1 3 129", "1"),
    ("c 1 3 7", "1"),
    # The infinities 1/0, -1/0 and 3/0 have none, nor have 0/0, 0/2 and 2/0.
    ("c 1 3 16", "0"),
    ("c 1 3 144", "0"),
    ("c 1 3 48", "0"),
    ("c 1 3 0", "0"),
    ("c 1 3 2", "0"),
    ("c 1 3 32", "0"),
    # 1/1 and 2/2 are [1], 2/1 is [2], 1/3 and 2/6 are [0,3], 7/5 is [1,2,2]; 5/7 is
    # [0,1,2,2], and so is -5/7 with its mark.
    ("c 1 3 17", "1"),
    ("c 1 3 34", "1"),
    ("c 1 3 33", "1"),
    ("c 1 3 19", "2"),
    ("c 1 3 38", "2"),
    ("c 1 3 117", "3"),
    ("c 1 3 87", "4"),
    ("c 1 3 223", "4"),
    # Floating k = 2 has 0/1 and 1/1, then infinity and not-a-number.
    ("C 2 2", " ".join(["1 1 0 0"] * 4)),
    ("C 2 3", " ".join([SMALL_COUNTS] * 4)),
    # Stops: 1 before 4 and 5, then 4 before 5.
    ("c 3 3 0", "stop 1 0"),
    ("c 1 1 %d" % LARGEST, "stop 1 0"),
    ("c 1 32 0", "stop 1 0"),
    ("c 2 33 %d" % LARGEST, "stop 1 0"),
    ("c 1 3 256", "stop 4 0"),
    ("c 2 3 64", "stop 4 0"),
    ("c 2 3 8", "stop 5 0"),
    ("c 2 3 72", "stop 4 0"),
    # The largest word is good in fixed k = 31 alone, where both its parts are alike.
    ("c 1 31 %d" % LARGEST, "1"),
    ("c 1 30 %d" % LARGEST, "stop 4 0"),
    ("c 2 32 %d" % LARGEST, "stop 4 0"),
]


def check_counts():
    """Asserts everything below."""
    check_counted_answers()
    check_unknown_formats()
    for form in small_formats(4, 6):
        check_every_word(form)
        check_most_quotients(form)
    rng = random.Random(162)
    for form in slash.all_formats():
        check_chosen_words(rng, form)
        check_stopping_words(form)


def check_counted_answers():
    """Asserts the answers that were worked out by hand."""
    for line, expected in COUNTED_ANSWERS:
        assert answer(line) == expected, (line, expected, answer(line))


def check_unknown_formats():
    """Asserts that an unknown format stops with 1, whatever the word."""
    for unknown in UNKNOWN_FORMATS:
        for word in (0, 8, LARGEST):
            assert answer(request("c", *unknown, word)) == "stop 1 0", unknown


# Good words.


def check_every_word(form):
    """Asserts of all words of a format what is asserted of one."""
    for word in range(2 ** slash.width(form)):
        if is_undefined(form, word):
            check_stopped(form, word, UNDEFINED_SLASH_POSITION)
        else:
            check_word(form, word)


def is_undefined(form, word):
    """Whether a word's slash position lies between k - 1 and 2^L - 2."""
    if form.kind == FIXED:
        return False
    e = slash.floating_fields(form.k, word)[2]
    return form.k - 1 <= e <= 2 ** slash.slash_width(form.k) - 2


def check_chosen_words(rng, form):
    """Asserts of edge, random and long words of a format what is asserted of one."""
    words = random_edge_words(rng, form)
    words += long_words(form, SMALL_QUOTIENTS)
    words += [random_word(rng, form) for _ in range(RANDOM_WORDS)]
    for word in words:
        check_word(form, word)


def check_word(form, word):
    """Asserts a good word's count: that of its quotients, and never above 2k."""
    count = operations.quotient_count(form, word)
    quotients = operations.quotients_of(form, word)
    assert count == len(quotients) <= 2 * form.k, (form, word)
    for length in range(2 * form.k + 2):
        check_list(form, word, length, quotients)


def check_list(form, word, length, quotients):
    """Asserts what CR 6 says of a list of some length and the count.

    Stop 7 falls on the list if it is shorter, and leaves it as it was; every other
    list gets the count and the quotients, and keeps its rest.
    """
    count = operations.quotient_count(form, word)
    lent = [LENT] * length
    if length < count:
        stop = stop_of(operations.lend_quotients, form, word, lent)
        assert stop == LIST_TOO_SHORT, (form, word, length)
        assert lent == [LENT] * length, (form, word, length)
    else:
        got = operations.lend_quotients(form, word, lent)
        assert got == count, (form, word, length)
        assert lent == quotients + [LENT] * (length - count), (form, word, length)


def check_most_quotients(form):
    """Asserts that no word of a format has more than Fibonacci numbers make."""
    words = range(2 ** slash.width(form))
    good = [word for word in words if not is_undefined(form, word)]
    most = max(operations.quotient_count(form, word) for word in good)
    longest = [operations.quotient_count(form, word) for word in long_words(form, [1])]
    assert most == max(longest), form


# Words that stop.


def check_stopping_words(form):
    """Asserts stop 4 for bits above the width, also before 5, and stop 5."""
    beyond, undefined = beyond_words(form), undefined_words(form)
    both = [word + 2 ** slash.width(form) for word in undefined]
    for word in beyond + both:
        check_stopped(form, word, BITS_ABOVE_WIDTH)
    for word in undefined:
        check_stopped(form, word, UNDEFINED_SLASH_POSITION)


def check_stopped(form, word, number):
    """Asserts that the count stops so, and a list too, long enough or not."""
    assert stop_of(operations.quotient_count, form, word) == number, (form, word)
    for length in (0, 2 * form.k):
        lent = [LENT] * length
        stop = stop_of(operations.lend_quotients, form, word, lent)
        assert stop == number, (form, word, length)
        assert lent == [LENT] * length, (form, word, length)
