"""The cases on the count of partial quotients, CR 6 of 02, as request lines."""

import random

import slash
from cases_common import (
    END_FORMATS,
    LARGEST,
    UNKNOWN_FORMATS,
    asked_once,
    beyond_words,
    fraction_word,
    random_edge_words,
    random_word,
    request,
    small_formats,
    stopping_words,
    undefined_words,
)
from cases_unary import (
    SMALL_QUOTIENTS,
    lists_about_the_count,
    long_words,
    multiple_pair,
)
from slash import FLOATING, Format


def requests():
    """All request lines in order, each asked once."""
    return asked_once(GROUPS)


# Request lines.


def counted(form, word):
    """A good word's count, and the lists that show it to be the least long enough."""
    yield request("c", *form, word)
    yield from lists_about_the_count(form, word)


# 1. Every word of the small formats.


def counts_of_every_word():
    """The counts of all words of the small formats."""
    for form in small_formats(4, 6):
        yield request("C", *form)


def lists_for_every_word():
    """All words of the small formats; where one stops, the count alone is asked."""
    for form in small_formats(4, 6):
        for word in range(2 ** slash.width(form)):
            if is_good(form, word):
                yield from counted(form, word)
            else:
                yield request("c", *form, word)


def is_good(form, word):
    """Whether reading a word doesn't stop."""
    try:
        slash.read_word(form, word)
        return True
    except slash.Stop:
        return False


# 2. Edge, random and long words of every format.


def counts_of_edges():
    """The edge words of every format."""
    rng = random.Random(160)
    for form in slash.all_formats():
        for word in random_edge_words(rng, form):
            yield from counted(form, word)


def counts_of_random_words():
    """Random words of every format, and a fraction with a large common divisor."""
    rng = random.Random(161)
    for form in slash.all_formats():
        for _ in range(2):
            yield from counted(form, random_word(rng, form))
        yield from counted(form, fraction_word(rng, form, multiple_pair(rng, form)))


def counts_of_long_words():
    """The words with the most quotients, and others with many, of every format.

    Fibonacci numbers make the most. The lists for the others are in cases_unary.
    """
    for form in slash.all_formats():
        for word in long_words(form, [1]):
            yield from counted(form, word)
        for word in long_words(form, SMALL_QUOTIENTS):
            yield request("c", *form, word)


# 3. Stops.


def counts_of_unknown_formats():
    """Stop 1, which comes before 4 and 5, and the ends of both kinds.

    Where the kind is taken for a floating one by its lowest bits, the undefined word
    would earn 5.
    """
    undefined = undefined_words(Format(FLOATING, 3))[0]
    for unknown in UNKNOWN_FORMATS:
        for word in (0, undefined, LARGEST):
            yield request("c", *unknown, word)
    for form in END_FORMATS:
        yield request("c", *form, 1)


def counts_of_stopping_words():
    """Stops 4 and 5, 4 before 5, and the largest word, which fixed k = 31 reads."""
    for form in slash.all_formats():
        words = beyond_words(form) + undefined_words(form) + stopping_words(form)
        for word in [*words, LARGEST]:
            yield request("c", *form, word)


GROUPS = [
    counts_of_every_word,
    lists_for_every_word,
    counts_of_edges,
    counts_of_random_words,
    counts_of_long_words,
    counts_of_unknown_formats,
    counts_of_stopping_words,
]
