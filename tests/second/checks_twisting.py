"""Checks of twisted storage: what CR 4 of 02 and document 004 say of it."""

import random

import slash
import vectors
from answers import LENT, answer
from cases_common import chosen
from cases_twisting import (
    EXAMPLE_FORMAT,
    EXAMPLE_POSITION,
    FIXED_FORMATS,
    FLOATING_FORMATS,
    PLAIN_FIELD,
    TWIST,
    TWISTED_FIELD,
    UNTWIST,
    signs_and_marks,
)
from slash import INFINITY, NOT_A_NUMBER, Stop
from twisting import twist, untwist

# The most bits of the formats whose words are all looked at.
MOST_BITS = 12

# The random words that are looked at of each format.
RANDOM_WORDS = 200

# Worked out by hand from CR 4.
TWISTED_ANSWERS = [
    # 355 is 101100011 and 113 is 1110001; without its leading bit and turned, 100011.
    ("t 2 26 1 %d" % 0b0_1_00110_0000000000101100011110001, "4d180163"),
    ("t 2 26 2 %d" % 0b0_1_00110_1000110000000000101100011, "4c0058f1"),
    # k = 2 has one bit of field, which is the numerator's or a special value's.
    ("T 2 2 1", "0 1 2 3 4 5 6 7 8 9 a b c d e f"),
    ("T 2 2 2", "0 1 2 3 4 5 6 7 8 9 a b c d e f"),
    # k = 4, slash position 1: n n d becomes d n n; 2: n d d becomes its reverse; 3: unaltered.
    ("t 2 4 1 %d" % 0b1_0_01_110, "%x" % 0b1_0_01_011),
    ("t 2 4 2 %d" % 0b1_0_01_110, "%x" % 0b1_0_01_101),
    ("t 2 4 1 %d" % 0b0_1_10_110, "%x" % 0b0_1_10_011),
    ("t 2 4 2 %d" % 0b0_1_10_110, "%x" % 0b0_1_10_011),
    ("t 2 4 1 %d" % 0b1_1_11_110, "%x" % 0b1_1_11_110),
    # A zero's message is carried as any denominator is, and no word is made canonical.
    ("t 2 5 1 %d" % 0b0_0_011_0_001, "%x" % 0b0_0_011_100_0),
    ("t 2 5 1 %d" % 0b0_0_010_10_10, "%x" % 0b0_0_010_01_10),
    # Stops: 1 for a fixed format too, before 4; then 4 before 5.
    ("t 3 3 1 64", "stop 1 0"),
    ("t 1 3 1 19", "stop 1 0"),
    ("t 1 3 2 256", "stop 1 0"),
    ("t 2 3 1 8", "stop 5 0"),
    ("t 2 3 2 64", "stop 4 0"),
    ("t 2 3 2 72", "stop 4 0"),
    # Vectors in floating k = 3: width 6; slash position 2, words 8 to 11, is undefined.
    ("e 2 3 1 2 2 5 6 7 8", "done done 6 5"),
    ("e 2 3 2 3 3 0 63 38 7 8 9", "done done 0 3f 25"),
    ("e 2 3 2 0 0", "done done"),
    ("e 2 3 1 2 2 8 64 7 8", "stop 5 0 stop 5 0 7 8"),
    ("e 2 3 2 2 2 64 8 7 8", "stop 4 0 stop 4 0 7 8"),
    ("e 2 3 2 2 2 0 72 7 8", "stop 4 1 stop 4 1 7 8"),
    ("e 2 3 1 2 1 64 8 7", "stop 4 0 stop 3 0 7"),
    ("e 2 3 1 1 2 5 7 8", "done stop 3 0 7 8"),
    ("e 1 3 1 1 1 19 7", "done stop 1 0 7"),
    ("e 1 3 2 1 2 256 7 8", "stop 4 0 stop 1 0 7 8"),
    ("e 3 3 1 2 1 64 64 7", "stop 1 0 stop 1 0 7"),
]


def check_twisting():
    """Asserts everything below."""
    check_twisted_answers()
    check_example()
    for form in FLOATING_FORMATS:
        if slash.width(form) <= MOST_BITS:
            check_every_word(form)
        check_random_words(form)
        check_vectors_twisted(form)
    check_fixed()


def check_twisted_answers():
    """Asserts the answers that were worked out by hand."""
    for request, expected in TWISTED_ANSWERS:
        assert answer(request) == expected, (request, expected, answer(request))


def check_example():
    """Asserts CR 4's fields of 355/113, with both signs and marks."""
    for sign, mark in signs_and_marks():
        plain = slash.pair_word(EXAMPLE_FORMAT, sign, (355, 113), mark)
        rest = sign, mark, EXAMPLE_POSITION
        twisted = slash.floating_word(EXAMPLE_FORMAT.k, *rest, TWISTED_FIELD)
        assert plain == slash.floating_word(EXAMPLE_FORMAT.k, *rest, PLAIN_FIELD)
        assert twist(EXAMPLE_FORMAT, plain) == twisted
        assert untwist(EXAMPLE_FORMAT, twisted) == plain


# Words.


def check_every_word(form):
    """Asserts both ways of all words of a format; both lead to each good word once."""
    good = [word for word in range(2 ** slash.width(form) + 1) if is_good(form, word)]
    for word in good:
        check_word(form, word)
    assert sorted(twist(form, word) for word in good) == good, form
    assert sorted(untwist(form, word) for word in good) == good, form


def check_random_words(form):
    """Asserts both ways of random words of a format, half of them with a defined position."""
    rng = random.Random(122)
    for _ in range(RANDOM_WORDS):
        word = rng.getrandbits(slash.width(form))
        sign, mark, _, f = slash.floating_fields(form.k, word)
        e = chosen(rng, range(form.k - 1))
        check_word(form, slash.floating_word(form.k, sign, mark, e, f))
        if is_good(form, word):
            check_word(form, word)
        else:
            assert stop_of(twist, form, word) == stop_of(untwist, form, word) == 5


def is_good(form, word):
    """Whether a word doesn't stop; both ways have the stops of reading it as a plain one."""
    stop = stop_of(slash.read_word, form, word)
    assert stop_of(twist, form, word) == stop_of(untwist, form, word) == stop, (form, word)
    return stop is None


def stop_of(call, *arguments):
    """The number of a call's stop; None if it has none."""
    try:
        call(*arguments)
        return None
    except Stop as stop:
        assert stop.place == 0
        return stop.number


def check_word(form, word):
    """Asserts what both ways make of a good word, and that each undoes the other."""
    twisted = twist(form, word)
    assert untwist(form, twisted) == word, (form, word)
    assert twist(form, untwist(form, word)) == word, (form, word)
    *rest, e, field = slash.floating_fields(form.k, twisted)
    assert [*rest, e] == list(slash.floating_fields(form.k, word)[:3]), (form, word)
    value = slash.read_word(form, word)
    if value.value_class in (INFINITY, NOT_A_NUMBER):
        assert twisted == untwist(form, word) == word, (form, word)
        return
    # The numerator stands at the right: it is masked out. A zero's is 0.
    assert field % 2 ** (form.k - 1 - e) == value.numerator, (form, word)
    assert field == field_by_bits(form.k, word), (form, word)
    # 004: exact whole numbers stand the same in both layouts.
    assert e > 0 or twisted == word, (form, word)


def field_by_bits(k, word):
    """The twisted field of a finite word, bit by bit.

    Of its k - 1 bits the leftmost is bit k - 2, and the lowest bit of the denominator
    stands there; so bit i of the denominator, for each i below e, is bit k - 2 - i.
    """
    _, _, e, f = slash.floating_fields(k, word)
    field = f // 2**e
    for i in range(e):
        field += f // 2**i % 2 * 2 ** (k - 2 - i)
    return field


# Vectors and fixed formats.


def check_vectors_twisted(form):
    """Asserts that a vector's places are the words', both ways."""
    rng = random.Random(123)
    es = [chosen(rng, range(form.k - 1)) for _ in range(9)]
    fields = [(0, 1, e, rng.getrandbits(form.k - 1)) for e in es]
    words = [slash.floating_word(form.k, *each) for each in fields]
    for way, call in ((TWIST, twist), (UNTWIST, untwist)):
        out = [LENT] * len(words)
        vectors.twist_each(*form, way, words, out)
        assert out == [call(form, word) for word in words], (form, way)


def check_fixed():
    """Asserts that a fixed format stops with 1, whatever the word and the lengths."""
    for form in FIXED_FORMATS:
        for word in (0, 1, 2**64 - 1):
            assert stop_of(twist, form, word) == stop_of(untwist, form, word) == 1
            for way in (TWIST, UNTWIST):
                assert stop_of(vectors.twist_each, *form, way, [word], [LENT]) == 1
                assert stop_of(vectors.twist_each, *form, way, [word], []) == 1
