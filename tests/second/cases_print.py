"""The cases on words that are printed: requests of the program night_cases, and its answers.

P<recipe> prints the listing of words, each eight of the recipe's bytes, the highest first. The
last word is the total's. Recipes and comments are those of cases_night.py.
"""

import random
from itertools import combinations

import cases_night
import listings
import slash
from answers import stop_text
from cases_common import chosen
from cases_load import GOOD_WORDS, every_kind_of_word, random_listed, stored
from cases_night import LONGEST_RECORDING, SHOWN_RATIOS
from listings import VOID
from night import MOST_BREATHS

# The bytes of a word.
BYTES = 8

# Words that no listing has: with sign 1, a zero with a message, unreduced, above 1, and of 33 bits.
BAD_WORDS = [0x80010002, 0x00000003, 0x00020004, 0x00030002, 0x100010002]


# Requests and what is printed for them.


def requests():
    """The lines of the test program's input: a comment and a request for each case."""
    return cases_night.asked(GROUPS, request)


def answers():
    """What the test program prints, as bytes, for each of those lines."""
    return cases_night.answered(GROUPS, answer)


def request(pieces):
    """The line that asks for words to be printed."""
    return "P" + cases_night.recipe(pieces)


def answer(pieces):
    """The listing of the words, or the stop."""
    *words, total = words_of(cases_night.recording(pieces))
    try:
        return cases_night.shown(listings.print_words(words, total))
    except slash.Stop as stop:
        return stop_text(stop).encode("ascii") + b"\n"


def words_of(text):
    """The words that the bytes are."""
    assert text and len(text) % BYTES == 0
    starts = range(0, len(text), BYTES)
    return [int.from_bytes(text[start : start + BYTES], "big") for start in starts]


def repeated(count, word):
    """The piece of a word so many times."""
    return count, word.to_bytes(BYTES, "big")


def each_once(*words):
    """The pieces of these words, the total's last."""
    return cases_night.once(*(word.to_bytes(BYTES, "big") for word in words))


# 1. Words of each kind.


def empty_night_printed():
    """No word but the total's, and that void: the listing of an empty night, by several recipes."""
    total = repeated(1, VOID)
    yield [total]
    yield [(BYTES, b"\0")]
    yield [repeated(0, stored(277, 642)), total]
    yield [repeated(0, VOID), total, repeated(0, BAD_WORDS[0])]


def good_words_printed():
    """Words that a listing can have, as a breath's and as the total's."""
    for word in GOOD_WORDS:
        yield each_once(word, word)
        yield each_once(word, VOID)
        yield each_once(VOID, VOID, word)
    yield each_once(*GOOD_WORDS, stored(277, 642))


def small_words_printed():
    """Each small word as a breath's and as the total's."""
    for word in range(41):
        yield each_once(word, VOID)
        yield each_once(VOID, word)


def kinds_of_word_printed():
    """Edge words, each bit alone and each bit turned, as a breath's and as the total's."""
    for word in every_kind_of_word():
        yield each_once(word, VOID)
        yield each_once(stored(1, 2), word)


def words_above_32_bits():
    """Good words but for one higher bit or all of them, as a breath's and as the total's."""
    highs = [2**place for place in (32, 33, 47, 48, 62, 63)] + [2**64 - 2**32]
    for word in GOOD_WORDS[:7]:
        for high in highs:
            yield each_once(word + high, VOID)
            yield each_once(word, word + high)
    yield each_once(2**64 - 1, VOID)
    yield each_once(VOID, 2**64 - 1)


def totals_alone():
    """No word but the total's, whatever that is but void: 14, and never 15."""
    highs = [2**place for place in range(32, 64)] + [2**64 - 2**32, 2**64 - 1]
    words = [*GOOD_WORDS, *BAD_WORDS, *range(2, 9), *every_kind_of_word(), *highs]
    for word in sorted({*words} - {VOID}):
        yield each_once(word)


# 2. Words that no listing has, at each place.


def bad_words_at_each_place():
    """Such a word at each place, the total's among them, and two of them."""
    good = [VOID, stored(277, 642), stored(0, 1, 1), stored(1, 1), stored(1, 16, 1)]
    for bad in BAD_WORDS:
        for place in range(len(good)):
            yield each_once(*good[:place], bad, *good[place + 1 :])
    for first, second in combinations(range(len(good)), 2):
        words = list(good)
        words[first], words[second] = BAD_WORDS[0], BAD_WORDS[-1]
        yield each_once(*words)


# 3. As many words as there can be, and more.


def most_words():
    """65,535 breaths, 65,536 and more, with good totals and with bad ones."""
    good = stored(277, 642, 1)
    for count in (MOST_BREATHS - 1, MOST_BREATHS, MOST_BREATHS + 1):
        yield [repeated(count, good), repeated(1, VOID)]
        yield [repeated(count, VOID), repeated(1, BAD_WORDS[0])]
    yield [repeated(MOST_BREATHS, VOID), repeated(1, good)]
    yield [repeated(LONGEST_RECORDING // BYTES, VOID)]


def bad_words_among_most():
    """Bad words at the first place, and at places 65,535 to 65,538."""
    for bad in BAD_WORDS[:1] + BAD_WORDS[-1:]:
        for before in (0, MOST_BREATHS - 2, MOST_BREATHS - 1, MOST_BREATHS, MOST_BREATHS + 1):
            yield [repeated(before, VOID), repeated(1, bad), repeated(3, VOID)]
    yield [repeated(1, BAD_WORDS[0]), repeated(MOST_BREATHS + 1, VOID)]


def numbers_printed():
    """Numbers of each length, and a bad word and a bad total behind so many."""
    for count in (9, 10, 99, 100, 999, 1000, 9999, 10_000):
        yield [repeated(count, VOID), repeated(1, VOID)]
        yield [repeated(count, VOID), repeated(1, BAD_WORDS[1]), repeated(1, VOID)]
        yield [repeated(count, VOID), repeated(1, BAD_WORDS[1])]


# 4. Ties and random words.


def ties_printed():
    """Every tie, and the held ratios next to each, with both marks."""
    ties = cases_night.ties()
    ratios = [ratio for tie in ties for ratio in (tie, *cases_night.next_to(*tie))]
    for start in range(0, len(ratios), SHOWN_RATIOS):
        some = enumerate(ratios[start : start + SHOWN_RATIOS])
        yield each_once(*(stored(*ratio, place % 2) for place, ratio in some), VOID)


def random_words_printed():
    """Up to 40 words that a listing can have, and sometimes one of any 32 bits among them."""
    rng = random.Random(94)
    for number in range(100):
        words = [random_listed(rng) for _ in range(chosen(rng, range(2, 42)))]
        if number % 3 == 0:
            words[chosen(rng, range(len(words)))] = rng.getrandbits(32)
        yield each_once(*words)


GROUPS = [
    empty_night_printed,
    good_words_printed,
    small_words_printed,
    kinds_of_word_printed,
    words_above_32_bits,
    totals_alone,
    bad_words_at_each_place,
    most_words,
    bad_words_among_most,
    numbers_printed,
    ties_printed,
    random_words_printed,
]
