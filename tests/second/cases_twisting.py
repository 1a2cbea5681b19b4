"""The cases on twisted storage, CR 4 of 02, as request lines."""

import random

import slash
import twisting
from cases_common import (
    END_FORMATS,
    LARGEST,
    UNKNOWN_FORMATS,
    asked_once,
    beyond_words,
    chosen,
    edge_words,
    random_edge_words,
    random_word,
    request,
    stopping_words,
    undefined_words,
)
from cases_vectors import (
    LENGTHS,
    LONGEST_LINE,
    UNDEFINING,
    bad_words,
    lent,
    vector,
    with_word,
)
from slash import FIXED, FLOATING, Format

TWIST, UNTWIST = WAYS = (1, 2)

# The paper's example, 355/113 in k = 26: its slash position and both its fields.
EXAMPLE_FORMAT = Format(FLOATING, 26)
EXAMPLE_POSITION = 6
PLAIN_FIELD = 22769
TWISTED_FIELD = 18350435

FIXED_FORMATS = [form for form in slash.all_formats() if form.kind == FIXED]
FLOATING_FORMATS = [form for form in slash.all_formats() if form.kind == FLOATING]

# The least and largest k, those about the powers of two, where L grows, and the paper's.
CHOSEN_KS = (2, 3, 4, 5, 8, 9, 16, 17, 26, 31, 32)
CHOSEN = [form for form in FLOATING_FORMATS if form.k in CHOSEN_KS]

# The largest k of the floating formats whose words are all asked for.
LARGEST_SMALL_K = 8

# The places of the longest vectors.
MOST_PLACES = LENGTHS[-1]


def requests():
    """All request lines in order, each asked once."""
    lines = asked_once(GROUPS)
    assert max(map(len, lines)) < LONGEST_LINE
    return lines


# Request lines.


def word_request(form, way, word):
    """t: one word, one way."""
    return request("t", *form, way, word)


def both_ways(form, word):
    """One word as a plain one and as a twisted one."""
    return [word_request(form, way, word) for way in WAYS]


def vector_request(form, way, operand, out):
    """e: a vector, one way."""
    return request("e", *form, way, len(operand), len(out), *operand, *out)


def vectors_both_ways(form, words):
    """The words as plain ones and as twisted ones, in vectors as long as there are."""
    for start in range(0, len(words), MOST_PLACES):
        operand = words[start : start + MOST_PLACES]
        for way in WAYS:
            yield vector_request(form, way, operand, lent(len(operand)))


# Words.


def signs_and_marks():
    """Each sign with each mark."""
    return [(sign, mark) for sign in (0, 1) for mark in (0, 1)]


def positions(form):
    """The slash positions of the words that have a numerator and a denominator."""
    return range(form.k - 1)


def field_word(rng, form, e, f):
    """The floating word of a slash position and a field, with a random sign and mark."""
    sign, mark = rng.getrandbits(1), rng.getrandbits(1)
    return slash.floating_word(form.k, sign, mark, e, f)


def random_field(rng, form):
    """Any field of a format's words."""
    return rng.getrandbits(form.k - 1)


def last_position(form):
    """The slash position of infinities and not-a-numbers."""
    return 2 ** slash.slash_width(form.k) - 1


# 1. The paper's example.


def twisted_example():
    """355/113 in k = 26 with both signs and marks, each of its layouts taken as either."""
    for sign, mark in signs_and_marks():
        for f in (PLAIN_FIELD, TWISTED_FIELD):
            word = slash.floating_word(EXAMPLE_FORMAT.k, sign, mark, EXAMPLE_POSITION, f)
            yield from both_ways(EXAMPLE_FORMAT, word)


def example_in_every_format():
    """355/113, 113/355 and 1/113 in the formats that hold them, there and back."""
    rng = random.Random(100)
    for form in FLOATING_FORMATS:
        for pair in ((355, 113), (113, 355), (1, 113)):
            if slash.holds(form, *pair):
                sign, mark = rng.getrandbits(1), rng.getrandbits(1)
                word = slash.pair_word(form, sign, pair, mark)
                yield word_request(form, TWIST, word)
                yield word_request(form, UNTWIST, twisting.twist(form, word))


# 2. Every word of the small formats.


def every_twisted_word():
    """All words of the small floating formats, both ways, and of two fixed ones."""
    small = [form for form in FLOATING_FORMATS if form.k <= LARGEST_SMALL_K]
    for form in small + FIXED_FORMATS[:2]:
        for way in WAYS:
            yield request("T", *form, way)


# 3. Words of every floating format.


def every_slash_position():
    """Every slash position that has parts, with a field of ones and a random one."""
    rng = random.Random(101)
    for form in FLOATING_FORMATS:
        for e in positions(form):
            for f in (2 ** (form.k - 1) - 1, random_field(rng, form)):
                yield from both_ways(form, field_word(rng, form, e, f))


def fields_of_zeros():
    """Every slash position of the chosen formats with a field of zeros."""
    rng = random.Random(102)
    for form in CHOSEN:
        words = [field_word(rng, form, e, 0) for e in positions(form)]
        yield from vectors_both_ways(form, words)


def single_bits():
    """Each bit of the field alone, and each missing alone, in every format."""
    rng = random.Random(103)
    for form in FLOATING_FORMATS:
        for place in positions(form):
            for f in (2**place, 2 ** (form.k - 1) - 1 - 2**place):
                e = chosen(rng, positions(form))
                yield word_request(form, chosen(rng, WAYS), field_word(rng, form, e, f))


def single_bits_at_every_position():
    """Each bit of the field alone with every slash position, in the chosen formats."""
    rng = random.Random(104)
    for form in CHOSEN:
        places = [(e, place) for e in positions(form) for place in positions(form)]
        words = [field_word(rng, form, e, 2**place) for e, place in places]
        yield from vectors_both_ways(form, words)


def parts_of_ones():
    """The numerator's bits alone and the denominator's alone, with every slash position."""
    rng = random.Random(105)
    for form in CHOSEN:
        words = []
        for e in positions(form):
            denominator = 2**e - 1
            numerator = 2 ** (form.k - 1) - 1 - denominator
            words += [field_word(rng, form, e, f) for f in (numerator, denominator)]
        yield from vectors_both_ways(form, words)


def edges_of_every_floating_format():
    """Each edge word, one way or the other: special values and messages among them."""
    rng = random.Random(106)
    for form in FLOATING_FORMATS:
        for word in random_edge_words(rng, form):
            yield word_request(form, chosen(rng, WAYS), word)


def edges_of_the_chosen_formats():
    """Each edge word of the chosen formats with both signs and marks, both ways."""
    for form in CHOSEN:
        words = [word for each in signs_and_marks() for word in edge_words(form, *each)]
        yield from vectors_both_ways(form, words)


def zeros_with_messages():
    """Zeros of every slash position with any message, and the same fields untwisted."""
    rng = random.Random(107)
    for form in FLOATING_FORMATS:
        zeros = [field_word(rng, form, e, rng.getrandbits(e)) for e in positions(form)[1:]]
        yield from vectors_both_ways(form, zeros)


def unaltered_words():
    """Infinities and not-a-numbers with any message, and with one of ones alone."""
    rng = random.Random(108)
    for form in FLOATING_FORMATS:
        e, end = last_position(form), 2 ** (form.k - 1)
        for f in (0, 1, end - 1, end - 2, random_field(rng, form)):
            yield from both_ways(form, field_word(rng, form, e, f))


def there_and_back():
    """Random words each way and back."""
    rng = random.Random(109)
    for form in FLOATING_FORMATS:
        for _ in range(3):
            e = chosen(rng, positions(form))
            word = field_word(rng, form, e, random_field(rng, form))
            yield from both_ways(form, word)
            yield word_request(form, UNTWIST, twisting.twist(form, word))
            yield word_request(form, TWIST, twisting.untwist(form, word))


def random_fractions_twisted():
    """The words of random fractions as plain ones, and what they twist to."""
    rng = random.Random(110)
    for form in FLOATING_FORMATS:
        for _ in range(3):
            word = random_word(rng, form)
            yield word_request(form, TWIST, word)
            yield word_request(form, UNTWIST, twisting.twist(form, word))


# 4. Stops of words.


def twists_of_unknown_formats():
    """Stop 1, which comes before all others."""
    for unknown in UNKNOWN_FORMATS:
        for word in (0, LARGEST):
            yield from both_ways(unknown, word)
    for form in END_FORMATS:
        yield from both_ways(form, 1)


def twists_of_fixed_formats():
    """Stop 1 for every fixed format, before stop 4."""
    rng = random.Random(111)
    for form in FIXED_FORMATS:
        for word in [0, random_word(rng, form), *beyond_words(form)]:
            yield word_request(form, chosen(rng, WAYS), word)
    for form in (FIXED_FORMATS[0], FIXED_FORMATS[-1]):
        for word in (1, LARGEST):
            yield from both_ways(form, word)


def twists_of_stopping_words():
    """Stops 4 and 5, and 4 before 5, both ways."""
    for form in FLOATING_FORMATS:
        words = beyond_words(form) + undefined_words(form) + stopping_words(form)
        for word in dict.fromkeys(words):
            yield from both_ways(form, word)


def undefined_positions():
    """Every undefined slash position, one way or the other, with any field."""
    rng = random.Random(112)
    for form in FLOATING_FORMATS:
        for e in range(form.k - 1, last_position(form)):
            word = field_word(rng, form, e, random_field(rng, form))
            yield word_request(form, chosen(rng, WAYS), word)


# 5. Vectors.


def good_twisted_vectors():
    """Good vectors of every length, both ways, and the results of each the other way."""
    rng = random.Random(113)
    for form in CHOSEN:
        for length in LENGTHS:
            plain = vector(rng, form, length)
            twisted = [twisting.twist(form, word) for word in plain]
            yield vector_request(form, TWIST, plain, lent(length))
            yield vector_request(form, UNTWIST, twisted, lent(length))
            yield vector_request(form, UNTWIST, plain, lent(length))


def every_length_twisted():
    """Every length from 0 to the longest, in every floating format by turns."""
    rng = random.Random(114)
    for i, form in enumerate(FLOATING_FORMATS):
        length = i % (MOST_PLACES + 1)
        for way in WAYS:
            yield vector_request(form, way, vector(rng, form, length), lent(length))


def one_word_everywhere_twisted():
    """Vectors of one word, and vectors where one place alone is another."""
    rng = random.Random(115)
    for form in (Format(FLOATING, 5), EXAMPLE_FORMAT):
        word, other = random_word(rng, form), random_word(rng, form)
        same = [word] * 7
        yield vector_request(form, TWIST, same, lent(7))
        for place in range(7):
            odd = with_word(same, place, other)
            yield vector_request(form, chosen(rng, WAYS), odd, lent(7))


def bad_words_lent_to_twists():
    """The result's words before the call are none of its business."""
    rng = random.Random(116)
    for form in CHOSEN:
        out = [LARGEST, *undefined_words(form), LARGEST, LARGEST][:3]
        for way in WAYS:
            yield vector_request(form, way, vector(rng, form, 3), out)


def a_bad_word_at_each_place_twisted():
    """One bad word at each place, of the longest vectors in two formats."""
    rng = random.Random(117)
    for form in CHOSEN:
        bad = bad_words(form)
        for length in (1, 2, MOST_PLACES) if form in UNDEFINING else (2,):
            for place in range(length):
                worse = with_word(vector(rng, form, length), place, chosen(rng, bad))
                for way in WAYS:
                    yield vector_request(form, way, worse, lent(length))


def two_bad_words_twisted():
    """4 against 5 at two places: the lower place decides, whichever stop it has."""
    rng = random.Random(118)
    for form in UNDEFINING:
        for here, there in pairs_of_bad_words(form):
            for i in range(3):
                for j in range(i + 1, 4):
                    good = vector(rng, form, 4)
                    worse = with_word(with_word(good, i, here), j, there)
                    yield vector_request(form, chosen(rng, WAYS), worse, lent(4))


def pairs_of_bad_words(form):
    """A word with stop 4 and one with 5, one with both and one with 5, each both ways round."""
    beyond, undefined = beyond_words(form)[-1], undefined_words(form)[0]
    both = stopping_words(form)[-1]
    pairs = (beyond, undefined), (both, undefined)
    return [pair for first, second in pairs for pair in ((first, second), (second, first))]


def bad_words_alone_twisted():
    """Vectors of bad words only."""
    rng = random.Random(119)
    for form in CHOSEN:
        for length in (1, 2, MOST_PLACES):
            worse = [chosen(rng, bad_words(form)) for _ in range(length)]
            yield vector_request(form, chosen(rng, WAYS), worse, lent(length))


def unequal_results_twisted():
    """Stop 3 before 4 and 5: a result that is shorter, longer or as long."""
    rng = random.Random(120)
    for form in UNDEFINING:
        bad = bad_words(form)
        for m, n in lengths_to_try():
            good, worse = vector(rng, form, m), [chosen(rng, bad) for _ in range(m)]
            for operand in (good, worse):
                yield vector_request(form, chosen(rng, WAYS), operand, lent(n))


def lengths_to_try():
    """The lengths of an operand and of a result, mostly unequal."""
    lengths = [(m, n) for m in range(4) for n in range(4)]
    return lengths + [(16, 15), (15, 16), (0, 16), (16, 0), (16, 16)]


def vectors_of_unknown_formats():
    """Stop 1 before all others, and without any word."""
    bad = [LARGEST, LARGEST]
    for unknown in UNKNOWN_FORMATS:
        for way in WAYS:
            yield vector_request(unknown, way, [1, 1], lent(2))
            yield vector_request(unknown, way, bad, lent(1))
            yield vector_request(unknown, way, [], [])
    for form in END_FORMATS:
        for way in WAYS:
            yield vector_request(form, way, [1], lent(1))


def vectors_of_fixed_formats():
    """Stop 1 before 3 and 4, though the check of the words alone knows the format."""
    rng = random.Random(121)
    for form in FIXED_FORMATS:
        good = vector(rng, form, 3)
        bad = with_word(good, chosen(rng, range(3)), chosen(rng, [LARGEST, *bad_words(form)]))
        for operand in (good, bad):
            for length in (3, 2):
                yield vector_request(form, chosen(rng, WAYS), operand, lent(length))
    for way in WAYS:
        yield vector_request(FIXED_FORMATS[0], way, [], [])
        yield vector_request(FIXED_FORMATS[-1], way, [], lent(1))


GROUPS = [
    twisted_example,
    example_in_every_format,
    every_twisted_word,
    every_slash_position,
    fields_of_zeros,
    single_bits,
    single_bits_at_every_position,
    parts_of_ones,
    edges_of_every_floating_format,
    edges_of_the_chosen_formats,
    zeros_with_messages,
    unaltered_words,
    there_and_back,
    random_fractions_twisted,
    twists_of_unknown_formats,
    twists_of_fixed_formats,
    twists_of_stopping_words,
    undefined_positions,
    good_twisted_vectors,
    every_length_twisted,
    one_word_everywhere_twisted,
    bad_words_lent_to_twists,
    a_bad_word_at_each_place_twisted,
    two_bad_words_twisted,
    bad_words_alone_twisted,
    unequal_results_twisted,
    vectors_of_unknown_formats,
    vectors_of_fixed_formats,
]
