"""The cases on a recording's rate and on overlong breaths, CR 7 of 02: recipes and answers.

Recipes and comments are those of cases_night.py.
"""

import random

import cases_night
from cases_common import BAD_RATES, LARGEST_RATE, RATES_TRIED, longest_whole
from cases_night import (
    EXAMPLE,
    EXAMPLE_BREATHS,
    GOOD,
    LATER,
    LONGEST_RECORDING,
    RATE,
    USUAL_RATE,
    breath,
    damaged,
    once,
    random_rate,
    rate_line,
    rated,
    rated_pieces,
)
from night import CLOCK, MOST_BREATHS, MOST_BYTES

# Rates of each number of digits besides.
EACH_RATE_TRIED = sorted([*RATES_TRIED, 3, 9, 10, 11, 99, 100, 101, 999, 1000, 1001])

# The usual rate line without its line feed.
BODY = RATE[:-1]

# Breaths that are a tick too long at the usual rate, or are nearly as long as the clock.
JUST_OVERLONG = longest_whole(USUAL_RATE) + 1
OVERLONG = [
    *(breath(inward, JUST_OVERLONG, 7) for inward in (0, 60_000, JUST_OVERLONG)),
    breath(277, CLOCK - 1, 642),
]


# Recipes and what is printed for them.


def requests():
    """The lines of the test program's input: a comment and a recipe for each case."""
    return cases_night.asked(GROUPS, cases_night.recipe)


def answers():
    """What the test program prints, as bytes, for each of those lines."""
    return cases_night.answered(GROUPS, cases_night.listed)


# 1. Overlong breaths.


def about_120_seconds():
    """Wholes of 120 seconds, of a tick less and of a tick more, at each rate."""
    for rate in EACH_RATE_TRIED:
        longest = longest_whole(rate)
        for whole in (longest - 1, longest, longest + 1):
            inwards = 0, 1, whole // 2, whole - 1, whole, whole + 1
            yield rated(*(breath(inward, whole) for inward in inwards), rate=rate)
            yield rated(breath(whole // 3, whole, -whole), rate=rate)


def one_night_at_each_rate():
    """The same breaths, of which the fewer are void the larger the rate is."""
    longests = map(longest_whole, (1, 2, 9, 10, 1023, 1024, 1025, LARGEST_RATE))
    wholes = [longest + more for longest in longests for more in (0, 1)]
    breaths = [breath(whole // 4, whole, 4_294_900_000) for whole in (1, *wholes, CLOCK - 1)]
    for rate in EACH_RATE_TRIED:
        yield rated(*breaths, rate=rate)


def next_onset_before_onset():
    """Breaths that end before they begin, so that they are nearly as long as the clock."""
    for rate in (1, 1024, LARGEST_RATE):
        for back in (1, 2, 277, 642, longest_whole(rate), 2**31):
            whole = CLOCK - back
            for inward in (0, 277, whole - 1, whole, whole + 1):
                yield rated(GOOD, breath(inward, whole, 1000), LATER, rate=rate)


def overlong_and_good():
    """Nights in which overlong breaths alone are void, and which are summed without them."""
    texts = [GOOD, LATER, breath(1, 16)]
    for overlong in OVERLONG:
        yield rated(overlong)
        for place in range(len(texts) + 1):
            yield rated(*texts[:place], overlong, *texts[place:])
    yield rated(*OVERLONG)
    yield rated(*OVERLONG, GOOD, *OVERLONG)


def void_for_each_reason():
    """Void breaths of each kind, those of two kinds among them, alone and beside good ones."""
    voids = [breath(0, 0), breath(5, 0), breath(9, 8), breath(JUST_OVERLONG + 1, JUST_OVERLONG)]
    voids += [OVERLONG[0], breath(CLOCK - 1, CLOCK - 2)]
    for void in voids:
        yield rated(void)
        yield rated(void, GOOD)
        yield rated(GOOD, void)
    yield rated(*voids)
    yield rated(LATER, *voids, GOOD)


def most_breaths_at_the_ends():
    """65,536 breaths of 120 seconds or of a tick more, and a breath more, at the end rates."""
    for rate, more in ((1, 1), (LARGEST_RATE, 0)):
        longest = longest_whole(rate)
        good, overlong = breath(longest // 5, longest), breath(longest // 5, longest + 1)
        yield rated_pieces((MOST_BREATHS, good), (more, good), rate=rate)
        yield rated_pieces((MOST_BREATHS, overlong), (1 - more, overlong), rate=rate)
    yield rated_pieces((1000, OVERLONG[0]), (1, GOOD), (1000, OVERLONG[1]))
    yield rated_pieces((MOST_BREATHS - 1, OVERLONG[0]), (1, GOOD))


# 2. Rate lines.


def rates_alone():
    """The rate line and nothing behind it: a void total."""
    for rate in EACH_RATE_TRIED:
        yield rated(rate=rate)
    yield rated_pieces((0, GOOD))
    yield [(0, b"x"), *once(RATE), (0, RATE)]


def rate_line_in_pieces():
    """Recordings whose pieces end at each byte of the rate line, and those of one byte each."""
    for text in (RATE, EXAMPLE):
        for end in range(len(RATE) + 1):
            yield [(1, text[:end]), (1, text[end:])]
        yield [(1, bytes([byte])) for byte in text]


# What a first line may be before its line feed and is no rate line.
NO_RATE_LINES = [
    # Fields lost and put in, and other bytes for the tab.
    *(b"", b"rate", b"rate\t", b"1024", b"\t1024", b"\t", b"\t\t", b"\t\t\t", b"rate\t\t"),
    *(b"rate\t\t1024", b"\trate\t1024", b"\t\trate\t1024", BODY + b"\t", BODY + b"\t\t"),
    *(BODY + b"\t1024", BODY + b"\trate", b"rate\trate", b"1024\trate", b"1024\t1024"),
    *(b"rate1024", b"rate 1024", b"rate  1024", b"rate=1024", b"rate,1024", b"rate\v1024"),
    # Leading zeros, signs and other bytes in the number.
    *(b"rate\t00", b"rate\t01", b"rate\t007", b"rate\t01024", b"rate\t04096", b"rate\t0000001024"),
    *(b"rate\t+1", b"rate\t-1", b"rate\t-0", b"rate\t+1024", b"rate\t-1024", b"rate\t1024-"),
    *(b"rate\t 1024", b"rate\t1024 ", b"rate\t10 24", b"rate\t1024\r", b"rate\t1024\0", b"rate\t "),
    *(b"rate\t1024.", b"rate\t1024.0", b"rate\t1,024", b"rate\t1_024", b"rate\t1e3"),
    *(b"rate\t0x400", b"rate\t1024Hz", b"rate\t1024/1", b"rate\t/", b"rate\t:", b"rate\t/1"),
    *(b"rate\t:1", b"rate\t1/", b"rate\t1:", b"rate\t102/", b"rate\t102:", b"rate\tx", b"rate\t-"),
    *(b"rate\t\0", b"rate\t\xff", b"rate\t\xb2", b"rate\t\xd9\xa1", b"rate\tall"),
    # Other names.
    *(b"Rate\t1024", b"RATE\t1024", b"ratE\t1024", b"rates\t1024", b"rat\t1024", b"ate\t1024"),
    *(b"r\t1024", b"rrate\t1024", b"tare\t1024", b"rate:\t1024", b" rate\t1024", b"rate \t1024"),
    *(b"rate\0\t1024", b"\0rate\t1024", b"\xef\xbb\xbfrate\t1024", b"#rate\t1024", b"ticks\t1024"),
    # Breaths, lines of a listing and other bytes.
    *(b"0\t277\t642", b"1024\t1024\t1024", b"100\t100\t100", b"4294967295\t4294967295\t4294967295"),
    *(b"all\t00000000\t-\t-", b"1\t00000000\t-\t-", b"refused\t19\t1", b"\0", b"\xff", b"\r", b" "),
    *(b"-", b"0", b"x\ty\tz", b"x\ty", b"0" * MOST_BYTES, b"\t" * MOST_BYTES),
]


def first_lines_that_tell_no_rate():
    """Such a line alone, before breaths, and before a recording that is good itself."""
    for text in NO_RATE_LINES:
        yield once(text, b"\n")
        yield once(text, b"\n", GOOD, LATER)
        yield once(text, b"\n", EXAMPLE)


def rates_out_of_range():
    """Numbers that are no rates, alone and before a breath."""
    numbers = [*BAD_RATES, 4098, 4906, 5000, 9999, 10_000, 10_240, 40_960, 40_961, 99_999, 2**31]
    numbers += [2**64, 2**64 + 1, 2**64 + 1024, 10**20, 10**26, 10**27 - 1]
    for number in numbers:
        yield rated(rate=number)
        yield rated(GOOD, rate=number)


def first_lines_of_each_length():
    """31 to 34 bytes before the first line feed, and none: 19 up to 32 bytes, and 9."""
    for length in range(MOST_BYTES - 1, MOST_BYTES + 3):
        digits = length - len(b"rate\t")
        texts = [b"rate\t" + b"1" * digits, b"rate\t" + b"1024".rjust(digits, b"0")]
        texts += [BODY.ljust(length, byte) for byte in (b" ", b"\t", b"\r", b"\0")]
        texts += [b"0" * length, b"x" * length]
        for text in texts:
            yield once(text, b"\n")
            yield once(text, b"\n", GOOD)
            yield once(text)


def first_lines_unended():
    """First lines without a line feed, good ones but for that among them: 9."""
    for rate in EACH_RATE_TRIED:
        yield once(rate_line(rate)[:-1])
    for text in NO_RATE_LINES[1:]:
        yield once(text)
    for text in (b"rate\t" + b"1" * 1000, b"rate\t" * 300, b"\0" * 1000):
        yield once(text)


def longest_first_lines():
    """As many bytes as there can be in one line, or in many; and many breaths but no rate line."""
    for byte in (b"1", b"\n"):
        yield [(LONGEST_RECORDING, byte)]
    for byte in (b"1", b"\t", b"\0"):
        yield [(1, b"rate\t"), (100_000, byte)]
        yield [(1, b"rate\t"), (100_000, byte), (1, b"\n")]
    for count in (MOST_BREATHS, MOST_BREATHS + 1):
        yield [(count, GOOD)]
        yield rated_pieces((count, GOOD), rate=0)


def example_without_its_rate():
    """Document 01's recording as it was, its first bytes, and its lines in another order."""
    yield once(EXAMPLE_BREATHS)
    yield once(EXAMPLE_BREATHS, RATE)
    yield once(GOOD, RATE, LATER)
    for end in range(1, len(EXAMPLE_BREATHS)):
        yield once(EXAMPLE_BREATHS[:end])


def example_cut():
    """The first bytes of document 01's recording with its rate line."""
    for end in range(len(EXAMPLE)):
        yield once(EXAMPLE[:end])


def every_byte_of_a_first_line():
    """Each byte as the first line, in place of its tab, and in place of its last digit."""
    for number in range(256):
        byte = bytes([number])
        yield once(byte, b"\n", GOOD)
        yield once(b"rate", byte, b"1024\n", GOOD)
        yield once(b"rate\t102", byte, b"\n", GOOD)


def rate_line_changed():
    """Each byte of a rate line one more, one less, lost and doubled."""
    for rate in (1, 1024, LARGEST_RATE):
        text = rate_line(rate)
        for place, byte in enumerate(text):
            for other in ([byte - 1], [byte + 1], [], [byte, byte]):
                yield once(text[:place], bytes(other), text[place + 1 :], GOOD)


# 3. Lines behind the rate line.

# Lines that earn stops 9, 10 and 11, and one that isn't ended.
BAD_LINES = [b"0" * 33 + b"\n", b"0\t1\n", b"0\t1\t2\t3\n", b"\n", b"0\t1\tx\n", b"0\t1\t2"]


def lines_behind_the_rate():
    """Such lines as lines 2 and 3; and as line 2 behind first lines that are refused."""
    for text in BAD_LINES:
        yield rated(text)
        yield rated(text, GOOD)
        yield rated(GOOD, text)
        yield rated(OVERLONG[0], text, GOOD)
        yield once(b"rate\t0\n", text)
        yield once(b"\n", text)
        yield once(b"x" * 33 + b"\n", text)


def rate_line_again():
    """A rate line in place of a breath, which has not three fields, and one that has."""
    for text in (RATE, rate_line(1), rate_line(LARGEST_RATE), rate_line(0), b"rate\n"):
        yield rated(text)
        yield rated(text, GOOD)
        yield rated(GOOD, text, LATER)
    yield rated(GOOD, LATER, RATE, EXAMPLE)
    for fields in (b"rate\t1024\t642\n", b"rate\t277\t642\n", b"0\trate\t1024\n"):
        yield rated(fields)
        yield rated(GOOD, fields)
    for count in (MOST_BREATHS - 1, MOST_BREATHS):
        yield rated_pieces((count, GOOD), (1, RATE))
    yield [(1000, RATE)]


# 4. Random recordings.


def random_breaths_of_two_minutes():
    """Recordings at random rates whose breaths are about as long as they can be, and shorter."""
    rng = random.Random(84)
    for _ in range(100):
        rate = random_rate(rng)
        texts = []
        for _ in range(1 + rng.getrandbits(3)):
            whole = max(1, longest_whole(rate) + rng.getrandbits(2) - 2 - rng.getrandbits(6))
            texts.append(breath(rng.getrandbits(32) % (whole + 1), whole, rng.getrandbits(32)))
        yield rated(*texts, rate=rate)


def damaged_rate_lines():
    """Rate lines with a few bytes changed, lost or put in, before breaths."""
    rng = random.Random(85)
    for _ in range(150):
        text = rate_line(random_rate(rng))
        for _ in range(1 + rng.getrandbits(1)):
            text = damaged(rng, text)
        yield once(text, GOOD, LATER)


GROUPS = [
    about_120_seconds,
    one_night_at_each_rate,
    next_onset_before_onset,
    overlong_and_good,
    void_for_each_reason,
    most_breaths_at_the_ends,
    rates_alone,
    rate_line_in_pieces,
    first_lines_that_tell_no_rate,
    rates_out_of_range,
    first_lines_of_each_length,
    first_lines_unended,
    longest_first_lines,
    example_without_its_rate,
    example_cut,
    every_byte_of_a_first_line,
    rate_line_changed,
    lines_behind_the_rate,
    rate_line_again,
    random_breaths_of_two_minutes,
    damaged_rate_lines,
]
