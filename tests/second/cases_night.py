"""The cases on a night's recording: recipes of recordings and what is printed for them.

A recipe is pieces parted by one space, each COUNT*HEX: the bytes of HEX, COUNT
times. A comment line before each recipe names its case and is printed as it is.
The cases on rates and on overlong breaths are in cases_rates.py.
"""

import random
from fractions import Fraction
from math import gcd

import night
import slash
from cases_common import LARGEST_RATE, chosen, longest_whole

# The most bytes of a recipe and of a recording.
LONGEST_RECIPE = 4000
LONGEST_RECORDING = 2300000

# A listing with more bytes is shown by its length, its checksum and its end.
LONGEST_SHOWN = 2000
END_SHOWN = 64

# The rate where no other is called for, and its line.
USUAL_RATE = 1024
RATE = b"rate\t1024\n"

# The recording that document 01 prints, without and with CR 7's rate line, and its listing.
EXAMPLE_BREATHS = b"0\t277\t642\n4294967290\t10\t34\n100\t100\t100\n"
EXAMPLE = RATE + EXAMPLE_BREATHS
EXAMPLE_LISTING = (
    b"1\t01150282\t277/642\t43.1\n"
    b"2\t00020005\t2/5\t40.0\n"
    b"3\t00000000\t-\t-\n"
    b"all\t012502aa\t293/682\t43.0\n"
)

# A breath that goes before what is refused, and one that goes after.
GOOD = b"0\t277\t642\n"
LATER = b"642\t800\t1000\n"

# The most ticks of a breath that isn't overlong.
LONGEST_WHOLE = longest_whole(LARGEST_RATE)

# The largest denominator of a stored ratio.
LARGEST_HELD = slash.largest_denominator(night.STORED)

# A tie is a ratio whose percentage is halfway between two tenths. These are the
# denominators of the ties in lowest terms.
TIE_DENOMINATORS = (16, 80, 400, 2000)

# With so many ratios in a recording its listing is short enough to be shown itself.
SHOWN_RATIOS = 50


# Recipes and what is printed for them.


def longer_than_any():
    """A rate line and 65,537 of the widest lines, void breaths of each kind among them.

    It is more than decides a listing.
    """
    onsets = (1_000_000_000 + 50_000 * number for number in range(65_537))
    breaths = (
        (onset, onset + number * 7_919 % 20_000, onset + number * 104_729 % 30_000)
        for number, onset in enumerate(onsets)
    )
    return rate_line(200) + b"".join(line(*breath) for breath in breaths)


def requests():
    """The lines of the test program's input: a comment and a recipe for each case."""
    return asked(GROUPS, recipe)


def answers():
    """What the test program prints, as bytes, for each of those lines."""
    return answered(GROUPS, listed)


def asked(groups, request):
    """A comment and a request for each case of the groups, as lines of text."""
    for name, case in named_cases(groups):
        yield comment(name)
        yield request(case)


def answered(groups, answer):
    """What is printed, as bytes, for each of those lines; an empty line ends each answer."""
    for name, case in named_cases(groups):
        yield comment(name).encode("ascii") + b"\n"
        yield answer(case) + b"\n"


def named_cases(groups):
    """Each case of the groups in order, with its name."""
    for group in groups:
        words = group.__name__.replace("_", " ")
        for number, case in enumerate(group(), 1):
            yield "%s %d" % (words, number), case


def comment(name):
    """The line that names a case."""
    return "# " + name


def recipe(pieces):
    """The line that tells how a recording is made, of pieces that are each a count and bytes."""
    line = " ".join("%d*%s" % (count, text.hex()) for count, text in pieces)
    assert len(line) <= LONGEST_RECIPE
    return line


def recording(pieces):
    """The recording that the pieces make."""
    made = b"".join(text * count for count, text in pieces)
    assert len(made) <= LONGEST_RECORDING
    return made


def listed(pieces):
    """What is shown of the listing of the recording that the pieces make."""
    return shown(night.listing(recording(pieces)))


def shown(listing):
    """A short listing itself; of a long one the length, the checksum and the end."""
    if len(listing) <= LONGEST_SHOWN:
        return listing
    head = "%d %d\n" % (len(listing), checksum(listing))
    return head.encode("ascii") + listing[-END_SHOWN:]


def checksum(text):
    """The checksum of bytes: times 31 plus the next, modulo 2^32."""
    h = 0
    for byte in text:
        h = (h * 31 + byte) % 2**32
    return h


# Pieces.


def line(*fields):
    """A line of these fields."""
    return "\t".join(map(str, fields)).encode("ascii") + b"\n"


def rate_line(rate):
    """The line that opens a recording at this rate."""
    return line("rate", rate)


def breath(inward, whole, onset=0):
    """A line whose breathing in and whole breath are these, modulo 2^32."""
    return line(*marks(inward, whole, onset))


def marks(inward, whole, onset):
    """The tick marks of a breath with these durations, its onset modulo 2^32 as well."""
    return [(onset + ticks) % night.CLOCK for ticks in (0, inward, whole)]


def parted(n, d, times=1):
    """Two breaths, of 0.0 and of 100.0 percent, whose sums are n and d so many times."""
    return breath(0, times * (d - n)) + breath(times * n, times * n)


def once(*texts):
    """The one piece of these bytes."""
    return [(1, b"".join(texts))]


def rated(*texts, rate=USUAL_RATE):
    """The one piece of these bytes behind a rate line."""
    return once(rate_line(rate), *texts)


def rated_pieces(*pieces, rate=USUAL_RATE):
    """These pieces behind that of a rate line."""
    return [(1, rate_line(rate)), *pieces]


def alone_and_between(text):
    """A line by itself behind the rate line, and between good ones."""
    yield rated(text)
    yield rated(GOOD, text, LATER)


def shown_ratios(ratios):
    """Recordings of these ratios, each with a listing that is shown itself."""
    for start in range(0, len(ratios), SHOWN_RATIOS):
        case = rated(*(breath(*ratio) for ratio in ratios[start : start + SHOWN_RATIOS]))
        assert len(night.listing(recording(case))) <= LONGEST_SHOWN
        yield case


# Ties.


def ties():
    """Every tie in lowest terms, ascending."""
    found = [ratio for d in TIE_DENOMINATORS for ratio in ties_over(d)]
    return sorted(found, key=lambda ratio: Fraction(*ratio))


def few_ties():
    """The first two ties and the last two over each denominator."""
    for d in TIE_DENOMINATORS:
        yield from ties_over(d)[:2] + ties_over(d)[-2:]


def ties_over(d):
    """The ties in lowest terms with this denominator, ascending."""
    return [(n, d) for n in range(1, d) if gcd(n, d) == 1]


def next_to(n, d, largest=LARGEST_HELD):
    """The ratios next below and next above n/d, which is in lowest terms, over at most the largest.

    The products across differ by 1, and of such ratios those with the largest
    denominators are next to n/d. With s such a denominator: below n/d, s times n
    is 1 more than a multiple of d; above it, 1 less.
    """
    inverse = pow(n, -1, d)
    below = largest - (largest - inverse) % d
    above = largest - (largest + inverse) % d
    return (below * n // d, below), (above * n // d + 1, above)


# 1. Breaths.


def the_example():
    """Document 01's recording, and its lines alone."""
    yield once(EXAMPLE)
    for text in EXAMPLE_BREATHS.splitlines(keepends=True):
        yield rated(text)


def wrapped_clocks():
    """Clocks that start again before the peak, after it, and next to both."""
    last = night.LARGEST_TICK
    for onset in (0, 1, last, last - 1, last - 277, last - 276, last - 642, last - 641):
        yield rated(breath(277, 642, onset))
    yield rated(*(breath(277, 642, last - step) for step in range(0, 700, 50)))
    yield rated(line(last, 0, 1), line(last, last, 0), line(last - 1, last, 0))
    yield rated(line(2**31, 0, 2**31 - 1), line(2**31, 2**31 - 1, 2**31 - 1))
    # Tick marks on both sides of 2^31, and the longest breaths.
    half = LONGEST_WHOLE // 2
    for onset in (2**31 - 1, 2**31 - half, last, last - half, last - LONGEST_WHOLE):
        yield rated(breath(half, LONGEST_WHOLE, onset), rate=LARGEST_RATE)


def void_breaths():
    """A whole of 0, and a breathing in longer than the whole."""
    last = night.LARGEST_TICK
    for onset in (0, 100, last):
        yield rated(breath(0, 0, onset))
        yield rated(breath(5, 0, onset))
        yield rated(breath(6, 5, onset))
        yield rated(breath(last, last - 1, onset))
    yield rated(breath(last, 0), breath(1, 0), breath(2, 1), breath(0, 0, last))


def void_and_good():
    """Void breaths among good ones, which alone are summed."""
    yield rated(breath(0, 0), GOOD, breath(9, 8), LATER, breath(7, 0))
    yield rated(GOOD, breath(night.LARGEST_TICK, 1))
    yield rated(breath(night.LARGEST_TICK, 1), GOOD)
    yield rated(breath(3, 2), breath(2, 3), breath(1, 0))


def ends_of_the_ratio():
    """Breathing in of 0 and of the whole breath."""
    for whole in (1, 2, 642, 32767, 32768, 65535, LONGEST_WHOLE - 1, LONGEST_WHOLE):
        for texts in (
            (breath(0, whole), breath(whole, whole), breath(whole - 1, whole)),
            (breath(0, whole, 7), breath(0, whole, 9)),
            (breath(whole, whole, 7), breath(whole, whole, 9)),
        ):
            yield rated(*texts, rate=LARGEST_RATE)


def percentages():
    """Percentages at a half and next to it, 0.0 and 100.0."""
    ratios = [(1, 16), (3, 16), (5, 16), (15, 16), (1, 2000), (3, 2000), (1, 2001)]
    ratios += [(1999, 2000), (1997, 2000), (2000, 2001), (1998, 1999), (999, 1000)]
    ratios += [(1, 1999), (1, 80), (79, 80), (1, 400), (399, 400), (32766, 32767)]
    ratios += [(1, 32767), (1, 3), (2, 3), (1, 1), (0, 1), (1, 1000), (19, 20)]
    for n, d in ratios:
        yield rated(breath(n, d))
        yield rated(breath(n, d), breath(1, 2))
    yield rated(*(breath(n, d) for n, d in ratios))


# Ties whose nearest ratios of ticks are tried.
TRIED_TIES = [(1, 16), (3, 16), (1, 2000), (1999, 2000), (7, 16), (1, 80)]


def percentages_of_the_fraction():
    """Ticks just below a half percentage whose fraction is at it, and just above."""
    for n, d in TRIED_TIES:
        times = LONGEST_WHOLE // d
        below, above = next_to(n, d, LONGEST_WHOLE)
        for ratio in (below, (times * n, times * d), above):
            yield rated(breath(*ratio), rate=LARGEST_RATE)
            yield rated(breath(*ratio), breath(0, 0), rate=LARGEST_RATE)


def percentages_of_the_next_fraction():
    """Ticks so far below a half percentage that their fraction isn't at it, and so far above."""
    for n, d in TRIED_TIES:
        times = LONGEST_WHOLE // d
        for off in (-1, 1):
            yield rated(breath(times * n + off, times * d), rate=LARGEST_RATE)


def every_tie():
    """Every tie there is, ascending."""
    yield from shown_ratios(ties())


def next_to_every_tie():
    """The held ratios next below and next above each tie."""
    yield from shown_ratios([ratio for tie in ties() for ratio in next_to(*tie)])


# So often are breaths summed that a tick more leaves the fraction at a tie; and so often that the
# sums pass 2^32.
MANY = 150
VERY_MANY = 9000


def sums_at_ties():
    """Breaths that are no ties: their sums are one, or are a tick off and rounded to it."""
    for n, d in few_ties():
        yield rated(parted(n, d))
        yield rated(breath(0, 0), parted(n, d), breath(d, n))
        yield from sums_about(n, d, MANY)
    # Sums that pass 2^32.
    for d in (TIE_DENOMINATORS[0], TIE_DENOMINATORS[-1]):
        yield from sums_about(*ties_over(d)[-1], VERY_MANY)


def sums_about(n, d, times):
    """So many times two breaths, as long as can be, whose sums are a tie; and a tick more."""
    large = times, parted(n, d, LONGEST_WHOLE // d)
    yield rated_pieces(large, rate=LARGEST_RATE)
    yield rated_pieces(large, (1, breath(0, 1)), rate=LARGEST_RATE)
    yield rated_pieces(large, (1, breath(1, 1)), rate=LARGEST_RATE)


def sums_next_to_ties():
    """Breaths whose sums are the held ratios next below and next above a tie."""
    for tie in few_ties():
        for ratio in next_to(*tie):
            yield rated(parted(*ratio))


def large_ratios():
    """Ratios that 15 bits can't hold: rounded and marked."""
    last = LONGEST_WHOLE
    ratios = [(1, 32768), (32767, 32768), (1, 65536), (1, 65535), (1, last)]
    ratios += [(32768, 32769), (16384, 32769), (40000, 65537), (last - 1, last)]
    # Fibonacci numbers among others.
    ratios += [(196418, 317811), (121393, 196418), (250001, 404501), (last // 2 + 1, last)]
    ratios += [(300007, 485411), (123457, last - 1), (65537, last - 1)]
    for n, d in ratios:
        yield rated(breath(n, d), rate=LARGEST_RATE)
        yield rated(breath(n, d, 123456789), breath(1, 3), rate=LARGEST_RATE)
    yield rated(*(breath(n, d) for n, d in ratios), rate=LARGEST_RATE)


# 2. Lines and fields.


def widest_lines():
    """32 bytes before the line feed, good or not, and 33."""
    for wide in (
        line(1000000000, 1000050000, 1000099999),
        line(1000000000, 1500000000, 2999999999),
        line(4294967295, 4294967294, 4294967293),
        line(4294967295, 4294967295, 4294967295),
        line(4294967296, 4294967295, 4294967295),
        line(1000000000, 1500000000, 29999999990),
        line(10000000000, 1500000000, 2999999999),
        line(1000000000, 15000000000, 2999999999),
        line("0" * 32),
        line("0" * 33),
        line("0" * 30, ""),
        line("0" * 31, ""),
        line("0" * 32, ""),
        line("", "", "0" * 30),
        line("", "", "0" * 31),
        line("0" * 34),
        line("0" * 64),
        line("0" * 256),
        line("0" * 1000),
    ):
        yield from alone_and_between(wide)


def line_feed_missing():
    """A last line that isn't ended, with and without good lines before."""
    for text in (b"0\t277\t642", b"0", b"\t", b"0\t1", b"x", b"0" * 32, b"0" * 33):
        yield rated(text)
        yield rated(GOOD, text)
        yield rated(GOOD, LATER, GOOD, text)


def empty_lines():
    """Line feeds with nothing before them."""
    yield from alone_and_between(b"\n")
    yield rated(b"\n\n")
    yield rated(GOOD, b"\n")
    yield rated(GOOD, LATER, b"\n\n\n")


def fields_in_number():
    """Too few and too many fields, empty ones among them."""
    texts = [b"0\t277", b"0", b"0\t277\t642\t", b"\t0\t277\t642", b"0\t277\t642\t700"]
    texts += [b"0\t\t277\t642", b"0\t277\t\t642", b"\t", b"\t\t\t", b"\t" * 32]
    texts += [b"0\t1\t2\t3\t4\t5\t6\t7\t8\t9", b"1\t", b"\t1", b"x\ty", b"01\t02"]
    texts += [b"x\ty\tz\tw", b"0 277 642", b"0,277,642", b"0\t277 642", b"0  277\t642"]
    for text in texts:
        yield from alone_and_between(text + b"\n")


def empty_fields():
    """Three fields, some with nothing in them."""
    for fields in (("", 277, 642), (0, "", 642), (0, 277, ""), ("", "", "")):
        yield from alone_and_between(line(*fields))
    yield from alone_and_between(line(0, "", ""))


def in_each_field(text):
    """A good line with this text in place of each field in turn."""
    fields = [b"5", b"7", b"9"]
    for place in range(3):
        changed = [*fields[:place], text, *fields[place + 1 :]]
        yield b"\t".join(changed) + b"\n"


def leading_zeros():
    """Zeros before a number, and 0 itself."""
    for text in (b"0", b"00", b"000", b"01", b"007", b"0277", b"04294967295", b"10"):
        for changed in in_each_field(text):
            yield from alone_and_between(changed)


def largest_numbers():
    """The largest tick mark and what lies beyond, in each field."""
    numbers = [4294967294, 4294967295, 4294967296, 4294967297, 4294967299, 4294967300]
    numbers += [999999999, 1000000000, 4000000000, 4300000000, 5000000000, 9999999999]
    numbers += [10000000000, 42949672950, 42949672960, 99999999999, 2**63, 2**64 - 1]
    numbers += [2**64, 2**64 + 1, 2**65 + 7, 10**19, 10**20, 10**27, 10**28 - 1]
    for number in numbers:
        for changed in in_each_field(b"%d" % number):
            yield rated(GOOD, changed, LATER)
    for changed in in_each_field(b"4294967296"):
        yield rated(changed)
    # As the next onset, the peak and the onset of breaths that aren't overlong.
    for number in numbers[:2] + numbers[6:9]:
        yield rated(*(breath(2, 4, number - step) for step in (4, 2, 0)))


def strange_bytes():
    """Bytes that are no digits, before, within and after a number."""
    strange = [b"\r", b"\0", b"\x0b", b"\x0c", b"\x1f", b" ", b"+", b"-", b"/", b":"]
    strange += [b"a", b"e", b"x", b".", b",", b"_", b"'", b"\x7f", b"\x80", b"\xa0"]
    strange += [b"\xb2", b"\xb9", b"\xc2\xb2", b"\xd9\xa1", b"\xef\xbb\xbf", b"\xff"]
    for byte in strange:
        for text in (byte, byte + b"7", b"7" + byte, b"7" + byte + b"7"):
            for changed in list(in_each_field(text))[:: 2 if len(byte) > 1 else 1]:
                yield rated(GOOD, changed, LATER)
    yield rated(b"0\t277\t642\r\n", LATER)
    yield rated(b"\xef\xbb\xbf", GOOD)
    yield rated(GOOD, b"\0")


def every_byte():
    """Each byte by itself, as a line, and in place of the last digit."""
    for byte in range(256):
        yield rated(GOOD, bytes([byte]))
        yield rated(bytes([byte]), b"\n", GOOD)
        yield rated(b"0\t277\t64", bytes([byte]), b"\n", GOOD)


def first_stop():
    """Lines that earn several stops: the lowest number, then the first line."""
    bad = [b"0" * 33 + b"\n", b"0\n", b"0\t1\tx\n"]
    for first in bad:
        for second in bad:
            yield rated(GOOD, first, second)
    yield rated(b"x" * 33 + b"\n")
    yield rated(b"x\t" * 20 + b"\n")
    yield rated(b"x\ty\n")
    yield rated(b"x\ty\tz\tw\n")
    yield rated(b"x\ty")
    yield rated(b"x\ty\tz")
    yield rated(GOOD, b"0" * 40)


def empty_night():
    """No byte at all, by each kind of recipe that makes none."""
    yield []
    yield [(0, b"")]
    yield [(1, b"")]
    yield [(0, GOOD)]
    yield [(night.MOST_BREATHS, b"")]
    yield [(0, GOOD), (0, b"\n")]
    yield [(0, b""), (0, b"x"), (7, b"")]


def nearly_empty_night():
    """A byte or a few, which aren't nothing: stops 9 and 19."""
    texts = [b"\n", b"\0", b"\t", b" ", b"\r", b"\v", b"\f", b"\x04", b"\x1a", b"\x7f", b"\xff"]
    texts += [b"-", b"0", b"\r\n", b"\n\r", b" \n", b"\t\t\n", b"\0\n", b"\x1a\n", b"\xef\xbb\xbf"]
    texts += [b"all", b"all\n", b"all\t00000000\t-\t-\n", b"-\t-\t-\n"]
    for text in texts:
        yield once(text)
    yield [(0, GOOD), (1, b"\n")]
    yield [(1, b"\0"), (0, GOOD)]


# 3. Long recordings.


def most_lines():
    """65,536 breaths behind the rate line, and a line that begins after them."""
    for text in (GOOD, breath(1, 16, 5), breath(6, 5), EXAMPLE_BREATHS + GOOD):
        times = night.MOST_BREATHS // text.count(b"\n")
        yield rated_pieces((times, text))
        yield rated_pieces((times, text), (1, GOOD))
    full = (night.MOST_BREATHS, GOOD)
    for text in (b"x", b"\n", b"0" * 40 + b"\n", b"0\t1\n", b"x\ty\tz\n", GOOD * 3):
        yield rated_pieces(full, (1, text))
    yield rated_pieces(full, (0, GOOD))


def bad_last_lines():
    """Breaths before and at the 65,536th that are refused."""
    for text in (b"\n", b"x\ty\tz\n", b"0\t1\n", b"0" * 33 + b"\n", b"0\t1\t2"):
        yield rated_pieces((night.MOST_BREATHS - 1, GOOD), (1, text))
        yield rated_pieces((night.MOST_BREATHS - 1, GOOD), (1, text), (1, GOOD))
    yield rated_pieces((night.MOST_BREATHS - 2, GOOD), (1, b"\n"), (1, GOOD))
    yield rated_pieces((40000, GOOD), (1, b"01\t2\t3\n"), (20000, GOOD))


def widest_recordings():
    """The longest recordings: 65,536 lines of the widest sort, and bytes beyond."""
    # Its lines are listed by the longest ones that there are.
    wide = line(1000000000, 1000016384, 1000032767)
    nearly_one = line(4294867295, 4294967294, 4294967295)
    overlong = line(4294967295, 4294967294, 4294967294)
    for text in (wide, nearly_one, overlong, line(1234567890, 1234617890, 1234669013)):
        assert len(text) == night.MOST_BYTES + 1
        yield rated_pieces((night.MOST_BREATHS, text))
    yield rated_pieces((night.MOST_BREATHS, wide), (1, b"x"))
    room = LONGEST_RECORDING - len(RATE)
    left = room - night.MOST_BREATHS * len(wide)
    yield rated_pieces((night.MOST_BREATHS, wide), (left, b"1"))
    yield rated_pieces((room, b"1"))
    yield rated_pieces((room, b"\n"))
    yield rated_pieces((room // len(GOOD), GOOD))


def largest_sums():
    """Sums of 65,536 breaths as long as there can be, and sums about 2^32."""
    last, most = LONGEST_WHOLE, night.MOST_BREATHS
    for pieces in (
        [(most, breath(last, last, 1))],
        [(most, breath(last - 1, last, 1))],
        [(most, breath(0, last, 1))],
        [(most // 2, breath(last, last, 1)), (most // 2, breath(0, last, 1))],
        [(most - 1, breath(last, last, 1)), (1, breath(0, 1, 1))],
        [(most - 1, breath(0, last, 1)), (1, breath(1, 1, 1))],
        [(most // 3, breath(last // 2, last, 1)), (most // 3, breath(1, last, 1))],
        [(3, breath(last, last, 1)), (5, breath(last // 2, last, 1))],
        [(most - 1, breath(6, 5)), (1, GOOD)],
        [(most, breath(0, 0))],
    ):
        yield rated_pieces(*pieces, rate=LARGEST_RATE)
    for total in (2**32 - 1, 2**32, 2**32 + 1):
        times, rest = divmod(total, last)
        for pieces in (
            [(times, breath(0, last)), (1, breath(0, rest))],
            [(times, breath(1, last)), (1, breath(rest, rest))],
            [(times, breath(last, last)), (1, breath(rest, rest))],
            [(times, breath(last, last)), (1, breath(rest, rest)), (3, breath(0, last))],
        ):
            yield rated_pieces(*pieces, rate=LARGEST_RATE)


def listings_about_as_long_as_shown():
    """Listings of the longest length that is shown itself, and of one byte more."""
    for length in (LONGEST_SHOWN - 1, LONGEST_SHOWN, LONGEST_SHOWN + 1):
        yield with_listing_of(length)


def with_listing_of(length):
    """Pieces, of void breaths, zeros and thirds, whose listing has this length."""
    counts = [(v, z, t) for v in range(100, 116) for z in range(12) for t in range(9)]
    for voids, zeros, thirds in counts:
        breaths = (voids, breath(0, 0)), (zeros, breath(0, 1)), (thirds, breath(1, 3))
        pieces = rated_pieces(*breaths)
        if len(night.listing(recording(pieces))) == length:
            return pieces
    raise AssertionError(length)


def rows_numbered():
    """Breath and line numbers of each number of digits, good and refused."""
    for power in (10, 100, 1000, 10000):
        for count in range(power - 3, power + 2):
            yield rated_pieces((count, GOOD))
            yield rated_pieces((count, GOOD), (1, b"x\n"))


# 4. Random recordings.


def random_rate(rng):
    """A rate of a random bit count, the largest one among them."""
    return min(LARGEST_RATE, 1 + rng.getrandbits(chosen(rng, range(1, 14))))


def random_breath(rng):
    """A line for a random breath: real-looking, of any ticks, of few, or of about any whole."""
    sort = rng.getrandbits(3)
    if sort < 2:
        return breath(rng.getrandbits(8), 200 + rng.getrandbits(9), rng.getrandbits(32))
    if sort == 2:
        return line(*(rng.getrandbits(32) for _ in range(3)))
    if sort == 3:
        return line(*(rng.getrandbits(1 + rng.getrandbits(5)) for _ in range(3)))
    # Up to 2^19 ticks, somewhat more than are ever good.
    whole = 1 + rng.getrandbits(chosen(rng, range(1, 20)))
    return breath(rng.getrandbits(32) % (whole + 1), whole, rng.getrandbits(32))


def random_night(rng, count):
    """The bytes of a recording of so many random breaths at a random rate."""
    return rate_line(random_rate(rng)) + b"".join(random_breath(rng) for _ in range(count))


def varied_night():
    """A recording of as many breaths as there can be, drawn from some of all these sorts."""
    rng = random.Random(83)
    breaths = [random_breath(rng) for _ in range(4000)]
    drawn = (chosen(rng, breaths) for _ in range(night.MOST_BREATHS))
    return rate_line(LARGEST_RATE - 1) + b"".join(drawn)


def random_recordings():
    """Good recordings of a few breaths."""
    rng = random.Random(80)
    for _ in range(150):
        yield once(random_night(rng, 1 + rng.getrandbits(4)))


def following_breaths():
    """Recordings where each breath begins at the next onset of the one before."""
    rng = random.Random(81)
    for _ in range(40):
        onset = rng.getrandbits(32)
        texts = []
        for _ in range(1 + rng.getrandbits(5)):
            whole = 200 + rng.getrandbits(9)
            texts.append(breath(rng.getrandbits(8), whole, onset))
            onset = (onset + whole) % night.CLOCK
        yield rated(*texts)


def damaged_recordings():
    """Recordings with a few bytes changed, lost or put in."""
    rng = random.Random(82)
    for _ in range(250):
        text = random_night(rng, 1 + rng.getrandbits(3))
        for _ in range(1 + rng.getrandbits(1)):
            text = damaged(rng, text)
        yield once(text)


def damaged(rng, text):
    """The bytes with one of them changed, lost or put in, or cut off there."""
    place = rng.getrandbits(16) % len(text) if text else 0
    byte = bytes([chosen(rng, b"\t\t\n\n0123456789 -+\r\0\xff")])
    sort = rng.getrandbits(2)
    if sort == 0:
        return text[:place] + byte + text[place + 1 :]
    if sort == 1:
        return text[:place] + text[place + 1 :]
    if sort == 2:
        return text[:place] + byte + text[place:]
    return text[:place] if rng.getrandbits(1) else text[:place] + text[place:] * 2


GROUPS = [
    the_example,
    wrapped_clocks,
    void_breaths,
    void_and_good,
    ends_of_the_ratio,
    percentages,
    percentages_of_the_fraction,
    percentages_of_the_next_fraction,
    every_tie,
    next_to_every_tie,
    sums_at_ties,
    sums_next_to_ties,
    large_ratios,
    widest_lines,
    line_feed_missing,
    empty_lines,
    fields_in_number,
    empty_fields,
    leading_zeros,
    largest_numbers,
    strange_bytes,
    every_byte,
    first_stop,
    empty_night,
    nearly_empty_night,
    most_lines,
    bad_last_lines,
    widest_recordings,
    largest_sums,
    listings_about_as_long_as_shown,
    rows_numbered,
    random_recordings,
    following_breaths,
    damaged_recordings,
]
