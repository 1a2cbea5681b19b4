"""The cases of the program `inspect`: the lines that it reads, as bytes with their line feeds."""

import random

import cases_night
import slash
from cases_common import (
    LARGEST,
    beyond_words,
    chosen,
    fraction_word,
    random_edge_words,
    random_word,
    stopping_words,
    undefined_words,
)
from cases_files import READ
from cases_unary import long_words, multiple_pair
from inspecting import KINDS, PLACES
from night import MOST_BYTES, STORED
from slash import FIXED, FLOATING, Format

# What a kind is called in a line that sets a format.
NAMES = {kind: name for name, kind in KINDS.items()}

# The widest format of each kind.
WIDEST = Format(FIXED, 31)
WIDEST_FLOATING = Format(FLOATING, 32)

# A format whose words have another number of digits than those of the formats that bad lines name.
KEPT = Format(FLOATING, 9)

# The formats whose words are all inspected, and others whose edge words are.
SMALLEST = [Format(FIXED, 2), Format(FLOATING, 2), Format(FLOATING, 3)]
EDGE_FORMATS = [
    *(Format(FIXED, k) for k in (3, 4, 9, 15, 16, 31)),
    *(Format(FLOATING, k) for k in (4, 5, 9, 16, 17, 26, 32)),
]

# By kind, k that no format has.
UNKNOWN_K = {FIXED: (0, 1, 32, 99), FLOATING: (0, 1, 33, 99)}

# A tie is a size halfway between two numbers of six places: twice as many last places are an odd
# number. In lowest terms its denominator divides 2 * 10^6 = 2^7 * 5^6, and has every 2 of that.
TIE_DENOMINATORS = [2**7 * 5**fives for fives in range(PLACES + 1)]

# The formats whose ties are inspected; of the widest, by their largest parts, what is next to them.
TIE_FORMATS = [Format(FIXED, 8), Format(FIXED, 15), Format(FLOATING, 17), Format(FLOATING, 26)]
NEXT_TO_TIES = {WIDEST: 2**31 - 1, WIDEST_FLOATING: 2**16 - 1}

# Lines that look like those that set a format, without their line feeds.
BAD_FORMAT_LINES = [
    # One space, and no other byte behind the number or before the name.
    *(b"fixed  15", b"fixed15", b"fixed\t15", b"fixed 15 ", b" fixed 15", b"fixed 15\t"),
    *(b"fixed 15\r", b"fixed 15\0", b"\0fixed 15", b"fixed 15.", b"fixed 15 1150282"),
    *(b"floating  26", b"floating26", b"floating 26 ", b" floating 26", b"floating 26\r"),
    # One digit, or two of which the first isn't 0.
    *(b"fixed 015", b"fixed 00", b"fixed 02", b"fixed 100", b"fixed 150", b"floating 026"),
    *(b"floating 00", b"floating 09", b"floating 100", b"floating 260", b"fixed 4294967298"),
    # A decimal number.
    *(b"fixed", b"fixed ", b"floating", b"floating ", b"fixed f", b"fixed 1f", b"fixed f1"),
    *(b"fixed +2", b"fixed -2", b"fixed 1/", b"fixed 1:", b"fixed /1", b"floating :1"),
    *(b"fixed 1\xb5", b"fixed \xb15", "fixed \uff11\uff15".encode("utf-8")),
    # Both names in full and in lowercase.
    *(b"Fixed 15", b"FIXED 15", b"fixeD 15", b"Floating 26", b"FLOATING 26", b"fixe 15"),
    *(b"fixedd 15", b"floatin 26", b"floatingg 26", b"float 26", b"f 15", b"1 15"),
    *(b"fixed floating 15", b"\xe6ixed 15", b"fixed 15\0fixed 15"),
]

# Lines that look like words.
BAD_WORDS = [
    *(b"0x1", b"0X1", b"+1", b"-1", b" 1", b"1 ", b"\t1", b"1\t", b"1\r", b"1\0", b"\0"),
    *(b"1_0", b"1.0", b"1,000", b"1/2", b"1 1", b"1h", b"#1", b"1g", b"G1", b"/", b":"),
    *(b"1\xff", b"\x801", b"1\xb1", "\uff11".encode("utf-8"), b"f\xe6"),
]


def text():
    """What the program reads: all lines in order, of which the last has no line feed."""
    lines = [line for group in GROUPS for line in group()]
    lines += lines_cut_by_reads(sum(map(len, lines)))
    return b"".join([*lines, *a_line_without_its_end()])


# Lines.


def format_line(kind, k):
    """The line that sets a format, known or not."""
    return b"%s %d\n" % (NAMES[kind], k)


def word_line(word):
    """The line of a word, in as few digits as it takes."""
    return b"%x\n" % word


def inspected(form, words):
    """The line that sets a format, then those of words of it, each once."""
    yield format_line(*form)
    yield from map(word_line, dict.fromkeys(words))


def inspected_pairs(rng, form, pairs):
    """The same of the words of those pairs that are held, each with a random sign and mark."""
    held = [pair for pair in dict.fromkeys(pairs) if slash.holds(form, *pair)]
    yield from inspected(form, [fraction_word(rng, form, pair) for pair in held])


# 1. Before any format is known.


def lines_before_a_format():
    """Words and bad lines before any line sets a format, and behind one that sets no known one."""
    yield from (b"1\n", b"\n", b"0\n", b"fixed\n", b"1150282\n", word_line(LARGEST))
    yield from (b"1" * (MOST_BYTES + 1) + b"\n", b"fixed 015\n", b"1\n")
    yield from (b"fixed 1\n", b"1\n", b"fixed 015\n", b"1\n", word_line(LARGEST))


# 2. Words.


def words_of_the_papers():
    """Words that documents 01 and 004 print, and -2/3."""
    yield from inspected(STORED, [0x01150282, 0x00020005, 0, 0x012502AA, 0x2D5C75F1])
    yield from inspected(Format(FIXED, 3), [0x13, 0x15, 0x1A, 0xA3])
    yield from inspected(Format(FIXED, 9), [slash.pair_word(Format(FIXED, 9), 0, (85, 197), 1)])
    yield from inspected(Format(FLOATING, 26), [0x4C0058F1])


def every_word():
    """All words of the smallest formats, and the first that has a bit more."""
    for form in SMALLEST:
        yield from inspected(form, range(2 ** slash.width(form) + 1))


def edges():
    """Zeros, infinities and not-a-numbers with messages; largest, smallest, unreduced fractions."""
    rng = random.Random(190)
    for form in EDGE_FORMATS:
        yield from inspected(form, random_edge_words(rng, form))


def words_of_every_format():
    """The most quotients, a fraction with a large common divisor, a random one, and each stop."""
    rng = random.Random(191)
    for form in slash.all_formats():
        multiple = fraction_word(rng, form, multiple_pair(rng, form))
        words = [*long_words(form, [1]), multiple, random_word(rng, form)]
        yield from inspected(form, words + stopping_words(form))


def words_that_stop():
    """More words that have bits above the width or an undefined slash position."""
    for form in (Format(FIXED, 2), Format(FIXED, 30), Format(FLOATING, 5), WIDEST_FLOATING):
        yield from inspected(form, beyond_words(form) + undefined_words(form))


# 3. Decimals.


def ties_over(d):
    """Some ties over one of their denominators: next to 0, to 1/2 and to 1, and above 1."""
    return [(n, d) for n in (1, 3, d // 2 + 1, d - 3, d - 1, d + 1, 17 * d + 3)]


def ties():
    """Ties over each denominator, unreduced ones too, and what is next below and above them."""
    rng = random.Random(192)
    pairs = [pair for d in TIE_DENOMINATORS for pair in ties_over(d)]
    multiples = [(3 * n, 3 * d) for n, d in pairs[::4]]
    for form, largest in NEXT_TO_TIES.items():
        small = [(n, d) for n, d in pairs if n < d <= largest]
        nearest = [near for pair in small for near in cases_night.next_to(*pair, largest)]
        yield from inspected_pairs(rng, form, pairs + multiples + nearest)
    for form in TIE_FORMATS:
        yield from inspected_pairs(rng, form, pairs)


def next_to_whole_numbers():
    """Sizes that are rounded to a whole number, or just not, from both sides."""
    rng = random.Random(193)
    pairs = []
    for whole in (1, 2, 10, 100, 200):
        for less in (4, 5, 6):
            pairs += [(whole * 10**7 - less, 10**7), (whole * 10**7 + less, 10**7)]
    for d in (1999999, 2000000, 2000001, 2**31 - 1):
        pairs += [(1, d), (3, d), (d - 1, d), (d - 3, d), (d + 1, d)]
    pairs += [(1000 * 2000000 - 1, 2000000), (1000 * 2000000 + 1, 2000000)]
    yield from inspected_pairs(rng, WIDEST, pairs)


def powers_of_ten():
    """Sizes next to powers of ten: whole parts of each length, zeros on both sides of the point."""
    rng = random.Random(194)
    pairs = []
    for power in (10**exponent for exponent in range(10)):
        pairs += [(power, 1), (1, power), (power + 1, power), (2 * power - 1, 2)]
        pairs += [(power - 1, 1), (1, power - 1)] if power > 1 else []
    for form in (WIDEST, WIDEST_FLOATING):
        yield from inspected_pairs(rng, form, pairs)


def large_whole_parts():
    """The largest numerators over small denominators."""
    rng = random.Random(195)
    for form in (WIDEST, WIDEST_FLOATING, STORED):
        largest = slash.largest_numerator(form)
        pairs = [(largest - less, d) for less in (0, 1) for d in (1, 2, 3, 7, 128)]
        pairs += [(largest // 128, d) for d in (2, 3, 64, 127)]
        yield from inspected_pairs(rng, form, pairs)


# 4. Lines that are words, and lines that aren't.


def spelt_words():
    """Words in digits of either case and with leading zeros, up to 16 digits and above."""
    yield format_line(*STORED)
    yield from (b"%0*x\n" % (digits, 0x1150282) for digits in range(7, 19))
    yield from (b"2D5C75F1\n", b"2d5c75f1\n", b"2d5C75f1\n", b"0" * 16 + b"\n", b"0" * 17 + b"\n")
    yield format_line(*WIDEST)
    yield from (b"0123456789abcdef\n", b"FEDCBA9876543210\n", b"AbCdEfaBcDeF\n")


def lengths():
    """Lines of each number of bytes that is looked at, and more: of digits, of other bytes."""
    yield format_line(*WIDEST)
    for length in range(MOST_BYTES + 3):
        yield b"%.*s\n" % (length, b"a1B2c3D4" * 8)
    for length in (1, 16, 17, MOST_BYTES, MOST_BYTES + 1, 2 * MOST_BYTES + 1):
        yield from (b"0" * length + b"\n", b"f" * length + b"\n", b" " * length + b"\n")
        yield from (b"\0" * length + b"\n", b"\xff" * length + b"\n")
        yield b"floating 26".ljust(length) + b"\n"
    yield b"1\n"


def each_byte():
    """Each byte but a line feed as a line of its own."""
    yield format_line(*STORED)
    for byte in range(256):
        if byte != ord("\n"):
            yield b"%c\n" % byte


def bad_words():
    """Lines that are nearly words, each before a word, and empty lines."""
    yield format_line(*STORED)
    for line in BAD_WORDS:
        yield from (line + b"\n", b"1\n")
    yield from (b"\n", b"\n", b"1\n")


# 5. Lines that set a format, and lines that don't.


def every_format_line():
    """Each number of one digit or two for both kinds, and a word behind those that are formats."""
    for kind in NAMES:
        for k in range(100):
            yield format_line(kind, k)
            if Format(kind, k) in slash.all_formats():
                yield b"1\n"


def bad_format_lines():
    """Lines that nearly set a format, each before a word: of the format as it was."""
    yield format_line(*KEPT)
    for line in BAD_FORMAT_LINES:
        yield from (line + b"\n", b"1\n")


def unknown_formats():
    """Unknown formats: no word has a format behind one, and other lines are refused as ever."""
    for kind, unknown in UNKNOWN_K.items():
        for k in unknown:
            yield from (format_line(*KEPT), b"1\n", format_line(kind, k), b"1\n")
            yield from (word_line(LARGEST), b"\n", b"fixed 015\n")
            yield from (b"1" * (MOST_BYTES + 1) + b"\n", b"1\n")


# 6. Whole texts.


def damaged_lines():
    """Good lines of which about half have a byte changed, lost or put in; two may become one."""
    rng = random.Random(196)
    for _ in range(60):
        form = chosen(rng, slash.all_formats())
        for line in inspected(form, [random_word(rng, form)]):
            yield cases_night.damaged(rng, line) if rng.getrandbits(1) else line
    # What is left of the last line is ended, whichever it is.
    yield b"\n"


def lines_cut_by_reads(begun):
    """Words behind overlong lines: the end of a read cuts each behind 0 bytes of it, 1 and so on.

    So many bytes are read before them. Reads of any smaller power of two end there as well.
    """
    lines = [format_line(*WIDEST)]
    word = b"0123456789abcdef\n"
    for place in range(len(word) + 1):
        room = READ - (begun + sum(map(len, lines)) + place) % READ
        lines += [overlong_line(room), word]
    return [*lines, overlong_line(2 * READ), b"1\n"]


def overlong_line(length):
    """A line of so many bytes with its line feed, or of as many more as are read at once."""
    if length <= MOST_BYTES + len(b"\n"):
        length += READ
    return b"1" * (length - 1) + b"\n"


def a_line_without_its_end():
    """A word as it should be, but for its line feed."""
    yield format_line(*STORED)
    yield b"01150282"


GROUPS = [
    lines_before_a_format,
    words_of_the_papers,
    every_word,
    edges,
    words_of_every_format,
    words_that_stop,
    ties,
    next_to_whole_numbers,
    powers_of_ten,
    large_whole_parts,
    spelt_words,
    lengths,
    each_byte,
    bad_words,
    every_format_line,
    bad_format_lines,
    unknown_formats,
    damaged_lines,
]
