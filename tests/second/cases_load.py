"""The cases on listings that are read back: requests of the program night_cases, and its answers.

L<p>:<q>:<recipe> loads the recipe's bytes into a list of p numbers and one of q words.
M<n>:<p>:<q>:<recipe> does so with the lines of n void breaths before the recipe's bytes.
What the call told is printed, then each list. Recipes and comments are those of cases_night.py.
"""

import random
from collections import namedtuple
from fractions import Fraction
from functools import lru_cache
from itertools import combinations, permutations, product

import cases_night
import cases_rates
import listings
import night
import slash
from answers import stop_text
from cases_common import chosen, edge_words, random_part
from cases_night import EXAMPLE, EXAMPLE_LISTING, LONGEST_RECORDING, RATE, line, once
from listings import TOTAL, VOID
from night import MOST_BREATHS, STORED

# A request: the places of both lists lent, the void breaths that begin the text, and the pieces
# that make the rest of it.
Load = namedtuple("Load", "numbers words voids pieces")

# The most places of a lent list, and the most void breaths.
MOST_PLACES = 65_540

# What the first place of a lent list holds before the call; each later place holds 1 more.
LENT_NUMBER = 1_000_000
LENT_WORD = 2_000_000

# A list with more places is shown by its length and its checksum.
MOST_SHOWN = 12

# A good listing without a void breath, by lines, and a line that goes behind its total.
ROWS = [
    b"1\t01150282\t277/642\t43.1\n",
    b"2\t00028005\t2/5\t40.0\n",
    b"3\t00010010\t1/16\t6.2\n",
    b"all\t012502aa\t293/682\t43.0\n",
]
BEHIND = b"4\t00010002\t1/2\t50.0\n"

# The places of these lines, the one behind the total among them.
PLACES = range(len(ROWS) + 1)

# The columns of such a line.
NAME, WORD, FRACTION, PERCENTAGE = range(4)

# The total of void breaths, and of none: by itself the listing of an empty night.
VOID_TOTAL = b"all\t00000000\t-\t-\n"

# Powers of 2 that are lost where a number is kept in too few bits.
LOST = [2**bits for bits in (8, 15, 16, 31, 32, 63, 64, 128)]


# Requests and what is printed for them.


def requests():
    """The lines of the test program's input: a comment and a request for each case."""
    return cases_night.asked(GROUPS, request)


def answers():
    """What the test program prints, as bytes, for each of those lines."""
    return cases_night.answered(GROUPS, answer)


def request(case):
    """The line that asks for a text to be loaded."""
    assert max(case.voids, case.numbers, case.words) <= MOST_PLACES
    letter = "M%d:" % case.voids if case.voids else "L"
    lengths = "%d:%d:" % (case.numbers, case.words)
    return letter + lengths + cases_night.recipe(case.pieces)


def answer(case):
    """What the call told, then the list of numbers and that of words, each a line."""
    numbers = list(range(LENT_NUMBER, LENT_NUMBER + case.numbers))
    words = list(range(LENT_WORD, LENT_WORD + case.words))
    try:
        told = "done %d %d" % listings.load_into(text_of(case), numbers, words)
    except slash.Stop as stop:
        told = stop_text(stop)
    return "\n".join([told, shown(numbers), shown(words), ""]).encode("ascii")


def text_of(case):
    """The text that is loaded."""
    text = void_rows(case.voids) + cases_night.recording(case.pieces)
    assert len(text) <= LONGEST_RECORDING
    return text


@lru_cache(maxsize=2**4)
def void_rows(count):
    """The lines of so many void breaths."""
    return b"".join(row(number, VOID) for number in range(1, count + 1))


def shown(places):
    """A short list itself; of a long one the length and the checksum."""
    if len(places) <= MOST_SHOWN:
        return " ".join(map(str, places))
    return "%d %d" % (len(places), cases_night.checksum(places))


# Pieces.


def loaded(*texts, numbers=4, words=5, voids=0):
    """The request to load these bytes; an empty text has the empty recipe."""
    return Load(numbers, words, voids, once(*texts) if any(texts) else [])


def row(name, word):
    """The line that is printed for a word."""
    return line(name, *listings.columns_of(word))


def stored(numerator, denominator, mark=0):
    """The word of a pair with this mark and sign 0."""
    return slash.pair_word(STORED, 0, (numerator, denominator), mark)


def with_row(place, text):
    """The good listing with this text for the line at a place, or behind all of them."""
    return b"".join([*ROWS[:place], text, *ROWS[place + 1 :]])


def with_fields(place, changes):
    """The good listing with other texts in some columns of the line at a place."""
    return with_row(place, changed_row(place, changes))


def changed_row(place, changes):
    """The line at a place with other texts in some columns."""
    fields = fields_at(place)
    for column, text in changes:
        fields[column] = text
    return joined(fields)


def fields_at(place):
    """The columns of the line at a place."""
    return [*ROWS, BEHIND][place].rstrip(b"\n").split(b"\t")


def joined(fields):
    """The line of these columns."""
    return b"\t".join(fields) + b"\n"


# 1. Good listings, and lists of each length.


def loaded_listings():
    """Good listings: document 01's, one without a void breath, and those of one breath."""
    yield loaded(EXAMPLE_LISTING)
    yield loaded(*ROWS)
    yield loaded(row(1, VOID), VOID_TOTAL)
    for word in GOOD_WORDS[1:]:
        yield loaded(row(1, word), row(TOTAL, word))
        yield loaded(row(1, word), VOID_TOTAL)
        yield loaded(row(1, VOID), row(TOTAL, word))


# Void, both ends and what is next to them, and ties of each kind, some marked.
GOOD_WORDS = [
    VOID,
    stored(0, 1),
    stored(0, 1, 1),
    stored(1, 1),
    stored(1, 1, 1),
    stored(277, 642),
    stored(277, 642, 1),
    stored(1, 16),
    stored(3, 16, 1),
    stored(1999, 2000),
    stored(1, 32767),
    stored(32766, 32767, 1),
]


def listings_of_recordings():
    """What is listed for recordings of the cases, refused ones among them, and a recording."""
    recordings = [cases_night.recording(pieces) for group in RECORDED for pieces in group()]
    for text in dict.fromkeys(map(night.listing, recordings)):
        yield loaded(text)
        yield loaded(text, numbers=14, words=20)
    yield loaded(EXAMPLE)


RECORDED = [
    cases_night.wrapped_clocks,
    cases_night.void_breaths,
    cases_night.void_and_good,
    cases_night.ends_of_the_ratio,
    cases_night.large_ratios,
    cases_night.first_stop,
    cases_night.empty_night,
    cases_rates.overlong_and_good,
    cases_rates.void_for_each_reason,
    cases_rates.rates_alone,
]


def ties_loaded():
    """Listings of every tie, and of few ties with the tenth below and the tenth above."""
    for pieces in cases_night.every_tie():
        yield loaded(night.listing(cases_night.recording(pieces)), numbers=50, words=51)
    for n, d in cases_night.few_ties():
        below = 1000 * n // d
        for tenths in (below, below + 1):
            columns = "%08x" % stored(n, d), "%d/%d" % (n, d), night.percent(tenths)
            yield loaded(line(1, *columns), VOID_TOTAL)
            yield loaded(row(1, VOID), line(TOTAL, *columns))


def list_lengths():
    """Lists with no place, with one too few, with enough and with more, in each pairing."""
    rng = random.Random(90)
    for count in (1, 2, 3, 11, 12, 13, 14):
        text = random_listing(rng, count)
        lengths = sorted({0, count - 1, count, count + 1, count + 3})
        for numbers, words in product(lengths, repeat=2):
            yield loaded(text, numbers=numbers, words=words)


def empty_night_loaded():
    """The listing of no breaths: lists without a place are long enough, and others keep theirs."""
    for numbers, words in product((0, 1, 2, 5, 12, 13), repeat=2):
        yield loaded(VOID_TOTAL, numbers=numbers, words=words)
    for numbers, words in ((MOST_PLACES, 0), (0, MOST_PLACES), (MOST_BREATHS, MOST_PLACES)):
        yield loaded(VOID_TOTAL, numbers=numbers, words=words)


def long_lists():
    """Lists for many breaths, and for few where there are many places."""
    for count in (9, 10, 99, 100, 999, 1000, 9999, 10000):
        lengths = [(count, count), (count - 1, count), (count, count - 1), (12, count), (count, 0)]
        for numbers, words in [*lengths, (count + 1, count + 13)]:
            yield loaded(VOID_TOTAL, numbers=numbers, words=words, voids=count)
    yield loaded(*ROWS, numbers=MOST_PLACES, words=MOST_PLACES)


# 2. Listings with one byte another, lost or doubled, or cut off.

# Each is the void breaths before it, and its bytes: with a void breath, void breaths alone, marked
# ends, numbers of two digits, and no breath.
DAMAGED = [
    (0, ROWS[0] + row(2, VOID) + ROWS[3]),
    (0, row(1, VOID) + VOID_TOTAL),
    (0, row(1, stored(0, 1, 1)) + row(2, stored(1, 1, 1)) + row(TOTAL, stored(1, 2))),
    (8, row(9, stored(1, 3)) + row(10, stored(1, 16, 1)) + row(TOTAL, stored(1, 11))),
    (0, VOID_TOTAL),
]


def damaged_at_each_byte(damages):
    """The listings above, damaged at each byte in turn, and lists longer than they need."""
    for voids, text in DAMAGED:
        for place, byte in enumerate(text):
            for damage in damages(byte):
                changed = text[:place] + bytes(damage) + text[place + 1 :]
                yield loaded(changed, numbers=voids + 3, words=voids + 4, voids=voids)


def bytes_changed():
    """Each byte another one: those next to it, digits, a tab, a line feed, 0 and 255."""
    return damaged_at_each_byte(other_bytes)


def other_bytes(byte):
    """Bytes to put in place of this one; the digit 8 sets the mark where that was 0."""
    others = dict.fromkeys([(byte - 1) % 256, (byte + 1) % 256, *b"08\t\n\0\xff"])
    return [[other] for other in others if other != byte]


def bytes_lost():
    """Each byte lost."""
    return damaged_at_each_byte(lambda byte: [[]])


def bytes_doubled():
    """Each byte twice."""
    return damaged_at_each_byte(lambda byte: [[byte, byte]])


def cut_listings():
    """The first bytes of each, none of them to all but one."""
    for voids, text in DAMAGED:
        for end in range(len(text)):
            yield loaded(text[:end], numbers=voids + 3, words=voids + 3, voids=voids)


# 3. Lines of another shape.

# By column, texts that no line has there.
SHAPELESS = {
    NAME: [
        *(b"", b"00", b"01", b"001", b"0001", b"-1", b"+1", b"1 ", b" 1", b"1.0", b"1.", b"1/1"),
        *(b"0x1", b"1a", b"a", b"1\r", b"1\0", b"\0", b"1,", b"1_0", b"1e0", b"#1", b"-", b"l"),
        *(b"All", b"ALL", b"al", b"alll", b"all ", b" all", b"all1", b"1all", b"all\0", b"0all"),
        *(b"refused", b"\xb2", b"\xd9\xa1", b"\xef\xbb\xbf1"),
    ],
    WORD: [
        *(b"", b"0", b"-", b"115028", b"0115028", b"011502820", b"0" * 7, b"0" * 9, b"0" * 16),
        *(b"0115028A", b"0115028G", b"0115028g", b"0115028:", b"0115028/", b"0115028`"),
        *(b"0115028@", b"0115028 ", b" 1150282", b"0115028\0", b"0x115028", b"-1150282"),
        *(b"+1150282", b"0115_282", b"0115.282", b"012502AA", b"012502aA", b"\xff" * 8),
    ],
    FRACTION: [
        *(b"", b"277", b"277/", b"/642", b"/", b"277//642", b"277/642/", b"/277/642", b"--"),
        *(b"1/277/642", b"0277/642", b"277/0642", b"00277/642", b"277/00", b"00/1", b"0/01"),
        *(b"277 /642", b"277/ 642", b" 277/642", b"277/642 ", b"-277/642", b"277/-642", b"-/-"),
        *(b"+277/642", b"277/+642", b"277.642", b"277:642", b"277\\642", b"2a7/642", b"277/6b2"),
        *(b"277/642\0", b"0x1/2", b"2,7/642", b"43.1"),
    ],
    PERCENTAGE: [
        *(b"", b"43", b"43.", b".1", b".", b"43.10", b"43.12", b"43.00", b"043.1", b"00.0"),
        *(b"043", b"43,1", b"43:1", b"43/1", b"43.1%", b"43.1 ", b" 43.1", b"43. 1", b"-43.1"),
        *(b"-0.0", b"+43.1", b"4 3.1", b"43..1", b"43.1.", b"4.3.1", b"43.a", b"4a.1", b"43.-"),
        *(b"43.1\0", b"43.1\r", b"43.1e0", b"0x2.1", b"--", b"277/642"),
    ],
}


def shapeless_fields():
    """Such a text in each line."""
    for column, texts in SHAPELESS.items():
        for text, place in product(texts, PLACES):
            yield loaded(with_fields(place, [(column, text)]))


def shapeless_hyphens():
    """Hyphens beside other texts, and others for them, in each line, void or with its own word."""
    for place, (fraction, decimal) in product(PLACES, NO_HYPHENS):
        columns = [(FRACTION, fraction), (PERCENTAGE, decimal)]
        yield loaded(with_fields(place, [(WORD, b"00000000"), *columns]))
        yield loaded(with_fields(place, columns))


# Texts for the last two columns that aren't two hyphens.
NO_HYPHENS = [
    *((b"-", b"43.1"), (b"277/642", b"-"), (b"-", b""), (b"", b"-"), (b"", b"")),
    *((b"--", b"-"), (b"-", b"--"), (b"- ", b"-"), (b"-", b" -"), (b"-", b"0.0")),
    *((b"0/1", b"-"), (b"-/-", b"-.-"), (b"_", b"_"), (b"\x96", b"\x96")),
]


def shapeless_total_first():
    """A first line `all` that is void but for texts of another shape: 13, and never 14."""
    for text in SHAPELESS[NAME]:
        if b"all" in text.lower():
            yield loaded(joined([text, b"00000000", b"-", b"-"]))
    for text in SHAPELESS[WORD]:
        yield loaded(joined([b"all", text, b"-", b"-"]))
    for fraction, decimal in NO_HYPHENS:
        yield loaded(joined([b"all", b"00000000", fraction, decimal]))
        yield loaded(joined([b"all", b"00000000", fraction, decimal]), *ROWS)
    body = VOID_TOTAL[:-1]
    for text in (body + b"\r\n", body + b" \n", body + b"\t\n", body.replace(b"\t", b" ") + b"\n"):
        yield loaded(text)
    # What an empty night had for a listing before CR 3.
    yield loaded(b"refused\t12\t1\n")


def shapeless_parting():
    """Other bytes for each tab and for the line feed of each line."""
    others = [b"", b" ", b"\t", b"\n", b"\t\t", b"\r", b"\r\n", b"\t ", b"\0", b"\v"]
    for place, gap in product(PLACES, range(4)):
        ends = [b"\t", b"\t", b"\t", b"\n"]
        for other in others:
            if other != ends[gap]:
                changed = [*ends[:gap], other, *ends[gap + 1 :]]
                text = b"".join(map(bytes.__add__, fields_at(place), changed))
                yield loaded(with_row(place, text))


def shapeless_count_of_fields():
    """Lines with too few columns and with too many."""
    for place in PLACES:
        fields = fields_at(place)
        for column in range(4):
            yield loaded(with_row(place, joined(fields[:column] + fields[column + 1 :])))
            yield loaded(with_row(place, joined(fields[: column + 1] + fields[column:])))
        for other in (fields[:1], fields[:2], [*fields, b""], [*fields, b"x"], [b"", *fields]):
            yield loaded(with_row(place, joined(other)))


def shapeless_lines():
    """Whole lines of other bytes, in place of each line and before each."""
    lines = [b"\n", b" \n", b"\t\n", b"\t\t\t\n", b"\0\n", b"\r\n", b"x\n", b"all\n", b"1\n"]
    lines += [b"refused\t10\t2\n", b"0\t277\t642\n", b"# 1\n", b"\xff\n", b"1 00000000 - -\n", RATE]
    for place, text in product(PLACES, lines):
        yield loaded(with_row(place, text))
        if place < len(ROWS):
            yield loaded(*ROWS[:place], text, *ROWS[place:])


def unended_lines():
    """Last lines without a line feed, good ones among them, and ones that earn other stops."""
    texts = [b"x", b" ", b"\0", b"\r", b"\t", b"-", b"1", b"all", b"9\t00000000\t-\t-"]
    texts += [b"1\t00000000\t-\t-", b"all\t00000000\t-\t-", b"all\t80000001\t0/1\t0.0"]
    for place in PLACES:
        for text in [*texts, joined(fields_at(place))[:-1]]:
            yield loaded(*ROWS[:place], text)


# 4. Lines out of sequence.


def numbers_out_of_sequence():
    """Other numbers at each line, 0, ones beyond and ones that lose bits; and `all` there."""
    for place in PLACES:
        number = place + 1
        others = [number - 1, number, number + 1, number + 2, 10 * number, 10 + number, 0]
        others += [65_535, 65_536, 65_537, 2**32 - 1, 2**32, 2**63, 2**64 - 1, 2**64, 10**20]
        others += [number + power for power in LOST]
        for other in dict.fromkeys([*others, TOTAL]):
            yield loaded(with_fields(place, [(NAME, str(other).encode("ascii"))]))


def rows_moved():
    """The lines in every order, each lost, each twice, and the listing twice."""
    for order in permutations(ROWS):
        yield loaded(*order)
    for place in range(len(ROWS)):
        yield loaded(with_row(place, b""))
        yield loaded(with_row(place, 2 * ROWS[place]))
    yield loaded(*ROWS, *ROWS)
    yield loaded(*ROWS, BEHIND, ROWS[3])


def no_total():
    """Lines of breaths and nothing behind them, for lists that are too short or not."""
    for count in range(len(ROWS)):
        for numbers, words in ((4, 5), (0, 0), (count, count)):
            yield loaded(*ROWS[:count], numbers=numbers, words=words)
    for voids in (9, 10, 99, 100, 1000):
        yield loaded(voids=voids)
        yield Load(voids, voids, voids, [(0, VOID_TOTAL)])


def total_first():
    """`all` before any breath, and not void: 14, and never 15."""
    for text in (ROWS[3], *(row(TOTAL, word) for word in GOOD_WORDS[1:4])):
        yield loaded(text)
        yield loaded(text, numbers=0, words=0)
        yield loaded(text, *ROWS)
        yield loaded(text, row(2, VOID), VOID_TOTAL)
        yield loaded(text, VOID_TOTAL)
        yield loaded(text, b"x")
    for columns in (("80000001", "0/1", "0.0"), ("00000000", "0/1", "0.0"), ("00010002", "-", "-")):
        yield loaded(line(TOTAL, *columns))


def total_first_by_word():
    """Such an `all` with each kind of word and its stored parts, and with each bit and hyphens."""
    for word in dict.fromkeys([*GOOD_WORDS, *every_kind_of_word()]):
        yield loaded(line(TOTAL, *stored_columns(word)))
    for place in range(slash.width(STORED)):
        yield loaded(line(TOTAL, "%08x" % 2**place, "-", "-"), numbers=0, words=0)


def total_first_by_columns():
    """Such an `all` with the word of a void one, and a fraction and a decimal of each kind."""
    fractions = ["0/1", "0/0", "1/0", "1/1", "0/2", "277/642", "18446744073709551616/1"]
    for fraction, decimal in product(fractions, ("0.0", "0.1", "43.1", "100.0")):
        yield loaded(line(TOTAL, "00000000", fraction, decimal))
    for before, after in ((b"", b"/1\t0.0\n"), (b"0/", b"\t0.0\n"), (b"0/1\t", b".0\n")):
        start = joined([b"all", b"00000000", before])[:-1]
        yield Load(0, 0, 0, [(1, start), (100_000, b"1"), (1, after)])


def behind_void_total():
    """A void `all` as the first line, and more: 13 where that hasn't the shape, else 14; line 2."""
    for text in (*BEHIND_TOTAL, *BYTES_BEHIND_TOTAL):
        yield loaded(VOID_TOTAL, text)
    for text in (row(1, VOID), VOID_TOTAL, b"\n", b"7"):
        yield Load(2, 2, 0, [(1, VOID_TOTAL), (MOST_BREATHS, text)])


# Lines that go behind a total, good ones, ones that earn each stop, and listings.
BEHIND_TOTAL = [
    *(row(1, VOID), row(2, VOID), row(1, stored(1, 2)), line(0, *night.VOID_COLUMNS)),
    *(VOID_TOTAL, ROWS[3], row(1, VOID) + VOID_TOTAL, row(2, VOID) + VOID_TOTAL, b"".join(ROWS)),
    *(line(2, "80010002", "1/2", "50.0"), line(TOTAL, "00000000", "0/1", "0.0")),
    *(row(1, VOID) + b"x", b"x\n" + row(1, VOID), b"\n" + VOID_TOTAL, b"refused\t10\t2\n"),
    *(b"\n", b" \n", b"all\n", b"01\t00000000\t-\t-\n", b"2\t0000000\t-\t-\n", b"\r\n"),
]

# Bytes that are no line, as no line feed ends them.
BYTES_BEHIND_TOTAL = [
    *(b"\0", b"\t", b"\r", b" ", b"\x1a", b"\xff", b"-", b"0", b"1", b"x", b"all"),
    *(row(1, VOID)[:-1], VOID_TOTAL[:-1]),
]


def before_void_total():
    """Void breaths of each kind of number, alone and before a void `all`, and other bytes there."""
    for number in (0, 1, 2, 65_535, 65_536, 65_537, 2**32 + 1, 2**64 + 1):
        yield loaded(line(number, *night.VOID_COLUMNS), VOID_TOTAL)
        yield loaded(line(number, *night.VOID_COLUMNS))
    for text in (b"\n", b"\r\n", b"0\n", b"x\n", b"0", b"1", b"0\t", b"1\t", b"\t", b" ", b"\0"):
        yield loaded(text, VOID_TOTAL)
    yield loaded(b"\xef\xbb\xbf", VOID_TOTAL)


def numbers_of_each_length():
    """Behind 9, 99 and so many breaths the next number, the one before it and the one after."""
    for voids in (8, 9, 10, 98, 99, 100, 998, 999, 1000, 9999):
        for number in (voids + 1, voids, voids + 2, "%d0" % voids, "0%d" % (voids + 1)):
            rest = line(number, *night.VOID_COLUMNS) + VOID_TOTAL
            yield loaded(rest, numbers=voids + 1, words=voids + 2, voids=voids)


# 5. Words that no listing has, and columns that aren't the word's.


def every_kind_of_word():
    """Edge words of each sign and mark, each bit alone and each bit turned, each word once."""
    signs_and_marks = product((0, 1), repeat=2)
    words = [word for each in signs_and_marks for word in edge_words(STORED, *each)]
    bits = [2**place for place in range(slash.width(STORED))]
    turned = [stored(277, 642) ^ bit for bit in bits]
    return list(dict.fromkeys([*words, *bits, *turned, 2**32 - 1]))


def kinds_of_word():
    """Each with its stored parts as its columns, and with hyphens, as a breath's and a total's."""
    for word in every_kind_of_word():
        for columns in (stored_columns(word), ("%08x" % word, "-", "-")):
            yield loaded(line(1, *columns), VOID_TOTAL)
            yield loaded(row(1, VOID), line(TOTAL, *columns))


def stored_columns(word):
    """The columns that a word's stored parts would have, whatever word it is."""
    _, numerator, _, denominator = slash.fixed_fields(STORED.k, word)
    decimal = night.percentage(numerator, denominator) if denominator else "0.0"
    return "%08x" % word, "%d/%d" % (numerator, denominator), decimal


def columns_of_the_value():
    """Unreduced words and zeros with messages that have the columns of the canonical word."""
    for n, d in ((2, 2), (2, 4), (3, 9), (554, 1284), (0, 3), (0, 32767), (32767, 32767)):
        _, *columns = listings.columns_of(stored(*slash.rounded(STORED, n, d)[0]))
        for mark in (0, 1):
            yield loaded(line(1, "%08x" % stored(n, d, mark), *columns), VOID_TOTAL)
            yield loaded(row(1, VOID), line(TOTAL, "%08x" % stored(n, d, mark), *columns))


def columns_of_other_words():
    """The columns of each good word for each other one; a mark alone doesn't change them."""
    for first, second in permutations(GOOD_WORDS, 2):
        _, *columns = listings.columns_of(second)
        yield loaded(line(1, "%08x" % first, *columns), VOID_TOTAL)


def other_fractions():
    """Good words with a fraction that isn't theirs, as a breath's and as the total's."""
    for word in GOOD_WORDS[1:]:
        hexadecimal, fraction, decimal = listings.columns_of(word)
        n, d = map(int, fraction.split("/"))
        pairs = [(d, n), (2 * n, 2 * d), (n + 1, d), (n, d + 1), (abs(n - 1), d), (n, d - 1)]
        pairs += [pair for power in LOST for pair in ((n + power, d), (n, d + power))]
        for pair in dict.fromkeys(pairs):
            columns = hexadecimal, "%d/%d" % pair, decimal
            yield loaded(line(1, *columns), VOID_TOTAL)
            yield loaded(row(1, VOID), line(TOTAL, *columns))


def other_percentages():
    """Good words with a percentage that isn't theirs, as a breath's and as the total's."""
    for word in GOOD_WORDS[1:]:
        hexadecimal, fraction, decimal = listings.columns_of(word)
        tenths = int(decimal.replace(".", ""))
        others = [abs(tenths - 1), tenths + 1, abs(tenths - 10), tenths + 10, 10 * tenths + 9]
        others += [1000 - tenths, *(tenths + 10 * power for power in LOST)]
        for other in dict.fromkeys(others):
            columns = hexadecimal, fraction, night.percent(other)
            yield loaded(line(1, *columns), VOID_TOTAL)
            yield loaded(row(1, VOID), line(TOTAL, *columns))


def columns_of_void():
    """The word of a void breath with a fraction, at each line."""
    for fraction, decimal in ((b"0/1", b"0.0"), (b"0/0", b"0.0"), (b"1/0", b"100.0")):
        for place in PLACES:
            columns = [(WORD, b"00000000"), (FRACTION, fraction), (PERCENTAGE, decimal)]
            yield loaded(with_fields(place, columns))


# 6. Several stops: 13 before 14 before 15 in a line, the first line before others, and 7 last.

# By stop, columns and texts that earn it in any line, but behind the total.
FAULTS = {
    13: [(NAME, b"01"), (WORD, b"0115028"), (FRACTION, b"277/0642"), (PERCENTAGE, b"43.10")],
    14: [(NAME, b"9"), (NAME, b"0"), (NAME, b"18446744073709551617")],
    15: [(WORD, b"80010002"), (FRACTION, b"554/1284"), (PERCENTAGE, b"43.2")],
}


def stops_alone():
    """Each fault at each line, for lists that are long enough, and for ones that aren't."""
    for place, faults in product(PLACES, FAULTS.values()):
        for fault in faults:
            for numbers, words in ((4, 5), (0, 0), (2, 5), (5, 2), (3, 13)):
                yield loaded(with_fields(place, [fault]), numbers=numbers, words=words)


def stops_in_one_line():
    """Two faults of different stops in each line, and three."""
    for place, count in product(PLACES, (2, 3)):
        for kinds in combinations(FAULTS.values(), count):
            for faults in product(*kinds):
                if len({column for column, _ in faults}) == count:
                    yield loaded(with_fields(place, faults))


def stops_in_two_lines():
    """A fault of each stop in each line, and one of each stop in each later line."""
    firsts = [faults[0] for faults in FAULTS.values()]
    for first, second in combinations(PLACES, 2):
        for fault, later in product(firsts, repeat=2):
            rows = [*ROWS, BEHIND][: max(second + 1, len(ROWS))]
            rows[first] = changed_row(first, [fault])
            rows[second] = changed_row(second, [later])
            yield loaded(*rows)


# 7. Fields and lines of very many bytes.


def huge_fields():
    """Very many digits in each column of the second line and of the total's."""
    for count, place in product((40, 5_000, 100_000, 1_000_000), (1, 3)):
        fields = fields_at(place)
        for column, before, after in HUGE:
            start = b"\t".join([*fields[:column], before])
            rest = b"\t".join([after, *fields[column + 1 :]]) + b"\n"
            for digit in b"19", b"0", b"a":
                text = [(1, start), (count, digit), (1, rest)]
                yield Load(4, 5, 0, [(1, b"".join(ROWS[:place])), *text, (1, ROWS[3])])


# A column, and what is before the digits there and behind them.
HUGE = [
    (NAME, b"", b""),
    (WORD, b"", b""),
    (FRACTION, b"", b"/5"),
    (FRACTION, b"2/", b""),
    (PERCENTAGE, b"", b".0"),
    (PERCENTAGE, b"40.", b""),
]


def huge_lines():
    """Very many bytes of one kind: alone, before a listing and behind it."""
    for byte in (b"\n", b"\t", b"1", b"0", b"-", b"x", b"\0", b"\xff", b"all", b"1\t"):
        many = (1_000_000 // len(byte), byte)
        yield Load(2, 2, 0, [many])
        yield Load(4, 5, 0, [many, *once(*ROWS)])
        yield Load(4, 5, 0, [*once(*ROWS), many])
    for text in (ROWS[0], ROWS[3], row(1, VOID), VOID_TOTAL):
        yield Load(2, 2, 0, [(50_000, text)])
        yield Load(4, 5, 0, [*once(*ROWS), (50_000, text)])
    yield Load(2, 2, 0, [(LONGEST_RECORDING, b"7")])
    yield Load(2, 2, 0, [(LONGEST_RECORDING - 1, b"7"), (1, b"\n")])


# 8. As many breaths as there can be, and more.


def most_breaths():
    """65,536 breaths, and one fewer, with lists about as long."""
    most = MOST_BREATHS
    lengths = [(most, most), (MOST_PLACES, most + 1), (most - 1, most), (most, most - 1), (0, 0)]
    for numbers, words in lengths:
        yield loaded(VOID_TOTAL, numbers=numbers, words=words, voids=most)
    last = row(most, stored(277, 642, 1))
    yield loaded(last, ROWS[3], numbers=most, words=MOST_PLACES, voids=most - 1)
    yield loaded(ROWS[3], numbers=most, words=most, voids=most - 1)


def too_many_breaths():
    """Breath 65,537 and others behind it, and no total."""
    for voids in (MOST_BREATHS, MOST_BREATHS + 1, MOST_PLACES):
        yield loaded(numbers=MOST_PLACES, words=MOST_PLACES, voids=voids)
    yield loaded(VOID_TOTAL, numbers=MOST_PLACES, words=MOST_PLACES, voids=MOST_BREATHS + 1)
    yield loaded(VOID_TOTAL, numbers=3, words=4, voids=MOST_PLACES)


def bad_last_rows():
    """Each fault at lines 65,535 to 65,537, a total behind it, and lines that aren't ended."""
    for voids in (MOST_BREATHS - 2, MOST_BREATHS - 1, MOST_BREATHS):
        number = voids + 1
        texts = [b"\n", b"0" + row(number, VOID), line(number, "00010002", "1/2", "50.1")]
        texts += [row(other, VOID) for other in (voids, number % MOST_BREATHS, number + 2**32)]
        for text in [*(text + VOID_TOTAL for text in texts), row(number, VOID)[:-1]]:
            yield loaded(text, numbers=13, words=MOST_PLACES, voids=voids)


def bad_last_totals():
    """Behind 65,536 breaths a total of each fault, and lines behind a good total."""
    totals = [b"all\n", VOID_TOTAL[:-1], b"all\t00000002\t-\t-\n", b"all\t00000001\t0/1\t0.1\n"]
    behind = [b"\n", b"x", VOID_TOTAL, row(MOST_BREATHS + 1, VOID), row(MOST_BREATHS + 2, VOID)]
    for text in [*totals, *(VOID_TOTAL + text for text in behind)]:
        yield loaded(text, numbers=MOST_BREATHS, words=MOST_BREATHS, voids=MOST_BREATHS)


# 9. Random listings.


def random_listing(rng, count):
    """A good listing of so many random words."""
    words = [random_listed(rng) for _ in range(count)]
    return listings.print_words(words, random_listed(rng))


def random_listed(rng):
    """A word that a listing can have: void one time in eight, else a ratio of any bit counts."""
    if rng.getrandbits(3) == 0:
        return VOID
    whole = random_part(rng, chosen(rng, range(1, STORED.k + 1)))
    ratio = Fraction(rng.getrandbits(STORED.k) % (whole + 1), whole)
    return stored(ratio.numerator, ratio.denominator, rng.getrandbits(1))


def random_listings():
    """Good listings of up to 40 breaths."""
    rng = random.Random(91)
    for _ in range(120):
        count = chosen(rng, range(1, 41))
        lists = {"numbers": count + rng.getrandbits(2), "words": count + rng.getrandbits(2)}
        yield loaded(random_listing(rng, count), **lists)


def damaged_listings():
    """Listings with a few bytes changed, lost or put in."""
    rng = random.Random(92)
    for _ in range(250):
        text = random_listing(rng, 1 + rng.getrandbits(2))
        for _ in range(1 + rng.getrandbits(1)):
            text = cases_night.damaged(rng, text)
        yield loaded(text)


def mixed_rows():
    """Lines whose columns are taken at random from a few, good ones and faults of each stop."""
    rng = random.Random(93)
    names = [b"1", b"2", b"3", b"4", b"all", b"all", b"01"]
    words = [(b"00010002", b"1/2", b"50.0"), (b"00018002", b"1/2", b"50.0")]
    words += [(b"00000000", b"-", b"-"), (b"00010002", b"-", b"-"), (b"00020004", b"1/2", b"50.0")]
    for _ in range(250):
        text = b""
        for number in range(1, 2 + chosen(rng, range(5))):
            name = b"%d" % number if rng.getrandbits(2) else chosen(rng, names)
            text += joined([name, *(chosen(rng, words) if rng.getrandbits(1) else words[0])])
        yield loaded(text, VOID_TOTAL if rng.getrandbits(2) else b"")


GROUPS = [
    loaded_listings,
    listings_of_recordings,
    ties_loaded,
    list_lengths,
    empty_night_loaded,
    long_lists,
    bytes_changed,
    bytes_lost,
    bytes_doubled,
    cut_listings,
    shapeless_fields,
    shapeless_hyphens,
    shapeless_total_first,
    shapeless_parting,
    shapeless_count_of_fields,
    shapeless_lines,
    unended_lines,
    numbers_out_of_sequence,
    rows_moved,
    no_total,
    total_first,
    total_first_by_word,
    total_first_by_columns,
    behind_void_total,
    before_void_total,
    numbers_of_each_length,
    kinds_of_word,
    columns_of_the_value,
    columns_of_other_words,
    other_fractions,
    other_percentages,
    columns_of_void,
    stops_alone,
    stops_in_one_line,
    stops_in_two_lines,
    huge_fields,
    huge_lines,
    most_breaths,
    too_many_breaths,
    bad_last_rows,
    bad_last_totals,
    random_listings,
    damaged_listings,
    mixed_rows,
]
