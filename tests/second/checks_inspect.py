"""Checks of what the program `inspect` prints: of its cases, of random texts, and by hand.

Here each line is found in a table or taken apart byte by byte, and the columns of a word are read
back: its parts make up the word again, its quotients the size, and that is held against the
decimal.
"""

import io
import random
from collections import namedtuple
from fractions import Fraction
from itertools import product

import cases_inspect
import inspecting
import operations
import slash
from cases_common import chosen, random_word
from cases_files import READ
from cases_night import damaged
from cases_unary import long_words
from checks_counts import is_undefined
from slash import FIXED, FLOATING, FRACTION, INFINITY, NOT_A_NUMBER, ZERO

# Texts and what is printed for them, worked out by hand.
INSPECTED = [
    (b"", ""),
    (b"fixed 15\n", ""),
    (b"fixed 15\n1150282\n", "01150282\t+\t277/642\texact\t0.431464\t0 2 3 6 1 3 3\n"),
    (b"floating 26\n4C0058f1\n", "4c0058f1\t+\t355/113\tapproximate\t3.141593\t3 7 16\n"),
    # Fixed k = 2: -3/3 marked, -0/1, 0/3, -1/0, 3/0, and 0/0 with its sign's bit and its mark.
    (b"fixed 2\n3F\n", "3f\t-\t3/3\tapproximate\t1.000000\t1\n"),
    (b"fixed 2\n21\n", "21\t-\t0/1\texact\t0.000000\t0\n"),
    (b"fixed 2\n3\n", "03\t+\t0/1\texact\t0.000000\t0\n"),
    (b"fixed 2\n28\n", "28\t-\t1/0\texact\t-\t-\n"),
    (b"fixed 2\n018\n", "18\t+\t1/0\texact\t-\t-\n"),
    (b"fixed 2\n24\n", "24\t+\t0/0\tapproximate\t-\t-\n"),
    # Floating k = 2 has 4 bits: 1/1, -1/0 marked, and a not-a-number with all bits.
    (b"floating 2\n1\n", "1\t+\t1/1\texact\t1.000000\t1\n"),
    (b"floating 2\ne\n", "e\t-\t1/0\tapproximate\t-\t-\n"),
    (b"floating 2\nF\n", "f\t+\t0/0\tapproximate\t-\t-\n"),
    # Floating k = 3 has 6: 1/3, then stops 5 and 4, and 4 before 5.
    (b"floating 3\n7\n", "07\t+\t1/3\texact\t0.333333\t0 3\n"),
    (b"floating 3\n8\n40\n48\n", "refused\t5\t2\nrefused\t4\t3\nrefused\t4\t4\n"),
    # Ties: 1/128 is 0.0078125 and 3/128 is 0.0234375; 1/2000000 goes to 0, its complement to 1.
    (b"fixed 8\n280\n", "00280\t+\t1/128\texact\t0.007812\t0 128\n"),
    (b"fixed 8\n680\n", "00680\t+\t3/128\texact\t0.023438\t0 42 1 2\n"),
    (
        b"fixed 31\n1001e8480\n1E847F001E8480\n",
        "00000001001e8480\t+\t1/2000000\texact\t0.000000\t0 2000000\n"
        "001e847f001e8480\t+\t1999999/2000000\texact\t1.000000\t0 1 1999999\n",
    ),
    # No format yet, an unknown one, and one that a bad line doesn't change.
    (b"1\nfixed 1\n1\nx\n", "refused\t1\t1\nrefused\t1\t2\nrefused\t1\t3\nrefused\t13\t4\n"),
    (b"fixed 3\nfixed 32\nfixed 03\n10\n", "refused\t1\t2\nrefused\t13\t3\nrefused\t1\t4\n"),
    (b"fixed 3\nfixed 015\n10\n", "refused\t13\t2\n10\t+\t1/0\texact\t-\t-\n"),
    (b"floating 33\nfloating 32\n0\n", "refused\t1\t1\n0000000000\t+\t0/1\texact\t0.000000\t0\n"),
    # Line ends, and lines of 16, 17, 32 and 33 bytes.
    (b"\n\r\n", "refused\t13\t1\nrefused\t13\t2\n"),
    (b"1", "refused\t9\t1\n"),
    (b"fixed 15", "refused\t9\t1\n"),
    (b"1" * 16 + b"\n" + b"1" * 17 + b"\n", "refused\t1\t1\nrefused\t13\t2\n"),
    (b"1" * 32 + b"\n" + b"1" * 33 + b"\n\n", "refused\t13\t1\nrefused\t9\t2\nrefused\t13\t3\n"),
    (b"1" * 40000, "refused\t9\t1\n"),
]

# Each line that sets a format, without its line feed, and that format, which may be unknown.
FORMATS = {
    **{b"fixed %d" % k: (FIXED, k) for k in range(100)},
    **{b"floating %d" % k: (FLOATING, k) for k in range(100)},
}
KNOWN = set(slash.all_formats())

# The bytes of a word.
DIGITS = b"0123456789abcdefABCDEF"

# The stops there are.
STOPS = {1, 4, 5, 9, 13}

# Half of the last place of a decimal.
HALF = Fraction(1, 2 * 10**6)

# The random texts that are looked at, and what they are made of besides good lines.
RANDOM_TEXTS = 1500
RANDOM_BYTES = b"\n\n\n0123456789abcdefABCDEF xgG\r\0\xff"

# A line without its line feed, its place from 1, its first byte's from 0; the kind and k that are
# set when it is read; its stop or None; and the word that it is, or None.
Reading = namedtuple("Reading", "line place start form stop word")

# What a printed line says of a word.
Columns = namedtuple("Columns", "digits sign fraction mark decimal quotients")


def check_inspect():
    """Asserts everything below."""
    for text, expected in INSPECTED:
        assert inspecting.inspection(text).decode("ascii") == expected, (text, expected)
    check_cases()
    check_random_texts()


# Texts, read by another way.


def readings(text):
    """What each line of a text is."""
    start, form = 0, None
    for place, line in enumerate(text.split(b"\n"), 1):
        ended = start + len(line) < len(text)
        if ended or line:
            form = FORMATS.get(line, form) if ended else form
            yield Reading(line, place, start, form, *stop_and_word(line, ended, form))
        start += len(line) + 1


def stop_and_word(line, ended, form):
    """A line's stop, and the word that it is where it has none."""
    if not ended or len(line) >= 33:
        return 9, None
    if line in FORMATS:
        return None if form in KNOWN else 1, None
    if len(line) not in range(1, 17) or line.translate(None, DIGITS):
        return 13, None
    word = int(line, 16)
    stop = stop_of_word(form, word)
    return stop, None if stop else word


def stop_of_word(form, word):
    """The stop of a word of a format, or None."""
    if form not in KNOWN:
        return 1
    form = slash.Format(*form)
    if word.bit_length() > slash.width(form):
        return 4
    return 5 if is_undefined(form, word) else None


def check_text(text):
    """Asserts all that is printed for a text; the format, the word and the columns of each word."""
    printed = io.StringIO(inspecting.inspection(text).decode("ascii"))
    words = []
    for reading in readings(text):
        if reading.stop is not None:
            expected = "refused\t%d\t%d\n" % (reading.stop, reading.place)
            assert printed.readline() == expected, reading
        elif reading.word is not None:
            form, line = slash.Format(*reading.form), printed.readline()
            assert line.endswith("\n"), reading
            columns = Columns(*line[:-1].split("\t"))
            check_columns(form, reading.word, columns)
            words.append((form, reading.word, columns))
    assert printed.read() == "", text
    return words


def check_random_texts():
    """Asserts the printed lines of texts of random bytes, and of good lines with damages."""
    rng = random.Random(197)
    for _ in range(RANDOM_TEXTS):
        line = chosen(rng, [*FORMATS])
        form = FORMATS[line] if FORMATS[line] in KNOWN else cases_inspect.KEPT
        word = b"%x\n" % random_word(rng, slash.Format(*form))
        length = chosen(rng, range(40))
        noise = bytes(chosen(rng, RANDOM_BYTES) for _ in range(length))
        check_text(line + b"\n" + word + noise + word)
        check_text(damaged(rng, line + b"\n" + word) + noise)


# A word's columns.


def check_columns(form, word, columns):
    """Asserts the columns of a word that doesn't stop."""
    widest = 2 ** slash.width(form) - 1
    assert columns.digits == ("%x" % word).zfill(len("%x" % widest)), (form, word)
    sign, mark = sign_and_mark(form, word)
    assert columns.mark == ("approximate" if mark else "exact"), (form, word)
    numerator, denominator = map(int, columns.fraction.split("/"))
    if (numerator, denominator) == (0, 0):
        # No number is normalised to that word.
        assert operations.unary(form, 7, word) == slash.not_a_number_word(form), (form, word)
        assert columns.sign == "+", (form, word)
    else:
        assert columns.sign == "+-"[sign], (form, word)
        # A fraction's parts are those of the word itself.
        made = slash.pair_word(form, sign, (numerator, denominator), mark)
        special = 0 in (numerator, denominator)
        assert made == (operations.unary(form, 7, word) if special else word), (form, word)
    if denominator == 0:
        assert columns.decimal == columns.quotients == "-", (form, word)
    else:
        check_decimal(columns.decimal, Fraction(numerator, denominator))
        check_quotients(columns.quotients, Fraction(numerator, denominator))


def sign_and_mark(form, word):
    """A word's sign, its highest bit, and its mark."""
    sign = word >> slash.width(form) - 1
    place = form.k if form.kind == FIXED else slash.width(form) - 2
    return sign, word >> place & 1


def check_decimal(decimal, size):
    """Asserts that no number of six places is nearer to a size, nor as near if it is even."""
    whole, places = decimal.split(".")
    assert whole == str(int(whole)) and len(places) == 6, (decimal, size)
    missed = abs(Fraction(decimal) - size)
    assert missed < HALF or missed == HALF and int(places) % 2 == 0, (decimal, size)


def check_quotients(quotients, size):
    """Asserts that the quotients make up a size again, the last at least 2 or the only one."""
    numbers = [int(quotient) for quotient in quotients.split(" ")]
    assert quotients == " ".join(map(str, numbers)), (quotients, size)
    assert slash.truncated_value(numbers) == size, (quotients, size)
    assert min(numbers[1:], default=1) >= 1, (quotients, size)
    assert len(numbers) == 1 or numbers[-1] >= 2, (quotients, size)


# What the cases have.


def check_cases():
    """Asserts all that is printed of the cases, and that they have what they are there for."""
    text = cases_inspect.text()
    words = check_text(text)
    lines = list(readings(text))
    check_lines_met(text, lines)
    check_stops_met(lines)
    check_values_met(words)
    check_ties_met(words)
    check_counts_met(words)
    check_cuts_met(lines)


def check_lines_met(text, lines):
    """Asserts each byte, each length about the limits, each digit of words and each format line."""
    assert set(text) == set(range(256)) and not text.endswith(b"\n")
    assert {len(line.line) for line in lines} >= {*range(35), 2 * READ - 1}
    words = [line.line for line in lines if line.word is not None]
    assert {len(word) for word in words} == set(range(1, 17))
    assert set(b"".join(words)) == set(DIGITS)
    assert {line.line for line in lines} >= set(FORMATS)


def check_stops_met(lines):
    """Asserts each stop, those of words in each kind, and 4 where 5 would come next.

    A word stops with 1 where no format is set, and where an unknown one is.
    """
    assert {line.stop for line in lines} == STOPS | {None}
    words = [line for line in lines if not line.line.translate(None, DIGITS)]
    stops = {(line.form and line.form[0], line.stop) for line in words}
    assert stops >= {(None, 1), (FIXED, 1), (FLOATING, 1), (FIXED, 4), (FLOATING, 4), (FLOATING, 5)}
    beyond = [line for line in words if line.stop == 4]
    assert any(is_undefined(slash.Format(*line.form), int(line.line, 16)) for line in beyond)


def check_values_met(words):
    """Asserts words of every format, each class of value in each way, and all of small formats."""
    assert {form for form, _, _ in words} == KNOWN
    met = set()
    for form, word, _ in words:
        met.add((form.kind, slash.read_word(form, word).value_class, *sign_and_mark(form, word)))
    classes = (FRACTION, ZERO, INFINITY, NOT_A_NUMBER)
    assert met == set(product((FIXED, FLOATING), classes, (0, 1), (0, 1)))
    check_messages_met(words)
    for form in cases_inspect.SMALLEST:
        good = {word for word in range(2 ** slash.width(form)) if not is_undefined(form, word)}
        assert {word for other, word, _ in words if other == form} == good, form


def check_messages_met(words):
    """Asserts zeros, infinities and not-a-numbers with messages, in both kinds.

    Such a word isn't what it is normalised to. As a not-a-number loses its sign and its mark
    besides, only words that have neither are looked at.
    """
    met = set()
    for form, word, columns in words:
        unsigned = sign_and_mark(form, word) == (0, 0)
        if "0" in columns.fraction.split("/") and unsigned:
            if operations.unary(form, 7, word) != word:
                met.add((form.kind, columns.fraction))
    assert met == set(product((FIXED, FLOATING), ("0/1", "1/0", "0/0"))), met


def check_ties_met(words):
    """Asserts ties over each denominator there is, of each kind up and down; and sizes that go to
    a whole number, down to 0, down to another and up. Whole parts have one to ten digits.
    """
    met, wholes = set(), set()
    for form, _, columns in words:
        if columns.decimal != "-":
            size, decimal = Fraction(columns.fraction), Fraction(columns.decimal)
            if abs(decimal - size) == HALF:
                met.add((form.kind, size.denominator, decimal > size))
            if size != decimal == int(decimal):
                wholes.add((decimal == 0, decimal > size))
    assert {d for kind, d, _ in met if kind == FIXED} == tie_denominators()
    assert {(kind, up) for kind, _, up in met} == set(product((FIXED, FLOATING), (False, True)))
    assert wholes == {(True, False), (False, False), (False, True)}
    lengths = {len(columns.decimal) for _, _, columns in words}
    assert lengths == {len("-"), *range(len("1.000000"), len("1000000000.000000") + 1)}


def tie_denominators():
    """The denominators of all ties in lowest terms, found by trying each number.

    Twice the last places of n/d are 2 * 10^6 * n / d, and no part of d divides n.
    """
    twice = 2 * 10**6
    return {d for d in range(1, twice + 1) if twice % d == 0 and twice // d % 2 == 1}


def check_counts_met(words):
    """Asserts of every format as many quotients as Fibonacci numbers make, and unreduced parts."""
    counts, unreduced = {}, set()
    for form, word, columns in words:
        count = 0 if columns.quotients == "-" else columns.quotients.count(" ") + 1
        counts[form] = max(count, counts.get(form, 0))
        if operations.common_divisor(form, word) > 1:
            unreduced.add(form.kind)
    for form in KNOWN:
        longest = [operations.quotient_count(form, word) for word in long_words(form, [1])]
        assert counts[form] == max(longest), form
    assert unreduced == {FIXED, FLOATING}


def check_cuts_met(lines):
    """Asserts words of 16 digits that the end of a read cuts behind each number of bytes."""
    long = [line.start for line in lines if line.word is not None and len(line.line) == 16]
    assert {-start % READ for start in long} >= set(range(18))
