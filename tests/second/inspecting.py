"""What the program `inspect` prints of the lines that it reads: what each word says.

The papers have words, values and quotients, but no such program. It goes line by line:

    fixed K, floating K   sets the format of the words behind it and prints nothing; unless that
                          is unknown: stop 1, which the words behind it earn as well
    1 to 16 digits        a word in hexadecimal, of either case: its columns are printed; or
                          stop 1 (where no format is set, too), 4 or 5
    any other line        stop 13; but 9 for one of over 32 bytes or without a line feed

A line that stops prints `refused`, the stop's number and the line's; then the next one is read.
"""

import io
import re

import night
import operations
import slash
from listings import BAD_SHAPE
from night import BAD_LINE_END, MOST_BYTES
from slash import FIXED, FLOATING, NOT_A_NUMBER, Stop

# The words for the kinds of format, and for the marks.
KINDS = {b"fixed": FIXED, b"floating": FLOATING}
MARKS = {0: "exact", 1: "approximate"}

# The lines that set a format, known or not, and the lines that are words.
FORMAT_LINE = re.compile(rb"(fixed|floating) ([0-9]|[1-9][0-9])\n")
WORD_LINE = re.compile(rb"([0-9a-fA-F]{1,16})\n")

# The kind and the k before any is set: they make no format either.
NO_FORMAT = (None, None)

# The digits behind the point.
PLACES = 6

# What stands for the decimal and for the quotients of a value that has none.
NONE = "-"


def inspection(text):
    """What is printed for the bytes that are read, as bytes."""
    return "".join(printed_lines(text)).encode("ascii")


def printed_lines(text):
    """Each line that is printed."""
    kind_and_k = NO_FORMAT
    for place, line in enumerate(io.BytesIO(text), 1):
        try:
            check_end(line)
            if FORMAT_LINE.fullmatch(line):
                kind_and_k = named_format(line)
                slash.make_format(*kind_and_k)
            else:
                yield word_line(*kind_and_k, word_of(line))
        except Stop as stop:
            yield night.refusal(Stop(stop.number, place))


# The lines, read.


def check_end(line):
    """Stop 9 for a line of too many bytes or without a line feed."""
    if not line.endswith(b"\n") or len(line) > MOST_BYTES + len(b"\n"):
        raise Stop(BAD_LINE_END)


def named_format(line):
    """The kind and the k that a line sets, known or not."""
    kind, k = FORMAT_LINE.fullmatch(line).groups()
    return KINDS[kind], int(k)


def word_of(line):
    """The word that a line is; stop 13 for a line that is none."""
    digits = WORD_LINE.fullmatch(line)
    if digits is None:
        raise Stop(BAD_SHAPE)
    return int(digits[1], 16)


# What is printed of a word.


def word_line(kind, k, word):
    """The columns of a word as a line; stops 1, 4 and 5."""
    form = slash.make_format(kind, k)
    value = slash.read_word(form, word)
    fraction = "%d/%d" % (value.numerator, value.denominator)
    columns = sign_of(value), fraction, MARKS[value.mark], decimal_of(value)
    return night.tabbed(digits_of(form, word), (*columns, quotients_of(form, word)))


def digits_of(form, word):
    """A word in as many hexadecimal digits as its format's bits take."""
    return "%0*x" % (-(-slash.width(form) // 4), word)


def sign_of(value):
    """The sign of a value, which a not-a-number hasn't."""
    return "-" if value.sign and value.value_class != NOT_A_NUMBER else "+"


def decimal_of(value):
    """The size of a finite value with six digits behind the point.

    It is the nearest such number, half to even: Python's own round does just that with
    an exact fraction.
    """
    if value.denominator == 0:
        return NONE
    last_places = round(operations.size_of(value) * 10**PLACES)
    return "%d.%0*d" % (last_places // 10**PLACES, PLACES, last_places % 10**PLACES)


def quotients_of(form, word):
    """The partial quotients of a word's size, parted by one space."""
    return " ".join(map(str, operations.quotients_of(form, word))) or NONE
