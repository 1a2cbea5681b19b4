"""Words told column by column, as the program `inspect` prints them."""

import re
from fractions import Fraction

from .library import made_stop, number
from .stops import Stop
from .words import Format, Word

FORMAT_LINE = re.compile(rb"(fixed|floating) ([0-9]|[1-9][0-9])\n")
WORD_LINE = re.compile(rb"([0-9a-fA-F]{1,16})\n")

# What stands in a column that has nothing to tell.
NONE = "-"


def inspect(form, words):
    """The lines that tell words of a format, each by its bits: a line a word, its columns parted by tabs.

    The columns are the word, its sign, its fraction as it is stored, its mark, its size to six decimal places
    and its partial quotients. Stops 4 and 5.

    >>> print(inspect(Format.fixed(15), [0x01150282]).expandtabs(), end="")
    01150282        +       277/642 exact   0.431464        0 2 3 6 1 3 3
    """
    return "".join(told(Word(form, bits)) for bits in words)


def told(word):
    """The line that tells a word."""
    columns = (
        word.digits,
        "-" if word.sign else "+",
        f"{word.numerator}/{word.denominator}",
        "approximate" if word.mark else "exact",
        decimal(word),
        " ".join(map(str, word.quotients)) or NONE,
    )
    return "\t".join(columns) + "\n"


def decimal(word):
    """The size of a word's value to six decimal places, the nearest, at a tie the even one."""
    if word.is_infinite or word.is_nan:
        return NONE
    millionths = round(Fraction(word.numerator * 10**6, word.denominator))
    return "%d.%06d" % divmod(millionths, 10**6)


def answers(lines):
    """What the program `inspect` prints for the lines of its input, both as bytes with their line feeds.

    A line `fixed K` or `floating K` tells the format of the words that follow, each a line of hexadecimal
    digits. A line that is refused is answered by `refused`, the stop's number and the line.

    >>> for answer in answers([b"floating 26\\n", b"4c0058f1\\n", b"word\\n"]):
    ...     print(answer)
    b'4c0058f1\\t+\\t355/113\\tapproximate\\t3.141593\\t3 7 16\\n'
    b'refused\\t13\\t3\\n'
    """
    form = None
    for place, line in enumerate(lines, 1):
        try:
            check_end(line)
            if FORMAT_LINE.fullmatch(line):
                form = None
                form = format_of(line)
            else:
                yield told(word_of(form, line)).encode("ascii")
        except Stop as stop:
            yield b"refused\t%d\t%d\n" % (stop.number, place)


def check_end(line):
    """Stop 9 for a line that is too long or has no line feed."""
    if not line.endswith(b"\n") or len(line) > number("LINE_BYTES"):
        raise made_stop("BAD_LINE_END")


def format_of(line):
    """The format that a line tells; stop 1 where there is no such one."""
    kind, k = FORMAT_LINE.fullmatch(line).groups()
    return {b"fixed": Format.fixed, b"floating": Format.floating}[kind](int(k))


def word_of(form, line):
    """The word that a line tells; stop 13 for another line, 1 where there is no format, then 4 and 5."""
    shape = WORD_LINE.fullmatch(line)
    if shape is None:
        raise made_stop("BAD_LISTED_LINE")
    if form is None:
        raise made_stop("UNKNOWN_FORMAT")
    return Word(form, int(shape[1], 16))
