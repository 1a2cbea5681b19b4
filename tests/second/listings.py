"""Listings read back and printed again, from documents 00 and 01 and CRs 1 to 3 of 02 alone."""

import io
import re
from functools import lru_cache
from math import gcd

import night
import operations
import slash
from slash import Stop

# Numbers of the stops that the listing can cause.
BAD_SHAPE = 13
OUT_OF_SEQUENCE = 14
BAD_WORD = 15

# What the last line begins with, in place of a breath's number.
TOTAL = "all"

# The word of a void breath.
VOID = 0

# The shape of a line: its name, then the columns of a word.
WHOLE = "(?:0|[1-9][0-9]*)"
COLUMNS = rf"[0-9a-f]{{8}}\t(?:-\t-|{WHOLE}/{WHOLE}\t{WHOLE}\.[0-9])"
LINE = re.compile(rf"(all|{WHOLE})\t({COLUMNS})\n")


# The listing, read.


def load_into(text, numbers, words):
    """Puts the breaths' numbers and words into lent lists; their count and the total's word.

    Stops 13, 14 and 15; then 7, with place 0, for a list shorter than the breaths.
    """
    loaded, total = load(text)
    count = len(loaded)
    if min(len(numbers), len(words)) < count:
        raise Stop(operations.LIST_TOO_SHORT)
    numbers[:count] = range(1, count + 1)
    words[:count] = loaded
    return count, total


def load(text):
    """The words of the breaths and of the total, of a listing as bytes; stops 13, 14 and 15."""
    words, ended = [], False
    for place, line in enumerate(lines_of(text), 1):
        name, columns = shaped(line, place)
        if ended or not in_sequence(name, columns, place):
            raise Stop(OUT_OF_SEQUENCE, place)
        words.append(int(columns[0], 16))
        if columns != columns_of(words[-1]):
            raise Stop(BAD_WORD, place)
        ended = name == TOTAL
    if not ended:
        raise Stop(OUT_OF_SEQUENCE, len(words) + 1)
    *words, total = words
    return words, total


def lines_of(text):
    """The lines with their line feeds, which alone end one; each byte is a character."""
    return io.StringIO(text.decode("latin-1"), newline="\n")


def shaped(line, place):
    """A line's name and its other columns; stop 13 for a line of another shape."""
    shape = LINE.fullmatch(line)
    if shape is None:
        raise Stop(BAD_SHAPE, place)
    name, columns = shape.groups()
    return name, tuple(columns.split("\t"))


def in_sequence(name, columns, place):
    """Whether a line of this name and these columns may be at a place with no total before it.

    A number is held against the place as text, however long it is. A total may be the first line
    where it is void, as that of no breaths is.
    """
    if name == TOTAL:
        return place > 1 or columns == night.VOID_COLUMNS
    return name == str(place) and place <= night.MOST_BREATHS


# The listing, printed.


def print_words(words, total):
    """The listing of the breaths' words and the total's, as bytes; stops 14 and 15."""
    listed = []
    for place, (name, word) in enumerate(named(words, total), 1):
        columns = columns_of(word)
        if not in_sequence(name, columns, place):
            raise Stop(OUT_OF_SEQUENCE, place)
        if columns is None:
            raise Stop(BAD_WORD, place)
        listed.append(night.tabbed(name, columns))
    return "".join(listed).encode("ascii")


def named(words, total):
    """Each word behind what its line begins with."""
    for number, word in enumerate(words, 1):
        yield str(number), word
    yield TOTAL, total


# A listing of many lines often holds few different words.
@lru_cache(maxsize=2**12)
def columns_of(word):
    """The columns of a word that is void, or canonical with sign 0 and from 0 to 1; else None."""
    if word == VOID:
        return night.VOID_COLUMNS
    if word >= 2 ** slash.width(night.STORED):
        return None
    sign, numerator, mark, denominator = slash.fixed_fields(night.STORED.k, word)
    # 0 and a denominator have that denominator in common, so that 0/1 is the one zero.
    if sign == 1 or numerator > denominator or gcd(numerator, denominator) != 1:
        return None
    return night.pair_columns((numerator, denominator), mark)


# The listing, read and printed again.


def relisting(text):
    """What is printed for a listing that is read back: its words' listing, or the stop."""
    try:
        return print_words(*load(text))
    except Stop as stop:
        return night.refusal(stop).encode("ascii")
