"""Breaths, recordings and their listings, and the scoring package's timings. Their words are of RECORDED."""

from ctypes import byref, c_uint64, create_string_buffer, string_at
from fractions import Fraction
from typing import List, NamedTuple, Optional

from .library import NightState, Piece, library, number, stored, unsigned
from .vectors import lent_to_write, new_vector
from .words import Format, Word

# The format that the recorder stores ratios in.
RECORDED = Format.fixed(15)

# The bits of a void breath, or of a night without a breath that isn't: no ratio has them.
VOID = 0


class Row(NamedTuple):
    """A line of a listing: a breath's, or that of the whole night, which has no number."""

    number: Optional[int]
    word: Optional[Word]
    fraction: Optional[Fraction]
    percentage: Optional[str]

    @property
    def is_void(self):
        """Whether the line is void: it then has neither a word nor a fraction nor a percentage."""
        return self.word is None


class Night(NamedTuple):
    """A night: a row for each breath, the row of the whole night, and the listing's bytes."""

    rows: List[Row]
    total: Row
    listing: bytes


def breath(rate, onset, peak, next_onset):
    """The word of one breath as the recorder stores it; None where it is void.

    The marks are ticks of a clock 32 bits wide that ticks so many times a second. A breath is void if it has
    no length, peaks behind its end, or is longer than 120 seconds. Stop 19 for a rate out of 1 to 4096.

    >>> breath(1024, 0, 277, 642)
    <Word 01150282 of fixed 15: 277/642, exact>
    >>> print(breath(1024, 642, 919, 600))
    None
    """
    ticks = [unsigned(mark, 32) for mark in (onset, peak, next_onset)]
    return word_unless_void(stored(library.slash_breath, unsigned(rate), *ticks))


def night(recording):
    """A night's recording, as bytes, listed: its rows, its total, and its listing as the program `night` prints it.

    Stops 8 to 11 and 19, with the recording's line as place; `pieces` lists the lines before it even so.

    >>> rows, total, listing = night(b"rate\\t1024\\n0\\t277\\t642\\n100\\t100\\t100\\n")
    >>> rows[0].fraction, rows[0].percentage, rows[1].is_void
    (Fraction(277, 642), '43.1', True)
    >>> print(listing.decode().expandtabs(), end="")
    1       01150282        277/642 43.1
    2       00000000        -       -
    all     01150282        277/642 43.1
    """
    recording = bytes(memoryview(recording))
    text = create_string_buffer(number("LISTING_BYTES"))
    length = stored(library.slash_night, recording, len(recording), text)
    return load(string_at(text, length))


def load(listing):
    """A printed listing, as bytes, read back as a night.

    Stops 13 to 15, with the listing's line as place.

    >>> load(b"1\\t00020005\\t2/5\\t40.0\\nall\\t00020005\\t2/5\\t40.0\\n").total.fraction
    Fraction(2, 5)
    """
    listing = bytes(memoryview(listing))
    places = number("MOST_BREATHS")
    numbers, words = (c_uint64 * places)(), (c_uint64 * places)()
    count, total = c_uint64(), c_uint64()
    library.slash_load(listing, len(listing), numbers, places, words, places, byref(count), byref(total))
    lines = listing.decode("ascii").splitlines()
    listed = zip(numbers[: count.value], words[: count.value], lines)
    return Night([row(*each) for each in listed], row(None, total.value, lines[-1]), listing)


def row(name, bits, line):
    """The row of a listed line that was found good."""
    word = word_unless_void(bits)
    if word is None:
        return Row(name, None, None, None)
    return Row(name, word, word.fraction, line.rpartition("\t")[2])


def word_unless_void(bits):
    """The word of these bits; None where they are those of a void breath."""
    return None if bits == VOID else Word(RECORDED, bits)


def pieces(file, size=65536):
    """The listing of a recording, piece by piece: for a long one, or one that is read from a pipe.

    `file` is open for reading bytes. So many bytes of it at most are taken at a time, as soon as some are there,
    and so many of its listing at most are handed on at a time (33 of each where `size` is below). All pieces in a row are the listing that
    `night` makes. A refused line raises its Stop once the lines before it have been handed on.

    >>> import io
    >>> recording = io.BytesIO(b"rate\\t1024\\n0\\t277\\t642\\n642\\t900\\n")
    >>> for piece in pieces(recording):
    ...     print(piece)
    Traceback (most recent call last):
    ...
    lekhnaom.Stop: stop 10 at 3: not three fields
    """
    size = max(size, number("LINE_BYTES"))
    state, piece, text = NightState(), Piece(), create_string_buffer(size)
    waiting, last = b"", False
    read = getattr(file, "read1", file.read)
    while not piece.ended:
        if not piece.used:
            more = read(size)
            waiting, last = waiting + more, not more
        library.slash_night_piece(byref(state), waiting, len(waiting), last, text, len(text), byref(piece))
        waiting = waiting[piece.used :]
        if piece.length:
            yield string_at(text, piece.length)


def timings(records):
    """The words of the ratios that a scoring package exported, as bytes: a record of 12 bytes a breath.

    A record is, lowest byte first, 1 and the seconds of inspiration and of the whole breath as binary32
    numbers; or 2, the ratio itself, and 0. Stop 16, then 17 and 18 with the record's index as place.

    >>> import struct
    >>> timings(struct.pack("<Iff", 1, 1.5, 4.0) + struct.pack("<Iff", 2, 0.375, 0.0))
    [<Word 00030008 of fixed 15: 3/8, exact>, <Word 00030008 of fixed 15: 3/8, exact>]
    """
    return [Word(RECORDED, bits) for bits in timings_each(records)]


def timings_each(records, out=None):
    """As `timings`, as a vector of words as the module tells. Stop 3 unless `out` has a place a record."""
    records = bytes(memoryview(records))
    out = new_vector(len(records) // number("RECORD_BYTES")) if out is None else out
    written = lent_to_write(out)
    library.slash_timings(records, len(records), written, len(written))
    return out
