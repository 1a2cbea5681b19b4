"""Slash arithmetic for breath ratios, by the proved archive: words, vectors, nights.

    >>> from lekhnaom import Format, Word, breath, night
    >>> word = Word(Format.fixed(15), 0x01150282)
    >>> word.fraction, word.is_approximate
    (Fraction(277, 642), False)
    >>> word == breath(1024, 0, 277, 642)
    True

Everything that is worked with words is the archive's work; Python lends it memory and shows its answers. A call that
is refused raises Stop, with the number, the place and the text that include/slash.h gives it. A number that has more
bits than the archive takes (64; a tick mark 32) never reaches it: OverflowError.

A vector is any contiguous buffer of 64-bit unsigned numbers, each the bits of a word: array.array("Q"), a ctypes
array of c_uint64, a numpy array of uint64, memoryview(...).cast("Q") of bytes. The functions named ..._each take
vectors and give their result as a new array.array("Q"), or in `out`, which may overlap no operand.

`bash python/build` makes the shared object that this module loads; it needs Python's own library alone, 3.8 or
newer. The code is in the package `_lekhnaom`. As a program, `python3 python/lekhnaom.py`, it lists nights and
inspects words.
"""

from _lekhnaom.inspector import inspect
from _lekhnaom.library import VERSION as __version__
from _lekhnaom.nights import RECORDED, Night, Row, breath, load, night, pieces, timings, timings_each
from _lekhnaom.stops import Stop
from _lekhnaom.vectors import Binary, Unary, binary_each, convert_each, twist_each, unary_each, untwist_each
from _lekhnaom.words import Format, Word

__all__ = [
    *("Format", "Word", "Stop", "inspect"),
    *("Binary", "Unary", "binary_each", "unary_each", "convert_each", "twist_each", "untwist_each"),
    *("RECORDED", "Night", "Row", "breath", "night", "pieces", "load", "timings", "timings_each"),
]

if __name__ == "__main__":
    import sys

    from _lekhnaom.command import main

    sys.exit(main(sys.argv[1:]))
