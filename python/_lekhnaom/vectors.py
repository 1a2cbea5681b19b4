"""Operations at each place of vectors.

A vector is any contiguous buffer of 64-bit unsigned numbers, each the bits of a word: array.array("Q"), a ctypes
array of c_uint64, a numpy array of uint64, memoryview(...).cast("Q") of bytes. Operands are read where they are
(one that is read-only, or not aligned to 8 bytes, is copied first). The result goes into `out`, which overlaps no
operand, or into a new array.array("Q"); it is returned. Until a call has returned, no other thread writes in them.

Every function may raise Stop: 1, 2, 3 for vectors of unequal length, then 4 and 5 with the index as place; `out`
is then as it was.
"""

import sys
from array import array
from ctypes import addressof, c_uint64, sizeof
from enum import IntEnum
from struct import calcsize

from .library import library, number, unsigned

WORD_BYTES = sizeof(c_uint64)

# How a buffer may name its items: as C's unsigned long long, or long where that is as wide; in this machine's own
# order of bytes.
ITEM_NAMES = [name for name in "QL" if calcsize(name) == WORD_BYTES]
OWN_ORDER = "@=" + ("<" if sys.byteorder == "little" else ">")


class Binary(IntEnum):
    """The operations on two words, by their codes."""

    ADD = number("ADD")
    SUBTRACT = number("SUBTRACT")
    MULTIPLY = number("MULTIPLY")
    DIVIDE = number("DIVIDE")


class Unary(IntEnum):
    """The operations on one word, by their codes."""

    NEGATE = number("NEGATE")
    ABSOLUTE = number("ABSOLUTE")
    RECIPROCAL = number("RECIPROCAL")
    FLOOR = number("FLOOR")
    CEILING = number("CEILING")
    MOD_ONE = number("MOD_ONE")
    NORMALISE = number("NORMALISE")


def binary_each(form, operation, left, right, out=None):
    """An operation on two words at each place: out[i] from left[i] and right[i].

    >>> from lekhnaom import Format
    >>> words = array("Q", [0x00010002, 0x00010003])
    >>> sums = binary_each(Format.fixed(15), Binary.ADD, words, words)
    >>> [f"{word:08x}" for word in sums]
    ['00010001', '00020003']
    """
    return each(library.slash_binary_each, (*form.numbers, unsigned(operation)), [left, right], out)


def unary_each(form, operation, operand, out=None):
    """An operation on one word at each place: out[i] from operand[i]."""
    return each(library.slash_unary_each, (*form.numbers, unsigned(operation)), [operand], out)


def convert_each(source, target, operand, out=None):
    """A conversion at each place: out[i], of the target format, from operand[i], of the source format."""
    return each(library.slash_convert_each, (*source.numbers, *target.numbers), [operand], out)


def twist_each(form, operand, out=None):
    """Floating words rearranged for storage, at each place."""
    return each(library.slash_twist_each, form.numbers, [operand], out)


def untwist_each(form, operand, out=None):
    """The floating words of which these are the twisted ones, at each place."""
    return each(library.slash_untwist_each, form.numbers, [operand], out)


def each(function, numbers, operands, out):
    """Calls a vector function with these numbers, operands and result; the result."""
    read = [lent_to_read(operand) for operand in operands]
    out = new_vector(len(read[0])) if out is None else out
    written = lent_to_write(out)
    for operand in read:
        check_apart(operand, written)
    vectors = [argument for vector in (*read, written) for argument in (vector, len(vector))]
    function(*numbers, *vectors)
    return out


# Memory that is lent.


def new_vector(length):
    """A vector of so many words, all bits 0."""
    return array("Q", bytes(length * WORD_BYTES))


def lent_to_read(vector):
    """A vector's memory, or that of a copy where it can't be lent, as a ctypes array."""
    view = words_view(vector)
    if not view.readonly and is_aligned(memory(view)):
        return memory(view)
    return memory(memoryview(array("Q", view.tobytes())))


def lent_to_write(vector):
    """A vector's own memory as a ctypes array; TypeError where it can't be written."""
    view = words_view(vector)
    if view.readonly:
        raise TypeError("the result can't go into read-only memory")
    if not is_aligned(memory(view)):
        raise ValueError(f"the result can't go into memory that isn't aligned to {WORD_BYTES} bytes")
    return memory(view)


def words_view(vector):
    """A view of a buffer of 64-bit unsigned numbers; TypeError for anything else."""
    view = memoryview(vector)
    is_words = view.format.lstrip(OWN_ORDER) in ITEM_NAMES and view.itemsize == WORD_BYTES
    if not (is_words and view.ndim == 1 and view.c_contiguous):
        raise TypeError(
            "a vector is a contiguous buffer of 64-bit unsigned numbers as array('Q') is, "
            f"not of {view.ndim} dimensions of items {view.format!r}"
        )
    return view


def memory(view):
    """The memory of a view as a ctypes array, which keeps its owner alive."""
    words = c_uint64 * len(view)
    # An empty buffer may begin anywhere.
    return words.from_buffer(view) if len(view) else words()


def is_aligned(vector):
    """Whether a ctypes array begins at a multiple of a word's bytes."""
    return addressof(vector) % WORD_BYTES == 0


def check_apart(operand, written):
    """ValueError where two ctypes arrays share memory."""
    starts = addressof(operand), addressof(written)
    if starts[0] < starts[1] + sizeof(written) and starts[1] < starts[0] + sizeof(operand):
        raise ValueError("the result overlaps an operand")
