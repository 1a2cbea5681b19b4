"""The vector forms of slash arithmetic, from documents 00 and 01 and CR 4 of 02 alone.

A vector is a list of words. Each form is lent the result's list too, and
stores in it only when nothing stops.
"""

import operations
import slash
import twisting
from slash import Stop

# The number of the stop that the other modules don't cause.
UNEQUAL_LENGTHS = 3


def binary_each(kind, k, code, left, right, out):
    """A binary code at each place; stops 1, 2, 3, then the words'."""
    form = slash.make_format(kind, k)
    check_code(code, operations.BINARY)
    check_lengths(left, right, out)
    check_words(form, left, right)
    out[:] = [operations.binary(form, code, *pair) for pair in zip(left, right)]


def unary_each(kind, k, code, operand, out):
    """A unary code at each place; stops 1, 2, 3, then the words'."""
    form = slash.make_format(kind, k)
    check_code(code, {**operations.UNARY_ON_WORDS, **operations.UNARY_ON_VALUES})
    check_lengths(operand, out)
    check_words(form, operand)
    out[:] = [operations.unary(form, code, word) for word in operand]


def convert_each(kind, k, to_kind, to_k, operand, out):
    """A conversion at each place; stop 1 for source, then target, 3, the words'."""
    source = slash.make_format(kind, k)
    target = slash.make_format(to_kind, to_k)
    check_lengths(operand, out)
    check_words(source, operand)
    out[:] = [operations.converted(source, target, word) for word in operand]


def twist_each(kind, k, way, operand, out):
    """A way of twisting at each place; stop 1, for a fixed format too, 3, the words'."""
    form = slash.make_format(kind, k)
    twisting.check_floating(form)
    check_lengths(operand, out)
    check_words(form, operand)
    out[:] = [twisting.WAYS[way](form, word) for word in operand]


def check_operands(kind, k, *operands):
    """Stop 1, then 3 for operands of unequal length, then the words'."""
    form = slash.make_format(kind, k)
    check_lengths(*operands)
    check_words(form, *operands)


def check_code(code, known):
    """Stop 2 for a code that isn't among the known ones."""
    if code not in known:
        raise Stop(operations.UNKNOWN_CODE)


def check_lengths(*vectors):
    """Stop 3, with place 0, unless all vectors have one length."""
    if len(set(map(len, vectors))) > 1:
        raise Stop(UNEQUAL_LENGTHS)


def check_words(form, *operands):
    """Stops 4 and 5 by place, the lowest first, and there by operand."""
    for place, words in enumerate(zip(*operands)):
        for word in words:
            check_word(form, word, place)


def check_word(form, word, place):
    """The word's stop 4 or 5, if it has one, with its place."""
    try:
        slash.read_word(form, word)
    except Stop as stop:
        raise Stop(stop.number, place) from None
