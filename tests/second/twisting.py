"""Twisted storage of floating words, both ways, from documents 01 and 004 and CR 4 of 02 alone.

A word is taken as the text of its binary digits, the highest first. Parts of that text are cut
out, turned round and joined; no bit is moved by arithmetic.
"""

import slash
from slash import FLOATING, UNKNOWN_FORMAT, Stop


def twist(form, word):
    """The twisted word of a plain one; stop 1 for a fixed format, then the word's stops."""
    return with_field(form, word, twisted_field)


def untwist(form, word):
    """The plain word of a twisted one; stop 1 for a fixed format, then the word's stops."""
    return with_field(form, word, plain_field)


WAYS = {1: twist, 2: untwist}


def check_floating(form):
    """Stop 1 for a fixed format, which has no twisted word."""
    if form.kind != FLOATING:
        raise Stop(UNKNOWN_FORMAT)


def with_field(form, word, rearranged):
    """The word with its field rearranged, unless it's an infinity or a not-a-number.

    Both layouts have the slash position at one place, so that both are checked alike.
    """
    check_floating(form)
    slash.read_word(form, word)
    top, position, field = parted_digits(form, word)
    e = int(position, 2)
    # No other slash position above k - 2 is defined.
    if e == 2 ** slash.slash_width(form.k) - 1:
        return word
    return int(top + position + rearranged(field, e), 2)


def parted_digits(form, word):
    """The digits of a floating word: its sign and mark, its slash position, its field."""
    digits = format(word, "b").zfill(slash.width(form))
    field_start = 2 + slash.slash_width(form.k)
    return digits[:2], digits[2:field_start], digits[field_start:]


def twisted_field(field, e):
    """The e digits of the denominator, lowest leftmost, before those of the numerator."""
    numerator, denominator = cut(field, len(field) - e)
    return turned(denominator) + numerator


def plain_field(field, e):
    """The numerator's digits before the e of the denominator, lowest rightmost."""
    denominator, numerator = cut(field, e)
    return numerator + turned(denominator)


def cut(digits, place):
    """The digits before a place and those from it on."""
    return digits[:place], digits[place:]


def turned(digits):
    """The digits from the last to the first."""
    return "".join(reversed(digits))
