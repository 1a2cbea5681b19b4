"""Checks of listings that are read back and printed again: what CRs 2 and 3 of 02 say of them."""

import random

import cases_load
import cases_night
import cases_print
import cases_rates
import listings
import night
import slash
from cases_common import chosen
from cases_night import EXAMPLE_LISTING
from listings import VOID, load, print_words
from slash import FRACTION, ZERO, Stop

# The most bytes of the texts and recordings of the cases that are looked at.
LONGEST = 20_000

# Good listings and the words they hold, worked out by hand from CRs 2 and 3.
LOADED = [
    (EXAMPLE_LISTING, [0x01150282, 0x00020005, 0], 0x012502AA),
    (b"1\t00000000\t-\t-\nall\t00000000\t-\t-\n", [0], 0),
    # Zero and one, marked and not. That the total doesn't follow from them isn't judged.
    (b"1\t00000001\t0/1\t0.0\nall\t00018001\t1/1\t100.0\n", [1], 0x18001),
    (b"1\t00010001\t1/1\t100.0\nall\t00008001\t0/1\t0.0\n", [0x10001], 0x8001),
    (b"1\t00000000\t-\t-\nall\t00010010\t1/16\t6.2\n", [0], 0x10010),
    # An empty night.
    (b"all\t00000000\t-\t-\n", [], 0),
]

# Texts and the number and line of their stop. The first line is good where it isn't the bad one.
GOOD = b"1\t00000000\t-\t-\n"
ALL = b"all\t00000000\t-\t-\n"
STOPPED = [
    # 13 a line not so shaped: the name, the word, the fraction, the decimal, tabs and line feed.
    (b"\n", 13, 1),
    (b"01\t00000000\t-\t-\n" + ALL, 13, 1),
    (GOOD + b"All\t00000000\t-\t-\n", 13, 2),
    (GOOD + b"2\t0000000\t-\t-\n" + ALL, 13, 2),
    (GOOD + b"2\t012502AA\t293/682\t43.0\n" + ALL, 13, 2),
    (GOOD + b"2\t01150282\t0277/642\t43.1\n" + ALL, 13, 2),
    (GOOD + b"2\t01150282\t277/642\t43.10\n" + ALL, 13, 2),
    (GOOD + b"2\t01150282\t277/642\t-\n" + ALL, 13, 2),
    (GOOD + b"2\t00000000\t-\t-\r\n" + ALL, 13, 2),
    (GOOD + ALL[:-1], 13, 2),
    (GOOD + ALL + b"x", 13, 3),
    # 14 a number out of sequence, a line after `all`, no `all`.
    (b"0\t00000000\t-\t-\n" + ALL, 14, 1),
    (b"18446744073709551617\t00000000\t-\t-\n" + ALL, 14, 1),
    (GOOD + GOOD + ALL, 14, 2),
    (GOOD + ALL + ALL, 14, 3),
    (GOOD + ALL + b"2\t00000000\t-\t-\n", 14, 3),
    (GOOD, 14, 2),
    (b"", 14, 1),
    # `all` first: 14, whatever its word and columns are, where it isn't the void line.
    (b"all\t00000001\t0/1\t0.0\n", 14, 1),
    (b"all\t00010002\t1/2\t50.0\n" + GOOD + ALL, 14, 1),
    (b"all\t00020004\t2/4\t50.0\n", 14, 1),
    (b"all\t00000000\t0/1\t0.0\n", 14, 1),
    (b"all\t00008000\t-\t-\n", 14, 1),
    (b"all\t80000000\t-\t-\nx", 14, 1),
    # But 13 where it hasn't the shape, and a line behind the void one is a line after `all`.
    (ALL[:-1], 13, 1),
    (b"all\t00000000\t0/1\t-\n", 13, 1),
    (ALL + ALL, 14, 2),
    (ALL + GOOD, 14, 2),
    (ALL + b"1\t00020004\t2/4\t50.0\n" + ALL, 14, 2),
    (ALL + b"\n" + GOOD, 13, 2),
    (ALL + b"x", 13, 2),
    # 15 a word that is none of those: unreduced, above 1, sign 1, infinity, 0/3, not-a-number.
    (b"1\t00020004\t2/4\t50.0\n" + ALL, 15, 1),
    (b"1\t00030002\t3/2\t150.0\n" + ALL, 15, 1),
    (b"1\t80010002\t1/2\t50.0\n" + ALL, 15, 1),
    (b"1\t00010000\t1/0\t0.0\n" + ALL, 15, 1),
    (b"1\t00000003\t0/3\t0.0\n" + ALL, 15, 1),
    (b"1\t00008000\t-\t-\n" + ALL, 15, 1),
    # Or one that disagrees with its columns.
    (b"1\t00010010\t1/16\t6.3\n" + ALL, 15, 1),
    (b"1\t00000000\t0/1\t0.0\n" + ALL, 15, 1),
    (b"1\t00010002\t-\t-\n" + ALL, 15, 1),
    (GOOD + b"all\t00010002\t2/4\t50.0\n", 15, 2),
    # In that order within a line, and the first line first.
    (b"2\t0000000\t-\t-\n", 13, 1),
    (b"2\t00020004\t2/4\t50.0\n", 14, 1),
    (b"1\t00020004\t2/4\t50.00\n", 13, 1),
    (b"1\t00020004\t2/4\t50.0\n\n", 15, 1),
]

# Words, the total's last, and the stop of printing them.
UNPRINTED = [
    ([1], 14, 1),
    ([2], 14, 1),
    ([0x8000], 14, 1),
    ([0x10002], 14, 1),
    ([2**32], 14, 1),
    ([2**64 - 1], 14, 1),
    ([2, 2], 15, 1),
    ([VOID, 2], 15, 2),
    ([VOID, 2**32], 15, 2),
    ([VOID, 2**32 + 1, VOID], 15, 2),
    ([VOID] * 65536 + [2], 15, 65537),
    ([VOID] * 65536 + [2, 2], 14, 65537),
    ([VOID] * 65535 + [2, VOID, 2], 15, 65536),
]


def check_listings():
    """Asserts everything below."""
    check_by_hand()
    check_most_breaths()
    check_lent_lists()
    check_empty_night()
    check_listed_words()
    check_recordings()
    check_texts()
    check_stops_of_groups()
    check_group_names()


# By hand.


def check_by_hand():
    """Asserts what is loaded, printed and refused above."""
    for text, words, total in LOADED:
        assert load(text) == (words, total), text
        assert print_words(words, total) == text, text
        assert listings.relisting(text) == text, text
    for text, number, place in STOPPED:
        assert stop_of(load, text) == (number, place), text
        assert listings.relisting(text) == b"refused\t%d\t%d\n" % (number, place), text
    for words, number, place in UNPRINTED:
        assert stop_of(print_words, words[:-1], words[-1]) == (number, place), words[-3:]


def stop_of(call, *arguments):
    """The number and the place of a call's stop, or None where nothing stops."""
    try:
        call(*arguments)
        return None
    except Stop as stop:
        return stop.number, stop.place


def check_most_breaths():
    """Asserts that 65,536 breaths are loaded and one more isn't, whatever it is."""
    most = cases_load.void_rows(65536)
    assert load(most + ALL) == ([VOID] * 65536, VOID)
    assert stop_of(load, most) == (14, 65537)
    assert stop_of(load, most + b"65537\t00000000\t-\t-\n" + ALL) == (14, 65537)
    assert stop_of(load, most + b"65537\t00000002\t-\t-\n" + ALL) == (14, 65537)
    assert stop_of(load, most + b"65537\t0000000\t-\t-\n" + ALL) == (13, 65537)


def check_lent_lists():
    """Asserts what the lent lists hold behind a call, stopped or not, and that 7 comes last."""
    assert lent_after(EXAMPLE_LISTING, 4, 5) == (
        (3, 0x012502AA),
        [1, 2, 3, -1],
        [0x01150282, 0x00020005, 0, -1, -1],
    )
    bad = EXAMPLE_LISTING.replace(b"43.0", b"43.1")
    for text, numbers, words, stop in (
        (EXAMPLE_LISTING, 2, 3, (7, 0)),
        (EXAMPLE_LISTING, 3, 2, (7, 0)),
        (EXAMPLE_LISTING, 0, 9, (7, 0)),
        (bad, 3, 2, (15, 4)),
        (bad, 3, 3, (15, 4)),
    ):
        assert lent_after(text, numbers, words) == (stop, [-1] * numbers, [-1] * words), text


def lent_after(text, numbers, words):
    """What loading into lists of these lengths told or stopped with, and the lists behind it."""
    lent = [-1] * numbers, [-1] * words
    try:
        told = listings.load_into(text, *lent)
    except Stop as stop:
        told = stop.number, stop.place
    return told, *lent


def check_empty_night():
    """Asserts that no byte is listed as no breath, and that loading this changes no list."""
    for pieces in cases_night.empty_night():
        assert night.listing(cases_night.recording(pieces)) == ALL, pieces
    for case in cases_load.empty_night_loaded():
        lent = [-1] * case.numbers, [-1] * case.words
        loaded = lent_after(cases_load.text_of(case), case.numbers, case.words)
        assert loaded == ((0, VOID), *lent), case
    for pieces in cases_print.empty_night_printed():
        assert cases_print.answer(pieces) == ALL, pieces


# By what CRs 2 and 3 say of all words, recordings and texts.


def check_listed_words():
    """Asserts which words a listing has: void, or canonical with sign 0 and from 0 to 1."""
    rng = random.Random(3)
    near = (cases_load.random_listed(rng) ^ chosen(rng, (0, 1, 2**15, 2**16)) for _ in range(500))
    anywhere = (rng.getrandbits(32) for _ in range(500))
    for word in [*range(300), *cases_load.every_kind_of_word(), *near, *anywhere]:
        assert (listings.columns_of(word) is not None) == is_listed(word), word
    assert not any(map(listings.columns_of, (2**32, 2**32 + 1, 2**63 + 1, 2**64 - 1)))


def is_listed(word):
    """Whether a word is void, or has sign 0, is from 0 to 1 and is what its value is written as."""
    value = slash.read_word(night.STORED, word)
    finite = value.value_class in (FRACTION, ZERO)
    within = value.sign == 0 and value.numerator <= value.denominator
    return word == VOID or finite and within and slash.write_value(night.STORED, value) == word


def check_recordings():
    """Asserts that what an unstopped run printed is recovered, and a refusal has no shape."""
    for recording in short_recordings():
        check_recording(recording)


def short_recordings():
    """The recordings of the cases that aren't too long to be looked at."""
    for _, pieces in cases_night.named_cases([*cases_night.GROUPS, *cases_rates.GROUPS]):
        recording = cases_night.recording(pieces)
        if len(recording) <= LONGEST:
            yield recording


def check_recording(recording):
    """Asserts that a listing gives back its words and its bytes, or is refused but not with 12."""
    listing = night.listing(recording)
    assert b"refused\t12" not in listing, recording
    if b"refused" in listing:
        assert stop_of(load, listing) == (13, listing.count(b"\n")), recording
        return
    breaths = night.breaths_of(recording)
    ticks = [night.summed_ticks(rate, *breath) for _, rate, breath in breaths]
    sums = map(sum, zip(night.NO_TICKS, *ticks))
    words = [stored_word(*each) for each in [*ticks, sums]]
    assert load(listing) == (words[:-1], words[-1]), recording
    assert print_words(words[:-1], words[-1]) == listing, recording


def stored_word(inward, whole):
    """The word that is stored for the ticks of a breath or for sums."""
    return night.stored_word(inward, whole) if whole else VOID


def check_texts():
    """Asserts of the cases' texts what is accepted, and that the lines before a stop are good."""
    for name, case in cases_night.named_cases(cases_load.GROUPS):
        text = cases_load.text_of(case)
        if len(text) <= LONGEST:
            stop = stop_of(load, text)
            assert (stop is None) == is_printed(text), name
            check_first_line(stop, text, name)
            if stop is not None:
                check_stopped_line(stop, text, name)
                check_lines_before(stop, text, name)


def is_printed(text):
    """Whether a text is what is printed for the words that stand in its second columns."""
    words = [field_of(line) for line in text.split(b"\n")[:-1]]
    if not words or None in words:
        return False
    try:
        return print_words(words[:-1], words[-1]) == text
    except Stop:
        return False


def field_of(line):
    """The second column of a line as a word, or None where it isn't one."""
    try:
        return int(line.split(b"\t")[1], 16)
    except (IndexError, ValueError):
        return None


def check_first_line(stop, text, name):
    """Asserts that a first line `all` of the shape is refused with 14, or is void and isn't."""
    first = text[: text.find(b"\n") + 1]
    if first == ALL:
        assert stop is None or stop[1] == 2, name
    elif first.startswith(b"all\t") and has_shape(first[:-1]):
        assert stop == (14, 1), name


def check_stopped_line(stop, text, name):
    """Asserts that 13 alone refuses a line for its shape, found by another way than listings.py's.

    Bytes behind the last line feed are a line that isn't ended; where there are none, the line
    after the last is refused for want of a total.
    """
    number, place = stop
    *ended, behind = text.split(b"\n")
    shaped = has_shape(ended[place - 1]) if place <= len(ended) else not behind
    assert shaped == (number != 13), name


def has_shape(line):
    """Whether a line without its line feed has the shape, by its columns."""
    fields = line.split(b"\t")
    if len(fields) != 4:
        return False
    name, word, fraction, decimal = fields
    is_name = name == b"all" or is_whole(name)
    is_word = len(word) == 8 and set(word) <= set(b"0123456789abcdef")
    return is_name and is_word and are_columns(fraction, decimal)


def are_columns(fraction, decimal):
    """Whether bytes are two hyphens, or a fraction and a one-place decimal."""
    if fraction == b"-":
        return decimal == b"-"
    numerator, _, denominator = fraction.partition(b"/")
    whole, _, tenth = decimal.partition(b".")
    return all(map(is_whole, (numerator, denominator, whole, tenth))) and len(tenth) == 1


def is_whole(text):
    """Whether bytes are a whole number without leading zeros."""
    return text.isdigit() and (text == b"0" or text[:1] != b"0")


def check_lines_before(stop, text, name):
    """Asserts that the lines before a stop are a listing, or lack a total alone to be one."""
    _, place = stop
    before = b"".join(line + b"\n" for line in text.split(b"\n")[: place - 1])
    has_total = before.count(b"all\t") == 1
    assert stop_of(load, before) == (None if has_total else (14, place)), name


# By stop, what the names of groups begin with whose cases all earn it.
NAMED_AFTER = {13: ("shapeless", "unended"), 14: ("no_total", "total_first")}


def check_stops_of_groups():
    """Asserts the stop of the cases that are named after it, or by the fault that they have."""
    for number, beginnings in NAMED_AFTER.items():
        for case in cases_named(beginnings):
            assert stop_of(load, cases_load.text_of(case))[0] == number, case
    for pieces in cases_print.totals_alone():
        assert cases_print.answer(pieces) == b"stop 14 1\n", pieces
    for place in cases_load.PLACES:
        for number, faults in cases_load.FAULTS.items():
            expected = min(number, 14) if place == cases_load.PLACES[-1] else number
            for fault in faults:
                text = cases_load.with_fields(place, [fault])
                assert stop_of(load, text) == (expected, place + 1), (place, fault)


def cases_named(beginnings):
    """The cases of the groups whose names begin so."""
    groups = [group for group in cases_load.GROUPS if group.__name__.startswith(beginnings)]
    return [case for group in groups for case in group()]


def check_group_names():
    """Asserts that no two groups of the program's cases have one name."""
    modules = cases_night, cases_rates, cases_load, cases_print
    names = [group.__name__ for module in modules for group in module.GROUPS]
    assert len(names) == len(set(names))
