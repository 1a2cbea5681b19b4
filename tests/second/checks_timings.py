"""Checks of the ratios of timings: what CR 5 of 02 says of them, worked by another way.

Here a number is its 32 bits: values come by shifting, the ranges are those of the bits, and a
ratio is rounded by the usual recurrence of its convergents.
"""

import random
from math import gcd

import cases_timings
import timings
from answers import LENT, answer
from cases_common import request
from cases_timings import END, LEAST, ONE, ONES, as_timings, number
from slash import Stop

# Records in hexadecimal, the lent places, and the answer, worked out by hand from CR 5. Each
# place holds 7 before the call.
TIMED_ANSWERS = [
    ("", 0, "done"),
    # 1 second of 2 and of 3; 277 of 642, which document 01 has; the ratio 0.5.
    ("01000000 0000803f 00000040", 1, "done 10002"),
    ("01000000 0000803f 00004040", 1, "done 10003"),
    ("01000000 00808a43 00802044", 1, "done 1150282"),
    ("02000000 0000003f 00000000", 1, "done 10002"),
    # The number next to 1/3 is 11184811/2^25, [0, 2, 1, 11184810]; that next to 0.1 is
    # 13421773/2^27, [0, 9, 1, 6710885, 2]: 1/3 and 1/10, marked.
    ("02000000 abaaaa3e 00000000", 1, "done 18003"),
    ("02000000 cdcccc3d 00000000", 1, "done 1800a"),
    # 2^-10 of 32 is 1/32768, so 0/1; of 32767 times 2^-10 it is 1/32767; between both 1/32767.
    ("01000000 0000803a 00000042", 1, "done 8001"),
    ("01000000 0000803a 00feff41", 1, "done 17fff"),
    ("01000000 0000803a ffffff41", 1, "done 1ffff"),
    # 1 - 2^-15 is [0, 1, 32767], so 1/1; one bit less, 1 - 513/2^24, is [0, 1, 32703, 8, 64].
    ("02000000 00fe7f3f 00000000", 1, "done 18001"),
    ("02000000 fffd7f3f 00000000", 1, "done 7fbfffc0"),
    # Both ends of each range, and what is one bit beyond them.
    ("01000000 0000803a 0000803a", 1, "done 10001"),
    ("01000000 0000803a ffff7f44", 1, "done 8001"),
    ("01000000 ffff7f44 ffff7f44", 1, "done 10001"),
    ("01000000 ffff7f3a 0000803a", 1, "stop 18 0 7"),
    ("01000000 0000803a 00008044", 1, "stop 18 0 7"),
    ("02000000 0000803a 00000000", 1, "done 10400"),
    ("02000000 0000803f 00000000", 1, "done 10001"),
    ("02000000 ffff7f3a 00000000", 1, "stop 18 0 7"),
    ("02000000 0100803f 00000000", 1, "stop 18 0 7"),
    # The first larger than the second; -0 behind a ratio; an infinity and a not-a-number.
    ("01000000 0100803f 0000803f", 1, "stop 18 0 7"),
    ("02000000 0000803f 00000080", 1, "stop 18 0 7"),
    ("01000000 0000803f 0000807f", 1, "stop 18 0 7"),
    ("01000000 0000c07f 0000803f", 1, "stop 18 0 7"),
    # Unknown kinds, before a bad number too.
    ("00000000 00000000 00000000", 1, "stop 17 0 7"),
    ("00000001 0000803f 00000040", 1, "stop 17 0 7"),
    ("03000000 0000c07f ffffffff", 1, "stop 17 0 7"),
    # 16 before 3, 3 before 17 and 18.
    ("01", 0, "stop 16 0"),
    ("01000000 0000803f 000000", 1, "stop 16 0 7"),
    ("01000000 0000803f 00000040 00", 3, "stop 16 0 7 7 7"),
    ("", 1, "stop 3 0 7"),
    ("03000000 00000000 00000000", 0, "stop 3 0"),
    ("01000000 00000000 00000000", 2, "stop 3 0 7 7"),
    # The lowest record first, and nothing stored before all are checked.
    ("02000000 0000003f 00000000 01000000 0000803f 00004040", 2, "done 10002 10003"),
    ("02000000 0000003f 00000000 03000000 0000803f 00004040", 2, "stop 17 1 7 7"),
    ("02000000 00000000 00000000 03000000 0000803f 00004040", 2, "stop 18 0 7 7"),
    ("03000000 0000003f 00000000 01000000 00000000 00000000", 2, "stop 17 0 7 7"),
]

# By stop, or None, the groups of cases that all have it.
TOLD_BY_GROUPS = {
    None: (
        cases_timings.timed_example,
        cases_timings.plausible_breaths,
        cases_timings.tenths_of_a_percent,
        cases_timings.every_pair_of_exponents,
        cases_timings.ratios_over_powers_of_two,
        cases_timings.held_timings,
        cases_timings.edge_ratios_timed,
        cases_timings.tied_timings,
        cases_timings.just_below_one,
        cases_timings.good_vectors_of_records,
        cases_timings.one_record_everywhere,
        cases_timings.random_good_records,
    ),
    16: (cases_timings.broken_bad_records,),
    17: (cases_timings.unknown_kinds, cases_timings.kinds_one_bit_away),
    18: (
        cases_timings.numbers_never_good,
        cases_timings.bits_behind_ratios,
        cases_timings.kinds_exchanged,
        cases_timings.numbers_exchanged,
    ),
}

# The random timings whose ratio is held against every denominator.
RANDOM_TIMINGS = 8


def check_timings():
    """Asserts everything below."""
    check_timed_answers()
    check_values()
    check_requests()
    check_groups()
    check_every_denominator()


def check_timed_answers():
    """Asserts the answers that were worked out by hand, and how a request is written."""
    assert answer("i 12 1 1 0 0 0 0 0 128 63 0 0 0 64 7") == "done 10002"
    for text, places, expected in TIMED_ANSWERS:
        exported = bytes.fromhex(text)
        line = request("i", len(exported), places, *exported, *[7] * places)
        assert answer(line) == expected, (text, expected, answer(line))


# Values.


def check_values():
    """Asserts the value of numbers with every sign and exponent, or that they have none."""
    rng = random.Random(156)
    for sign in (0, 1):
        for exponent in range(-127, 129):
            edges = (0, 1, 2, 2**22 - 1, 2**22, 2**22 + 1, ONES - 1, ONES)
            for significand in (*edges, rng.getrandbits(23)):
                check_value(sign, number(exponent, significand))


def check_value(sign, bits):
    """Asserts the value of a number with this sign, its other bits being given."""
    four = (sign << 31 | bits).to_bytes(4, "little")
    if bits >> 23 == 255:
        assert stop_of(timings.value_of, four) == 18, bits
        return
    size = scaled(bits)
    assert timings.value_of(four) * 2**149 == (-size if sign else size), bits


def scaled(bits):
    """2^149 times a finite number without its sign: a whole number.

    The lowest bit of a subnormal is 2^-149, and that of the smallest normal ones too.
    """
    exponent, significand = bits >> 23, bits & ONES
    if exponent == 0:
        return significand
    return (1 << 23 | significand) << (exponent - 1)


def stop_of(call, *arguments):
    """The number of a call's stop; None if it has none."""
    try:
        call(*arguments)
        return None
    except Stop as stop:
        return stop.number


# All cases.


def check_requests():
    """Asserts the answer to every request line of the cases."""
    for line in cases_timings.requests():
        assert answer(line) == answer_by_bits(line), line


def answer_by_bits(line):
    """The answer to a request line, worked by bits."""
    count, places, *numbers = map(int, line.split(" ")[1:])
    exported, words = numbers[:count], numbers[count:]
    assert len(words) == places, line
    told = told_by_bits(exported, places)
    if told == "done":
        words = [word_by_bits(*parts) for parts in parts_of(exported)]
    return " ".join([told, *map("{:x}".format, words)])


def told_by_bits(exported, places):
    """Whether a call is done or stops, and with which number and place."""
    if len(exported) % 12:
        return "stop 16 0"
    if len(exported) != 12 * places:
        return "stop 3 0"
    for place, parts in enumerate(parts_of(exported)):
        stop = stop_by_bits(*parts)
        if stop:
            return "stop %d %d" % (stop, place)
    return "done"


def parts_of(exported):
    """The three parts of each record, 32 bits each, from its bytes, the lowest first."""
    a, b, c, d = (exported[place::4] for place in range(4))
    parts = [w | x << 8 | y << 16 | z << 24 for w, x, y, z in zip(a, b, c, d)]
    return list(zip(parts[0::3], parts[1::3], parts[2::3]))


def stop_by_bits(kind, first, second):
    """A record's stop, or 0. Numbers without a sign ascend with their bits, the rest is above."""
    if kind == 1:
        return 0 if LEAST <= first <= second < END else 18
    if kind == 2:
        return 0 if LEAST <= first <= ONE and second == 0 else 18
    return 17


def word_by_bits(kind, first, second):
    """The word of a good record's ratio."""
    return word_of_ratio(*ratio_by_bits(kind, first, second))


def word_of_ratio(n, d):
    """The word of n/d, by its convergents."""
    r, s = last_held(n, d)
    return r << 16 | (r * d != s * n) << 15 | s


def ratio_by_bits(kind, first, second):
    """N and D of a good record's ratio in lowest terms; a ratio itself is over 1."""
    n, d = scaled(first), scaled(second if kind == 1 else ONE)
    return n // gcd(n, d), d // gcd(n, d)


def last_held(n, d):
    """The last convergent of n/d whose parts have at most 15 bits."""
    before, last = (0, 1), (1, 0)
    while d:
        quotient = n // d
        following = tuple(quotient * x + y for x, y in zip(last, before))
        if max(following) >> 15:
            return last
        before, last = last, following
        n, d = d, n % d
    return last


def check_groups():
    """Asserts of the groups named above that all their requests are told so."""
    for number_told, groups in TOLD_BY_GROUPS.items():
        expected = ["done"] if number_told is None else ["stop", str(number_told)]
        for group in groups:
            for line in group():
                told = answer(line).split(" ")
                assert told[: len(expected)] == expected, (group.__name__, line)


# No such word misses it by less.


def check_every_denominator():
    """Asserts of some ratios that the word's pair is the only best of all that are held."""
    rng = random.Random(157)
    pairs = [(LEAST, END - 1), (ONE - 1, ONE), (ONE - 513, ONE), (LEAST, number(5) - 1)]
    # A mediant of 1/2 and one of its neighbours, which tie.
    pairs += [as_timings(rng, 16384, 32769)]
    for _ in range(RANDOM_TIMINGS):
        record = cases_timings.timings_record(rng)
        pairs += [parts[1:] for parts in parts_of(list(record))]
    for inspiration, whole in pairs:
        check_best(inspiration, whole)


def check_best(inspiration, whole):
    """Asserts that no other pair of fixed k = 15 is as good for two timings.

    Of the pairs with one denominator only those next to the ratio on both sides can be best: the
    miss grows with the distance.
    """
    n, d = ratio_by_bits(1, inspiration, whole)
    out = [LENT]
    timings.store_ratios(cases_timings.record(1, inspiration, whole), out)
    pair = out[0] >> 16, out[0] & 0x7FFF
    beside = [(s * n // d + more, s) for s in range(1, 2**15) for more in (0, 1)]
    held = [(1, 0), *((r, s) for r, s in beside if r < 2**15)]
    ranks = [(abs(s * n - r * d), r + s) for r, s in held]
    best = min(ranks)
    assert ranks.count(best) == 1 and held[ranks.index(best)] == pair, (n, d, pair)
