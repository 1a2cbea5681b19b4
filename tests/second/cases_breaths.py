"""The cases on a breath at a rate, and on sums with a breath more, CR 7 of 02, as request lines."""

import random
from itertools import product

from cases_common import (
    BAD_RATES,
    LARGEST,
    LARGEST_RATE,
    RATES_TRIED,
    asked_once,
    longest_whole,
    random_part_of_any_size,
    request,
)
from cases_night import LONGEST_WHOLE, marks, random_rate
from cases_timings import EDGE_RATIOS
from night import CLOCK, LARGEST_TICK, RATES


def requests():
    """All request lines in order, each asked once."""
    return asked_once(GROUPS)


# Request lines.


def breath(rate, inward, whole, onset=0):
    """The request for a breath with these durations, modulo 2^32."""
    return request("h", rate, *marks(inward, whole, onset))


def sums(rate, totals, inward, whole, onset=0):
    """The request for sums with a breath more that has these durations, modulo 2^32."""
    return request("a", rate, *totals, *marks(inward, whole, onset))


# Durations.


def wholes_about(rate):
    """Wholes of about 0 and of about 120 seconds."""
    longest = longest_whole(rate)
    return 0, 1, longest - 1, longest, longest + 1


def inwards_about(whole):
    """Breathing in of about 0, of a half and of about the whole."""
    return 0, 1, whole // 2, whole - 1, whole, whole + 1


def voids(rate):
    """The durations of void breaths: a whole of 0, less whole than in, and overlong ones."""
    longest = longest_whole(rate)
    return [(0, 0), (2, 1), (0, longest + 1), (longest, longest + 1), (277, CLOCK - 1)]


def onsets_about(inward, whole):
    """Onsets after which the clock starts again in a breath, or next to its tick marks.

    Its first and its last tick are the onset, the peak and the next onset in turn; then it starts
    again halfway before the peak, and halfway behind it.
    """
    ends = [end - ticks for ticks in (0, inward, whole) for end in (0, LARGEST_TICK)]
    return [*ends, -(inward // 2), -((inward + whole) // 2)]


# 1. Breaths.


def breaths_about_void():
    """Breaths that are just void and just aren't, on clocks that start again at each place."""
    for rate in RATES_TRIED:
        for whole in wholes_about(rate):
            for inward in inwards_about(whole):
                for onset in onsets_about(inward, whole):
                    yield breath(rate, inward, whole, onset)


def next_onsets_before_onsets():
    """Next onsets before their onsets: wholes of nearly the clock."""
    for rate in (1, 1024, LARGEST_RATE):
        for back in (1, 2, 120, 642, longest_whole(rate), 2**31 - 1, 2**31, 2**31 + 1):
            whole = CLOCK - back
            for inward, onset in product(inwards_about(whole), (1000, LARGEST_TICK)):
                yield breath(rate, inward, whole, onset)


def longest_at_the_largest_rates():
    """The longest breaths there are, at the largest rate and at the one before."""
    ends = [longest_whole(rate) for rate in (LARGEST_RATE - 1, LARGEST_RATE)]
    wholes = [end + more for end in ends for more in (-1, 0, 1, 2)]
    for rate, whole in product((LARGEST_RATE - 1, LARGEST_RATE), wholes):
        for inward in (0, 277, 2 * whole // 5, whole):
            yield breath(rate, inward, whole)


def rates_of_each_bit_count():
    """About 120 seconds at powers of two and what is next to them."""
    powers = (2**bits + more for bits in range(13) for more in (-1, 0, 1))
    for rate in (rate for rate in powers if rate in RATES):
        for whole in wholes_about(rate):
            yield breath(rate, whole // 3, whole)


def wholes_that_lose_bits():
    """Wholes that are short, or limits that are lower, where the bits above 16 are dropped."""
    for rate in (1, 546, 547, 1024, 1092, 1093, 2185, LARGEST_RATE):
        limit = longest_whole(rate)
        wholes = [limit % 2**16 + more for more in (0, 1)] + [2**16 - 1, 2**16, 2**16 + 1]
        wholes += [2**place + 100 for place in (8, 16, 17, 18, 19, 24, 31)]
        for whole in wholes:
            yield breath(rate, 30, whole)


def words_of_breaths():
    """Ratios about the ends of what a word holds."""
    for n, d in EDGE_RATIOS:
        yield breath(LARGEST_RATE, n, d)
        yield breath(LARGEST_RATE, n, d, -n)
    for inward in inwards_about(LONGEST_WHOLE):
        yield breath(LARGEST_RATE, inward, LONGEST_WHOLE, -1)


def breaths_at_bad_rates():
    """Stop 19, whatever the breath is."""
    for rate in BAD_RATES:
        for durations in [(277, 642), (0, 1), *voids(1024)]:
            yield breath(rate, *durations)


def random_breaths():
    """Breaths of up to four minutes at random rates, and three tick marks of any bits."""
    rng = random.Random(170)
    for _ in range(400):
        rate = random_rate(rng)
        whole = rng.getrandbits(32) % (2 * longest_whole(rate) + 1)
        inward = rng.getrandbits(32) % (whole + 2)
        yield breath(rate, inward, whole, rng.getrandbits(32))
        if whole % 4 == 0:
            yield request("h", rate, *(rng.getrandbits(32) for _ in range(3)))


# 2. Sums.


def sums_with_a_breath():
    """Small sums and large ones, those of breathing in the larger too, with each kind of breath."""
    totals = [(0, 0), (0, 1), (1, 1), (277, 642), (5, 3), (2**32 - 1, 2**32), (2**63, 2**63 - 1)]
    goods = [(0, 1), (1, 1), (277, 642), (0, longest_whole(1024)), (9, longest_whole(1024))]
    for total, durations in product(totals, [*goods, *voids(1024)]):
        yield sums(1024, total, *durations)
    for onset in onsets_about(277, 642):
        yield sums(1024, (277, 642), 277, 642, onset)


def sums_at_each_rate():
    """Breaths that are just void and just aren't."""
    for rate in RATES_TRIED:
        for whole in wholes_about(rate):
            for inward in inwards_about(whole):
                yield sums(rate, (7, 9), inward, whole, LARGEST_TICK)


# A rate, and the durations of a breath that isn't void at it.
GOOD_BREATHS = [
    *((1, 0, 1), (1, 1, 1), (1, 60, 120), (1024, 277, 642)),
    *((LARGEST_RATE, inward, LONGEST_WHOLE) for inward in (0, 1, LONGEST_WHOLE)),
]


def sums_about_full():
    """Sums that a breath just fills, that have a tick left, and that lack one."""
    for rate, inward, whole in GOOD_BREATHS:
        for more in product((-1, 0, 1), repeat=2):
            total = LARGEST - inward + more[0], LARGEST - whole + more[1]
            if max(total) <= LARGEST:
                yield sums(rate, total, inward, whole)


def full_beside_others():
    """One sum full, or with just room, and the other with much; and both full."""
    for rate, inward, whole in GOOD_BREATHS:
        ins, wholes = (0, LARGEST - inward, LARGEST), (0, LARGEST - whole, LARGEST)
        for total in product(ins, wholes):
            yield sums(rate, total, inward, whole)


def void_breaths_and_full():
    """Void breaths, which leave full sums alone."""
    for rate in RATES_TRIED:
        for durations in voids(rate):
            for total in ((LARGEST, LARGEST), (LARGEST, 0), (0, LARGEST), (LARGEST, LARGEST - 1)):
                yield sums(rate, total, *durations)


def sums_at_bad_rates():
    """Stop 19, whatever the sums and the breath are."""
    for rate in BAD_RATES:
        for total in ((0, 0), (277, 642), (LARGEST, LARGEST)):
            for durations in ((277, 642), (0, 0), (0, CLOCK - 1)):
                yield sums(rate, total, *durations)


def random_sums():
    """Sums of any bit counts, one in four of them nearly full, and random breaths."""
    rng = random.Random(171)
    for number in range(300):
        rate = random_rate(rng)
        whole = rng.getrandbits(32) % (longest_whole(rate) + longest_whole(rate) // 4 + 1)
        total = [random_part_of_any_size(rng) for _ in range(2)]
        if number % 4 == 0:
            total = [LARGEST - rng.getrandbits(32) % (2 * whole + 1) for _ in range(2)]
        yield sums(rate, total, rng.getrandbits(32) % (whole + 1), whole, rng.getrandbits(32))


GROUPS = [
    breaths_about_void,
    next_onsets_before_onsets,
    longest_at_the_largest_rates,
    rates_of_each_bit_count,
    wholes_that_lose_bits,
    words_of_breaths,
    breaths_at_bad_rates,
    random_breaths,
    sums_with_a_breath,
    sums_at_each_rate,
    sums_about_full,
    full_beside_others,
    void_breaths_and_full,
    sums_at_bad_rates,
    random_sums,
]
