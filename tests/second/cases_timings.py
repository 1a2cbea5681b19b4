"""The cases on timings from the scoring package, CR 5 of 02, as request lines.

A record is its 12 bytes. A number is given by its 32 bits.
"""

import random
import struct

import slash
from cases_common import LARGEST, asked_once, chosen, random_part, request
from cases_twisting import lengths_to_try
from cases_vectors import LONGEST_LINE, lent, with_word
from night import STORED

TIMINGS, RATIO = KINDS = (1, 2)

# The most records and the most numbers of a request.
MOST_RECORDS = 16
MOST_NUMBERS = 256

# The bytes of a record.
RECORD_BYTES = 12

# The largest significand without its leading bit, which isn't stored.
ONES = 2**23 - 1

# The bit of the sign.
MINUS = 2**31


def requests():
    """All request lines in order, each asked once."""
    lines = asked_once(GROUPS)
    assert max(map(len, lines)) < LONGEST_LINE
    assert max(line.count(" ") for line in lines) <= MOST_NUMBERS
    return lines


# Numbers.


def number(exponent, significand=0):
    """2^exponent times (1 + significand / 2^23), where the exponent is from -126 to 127.

    Exponent -127 gives the zero and the subnormals, 128 the infinity and the not-a-numbers.
    """
    return (exponent + 127) * 2**23 + significand


def nearest(value):
    """The number nearest to a value: the value itself where it has at most 24 bits."""
    return int.from_bytes(struct.pack("<f", value), "little")


def significands(rng):
    """A significand of zeros, one of ones and any one."""
    return 0, ONES, rng.getrandbits(23)


# The exponents of timings, and those of ratios but for the ratio 1.
EXPONENTS = range(-10, 10)
RATIO_EXPONENTS = range(-10, 0)

# 2^-10, 1 and 2^10. The last is the first that is no timing.
LEAST, ONE, END = number(-10), number(0), number(10)

# The ends of the ranges, and what is one bit away from them.
ENDS = [end + step for end in (LEAST, ONE, END) for step in (-1, 0, 1)] + [END - 2]

# Below 2^22 a not-a-number's message signals.
MESSAGES = (1, 0x15A5A5, 2**22 - 1, 2**22, 2**22 + 1, 0x5A5A5A, ONES)

UNSIGNED_NEVER_GOOD = [
    # Zero, and the subnormals from the smallest to the largest.
    *(number(-127, significand) for significand in (0, 1, 2, 2**22, ONES)),
    # Below the ranges and above them, the smallest and the largest among them.
    *(number(-126), number(-126, 1), number(-11), LEAST - 1),
    *(END, END + 1, number(11), number(127), number(127, ONES)),
    # The infinity and not-a-numbers.
    number(128),
    *(number(128, message) for message in MESSAGES),
]

# Numbers that are neither a timing nor a ratio.
NEVER_GOOD = [
    *UNSIGNED_NEVER_GOOD,
    *(MINUS + bits for bits in UNSIGNED_NEVER_GOOD),
    *(MINUS + bits for bits in (LEAST, ONE - 1, ONE, number(1), END - 1)),
]

# Kinds that are unknown. Most are 1 or 2 when bytes are dropped or read highest first.
UNKNOWN_KINDS = [
    *(0, 3, 4, 255, 256, 257, 258, 2**31, 2**32 - 2, 2**32 - 1),
    *(2**place + kind for place in (16, 24, 31) for kind in KINDS),
    *(kind * 2**place for place in (16, 24) for kind in KINDS),
    *(0x01010101, 0x02020202),
]

# Ratios about the ends of what fixed k = 15 holds.
EDGE_RATIOS = [
    *((1, 1), (1, 2), (1, 3), (2, 3), (16383, 32767), (16384, 32767)),
    *((1, 32766), (1, 32767), (1, 32768), (1, 32769), (2, 65533), (2, 65535), (3, 98303)),
    *((32765, 32766), (32765, 32767), (32766, 32767), (32767, 32768), (32768, 32769)),
    *((65533, 65535), (65534, 65535), (32767, 65534), (32767, 65535), (32768, 65535)),
]


def as_timings(rng, n, d):
    """n and d, each up to 24 bits, as seconds over a power of two that keeps both in range."""
    powers = [2**p for p in range(34) if n / 2**p >= 2**-10 and d / 2**p < 2**10]
    power = chosen(rng, powers)
    return nearest(n / power), nearest(d / power)


# Records.


def record(kind, first, second):
    """The bytes of a record."""
    return b"".join(part.to_bytes(4, "little") for part in (kind, first, second))


def timings_record(rng):
    """A good record of timings, each exponent as likely. Their bits ascend as they do."""
    pair = [number(chosen(rng, EXPONENTS), rng.getrandbits(23)) for _ in range(2)]
    return record(TIMINGS, *sorted(pair))


def ratio_record(rng):
    """A good record of a ratio, each exponent as likely."""
    return record(RATIO, number(chosen(rng, RATIO_EXPONENTS), rng.getrandbits(23)), 0)


def good_record(rng):
    """A good record of either kind."""
    return chosen(rng, (timings_record, ratio_record))(rng)


def unknown_record(rng):
    """A record of an unknown kind, which earns stop 17; half the time a bad number is in it."""
    first, second = chosen(rng, ((ONE, ONE), (ONE, 0), (0, 0), (ONE, number(128))))
    return record(chosen(rng, UNKNOWN_KINDS), first, second)


def bad_record(rng):
    """A record of either kind with a bad number, which earns stop 18."""
    bad = chosen(rng, NEVER_GOOD)
    numbers = (TIMINGS, bad, END - 1), (TIMINGS, LEAST, bad), (TIMINGS, ONE + 1, ONE)
    return record(*chosen(rng, (*numbers, (RATIO, bad, 0), (RATIO, ONE, MINUS))))


BAD_RECORDS = (unknown_record, bad_record)


def records_of(rng, make, count):
    """So many records, all made by one function."""
    return [make(rng) for _ in range(count)]


# Request lines.


def bytes_request(exported, out):
    """i: any bytes and any lent vector."""
    return request("i", len(exported), len(out), *exported, *out)


def records_request(records):
    """i: records and a lent vector with one place for each."""
    return bytes_request(b"".join(records), lent(len(records)))


def timings_request(inspiration, whole):
    """i: one record of timings."""
    return records_request([record(TIMINGS, inspiration, whole)])


def ratio_request(ratio, second=0):
    """i: one record of a ratio."""
    return records_request([record(RATIO, ratio, second)])


def vectors_of(records):
    """The records in order, in vectors as long as there are."""
    for start in range(0, len(records), MOST_RECORDS):
        yield records_request(records[start : start + MOST_RECORDS])


# 1. Breaths.


def timed_example():
    """The ratios of document 01's night: in seconds, in 1024ths of a second, and as such."""
    for n, d in ((277, 642), (16, 40), (293, 682)):
        for parts in (1, 1024):
            yield timings_request(nearest(n / parts), nearest(d / parts))
        yield ratio_request(nearest(n / d))


def plausible_breaths():
    """Breaths of 2 to 8 seconds, 0.5 to 4 of them in, to the millisecond; and their ratios."""
    rng = random.Random(130)
    for _ in range(40):
        milliseconds = chosen(rng, range(500, 4001)), chosen(rng, range(2000, 8001))
        inspiration, whole = sorted(milliseconds)
        yield timings_request(nearest(inspiration / 1000), nearest(whole / 1000))
        yield ratio_request(nearest(inspiration / whole))


def tenths_of_a_percent():
    """Every ratio of whole tenths of a percent, as near as a number comes to it."""
    ratios = [nearest(tenths / 1000) for tenths in range(1, 1001)]
    yield from vectors_of([record(RATIO, ratio, 0) for ratio in ratios])


# 2. Ranges.


def ends_of_timings():
    """Each end of the ranges and its neighbours as either timing, beside all the others."""
    for inspiration in ENDS:
        for whole in ENDS:
            yield timings_request(inspiration, whole)


def ends_of_ratios():
    """Each end of the ranges and its neighbours as the ratio."""
    for ratio in ENDS:
        yield ratio_request(ratio)
        yield ratio_request(ratio, ratio)


def numbers_never_good():
    """Each number that is never good as either timing, as both, as the ratio and behind it."""
    for bad in NEVER_GOOD:
        for timings in ((bad, END - 1), (LEAST, bad), (bad, bad)):
            yield timings_request(*timings)
        yield ratio_request(bad)
        # Bits that are all 0 are what stands behind a ratio.
        if bad != 0:
            yield ratio_request(ONE, bad)
            yield ratio_request(bad, bad)


def bits_behind_ratios():
    """Each bit of the second number alone, all of them, and numbers that are good elsewhere."""
    rng = random.Random(131)
    seconds = [2**place for place in range(32)]
    seconds += [2**32 - 1, 2**31 - 1, LEAST, ONE, END - 1]
    for second in seconds:
        ratio = number(chosen(rng, RATIO_EXPONENTS), rng.getrandbits(23))
        yield ratio_request(ratio, second)


def equal_and_next_timings():
    """Equal timings with every exponent, and timings one bit apart, either one the larger."""
    rng = random.Random(132)
    for exponent in EXPONENTS:
        for significand in significands(rng):
            timing = number(exponent, significand)
            yield timings_request(timing, timing)
            yield timings_request(timing, timing + 1)
            yield timings_request(timing + 1, timing)


# 3. Exponents and significands.


def every_exponent_distance():
    """Every distance of two timings' exponents, with varied significands."""
    rng = random.Random(133)
    for distance in range(len(EXPONENTS)):
        for first in significands(rng):
            for second in significands(rng):
                exponent = chosen(rng, EXPONENTS[: len(EXPONENTS) - distance])
                whole = number(exponent + distance, second)
                yield timings_request(number(exponent, first), whole)


def every_pair_of_exponents():
    """Every two exponents of timings, in vectors."""
    rng = random.Random(134)
    records = []
    for high in EXPONENTS:
        for low in range(EXPONENTS[0], high + 1):
            pair = number(low, rng.getrandbits(23)), number(high, rng.getrandbits(23))
            records.append(record(TIMINGS, *sorted(pair)))
    yield from vectors_of(records)


def every_exponent_of_ratios():
    """Ratios of every exponent in range and of those next to it, with varied significands."""
    rng = random.Random(135)
    for exponent in range(RATIO_EXPONENTS[0] - 2, RATIO_EXPONENTS[-1] + 4):
        for significand in (1, *significands(rng)):
            yield ratio_request(number(exponent, significand))


def ratios_over_powers_of_two():
    """Ratios over 2^14 at most, which the format holds, and over larger powers of two."""
    rng = random.Random(136)
    for power in (10, 13, 14, 15, 16, 20, 23, 24, 25, 33):
        least, bits = 2 ** max(0, power - 10), min(power, 24)
        for n in (least, 2**bits - 1, *(rng.getrandbits(bits) | 1 for _ in range(3))):
            yield ratio_request(nearest(max(least, n) / 2**power))


# 4. Rounding.


def held_timings():
    """Timings whose ratio the format holds, in lowest terms or not."""
    rng = random.Random(137)
    for _ in range(30):
        n, d = sorted((random_part(rng, 15), random_part(rng, 15)))
        times = random_part(rng, 8)
        yield timings_request(*as_timings(rng, n, d))
        yield timings_request(*as_timings(rng, times * n, times * d))


def edge_ratios_timed():
    """Ratios about the ends of what the format holds, in several timings each."""
    rng = random.Random(138)
    for n, d in EDGE_RATIOS:
        for times in (1, 1, 3, 128):
            yield timings_request(*as_timings(rng, times * n, times * d))


def tied_timings():
    """Mediants, which both neighbours miss by as much, and ratios on each side."""
    rng = random.Random(139)
    for _ in range(20):
        n, d = sorted((random_part(rng, 16), random_part(rng, 16)))
        lower, upper = slash.neighbours(STORED, n, d)
        mediant = slash.added(lower, 1, upper)
        yield timings_request(*as_timings(rng, *mediant))
        yield timings_request(*as_timings(rng, *slash.added(mediant, 1, lower)))
        yield timings_request(*as_timings(rng, *slash.added(mediant, 1, upper)))


def about_the_smallest_fraction():
    """Ratios about 1/32767 and 1/32768, the last of which is rounded to 0/1."""
    for exponent in range(-10, -4):
        for times in (32767, 32767.5, 32768):
            for step in (-1, 0, 1):
                whole = nearest(times * 2.0**exponent) + step
                yield timings_request(number(exponent), whole)


def just_below_one():
    """Ratios so many bits below 1: up to 512 of them 1/1 is best, and then no longer."""
    for bits in (1, 2, 3, 511, 512, 513, 1023, 1024, 1025):
        yield ratio_request(ONE - bits)
        for exponent in (-9, 0, 9):
            yield timings_request(number(exponent) - bits, number(exponent))


# 5. Kinds and places of bytes.


def unknown_kinds():
    """Stop 17, before 18."""
    not_a_number = number(128, ONES)
    for kind in UNKNOWN_KINDS:
        for numbers in ((ONE, ONE), (ONE, 0), (0, 0), (not_a_number, not_a_number)):
            yield records_request([record(kind, *numbers)])


def kinds_one_bit_away():
    """Each kind with each of its bits turned, before numbers that are good for it."""
    for kind, second in ((TIMINGS, ONE), (RATIO, 0)):
        for place in range(32):
            yield records_request([record(kind ^ 2**place, ONE, second)])


def kinds_exchanged():
    """Timings called a ratio, and a ratio called timings."""
    rng = random.Random(140)
    for _ in range(8):
        timings, ratio = timings_record(rng), ratio_record(rng)
        yield records_request([ratio[:4] + timings[4:]])
        yield records_request([timings[:4] + ratio[4:]])


def numbers_exchanged():
    """The whole breath before the inspiration, and the zero before the ratio."""
    rng = random.Random(141)
    for _ in range(8):
        for good in (timings_record(rng), ratio_record(rng)):
            yield records_request([good[:4] + good[8:] + good[4:8]])


def bytes_exchanged():
    """Records with the highest bytes first, with the kind behind, and from behind."""
    rng = random.Random(142)
    for _ in range(6):
        good = good_record(rng)
        kind, first, second = good[:4], good[4:8], good[8:]
        numbers = first[::-1] + second[::-1]
        for other in (kind[::-1] + numbers, kind + numbers, first + second + kind, good[::-1]):
            yield records_request([other])


# 6. Byte counts and lent places.


def every_byte_count():
    """Every count of bytes, with a place for each whole record."""
    rng = random.Random(143)
    for count in range(RECORD_BYTES * MOST_RECORDS + 1):
        exported = b"".join(records_of(rng, good_record, MOST_RECORDS))[:count]
        yield bytes_request(exported, lent(count // RECORD_BYTES))


def byte_counts_and_places():
    """Counts of bytes next to multiples of 12 with few places and many: 16 before 3."""
    rng = random.Random(144)
    for count in (0, 1, 11, 12, 13, 23, 24, 25, 35, 36, 37, 180, 191, 192):
        exported = b"".join(records_of(rng, good_record, MOST_RECORDS))[:count]
        for places in (0, 1, 2, 3, 16):
            yield bytes_request(exported, lent(places))


def broken_bad_records():
    """Stop 16 before 3, 17 and 18, whatever the bytes are."""
    for count in (1, 11, 13, 23, 25, 47, 100, 191):
        for byte in (0, 255):
            for places in (0, count // RECORD_BYTES, MOST_RECORDS):
                yield bytes_request(bytes([byte] * count), lent(places))


def wrong_numbers_of_places():
    """Stop 3 before 17 and 18: too few places and too many, and as many as there are records."""
    rng = random.Random(145)
    for count, places in lengths_to_try():
        for make in (good_record, *BAD_RECORDS):
            exported = b"".join(records_of(rng, make, count))
            yield bytes_request(exported, lent(places))


# 7. Vectors.


def good_vectors_of_records():
    """Good vectors of every length, of both kinds and of each."""
    rng = random.Random(146)
    for length in range(MOST_RECORDS + 1):
        for make in (good_record, good_record, timings_record, ratio_record):
            yield records_request(records_of(rng, make, length))


def one_record_everywhere():
    """Vectors of one record, and vectors where one place alone has another."""
    rng = random.Random(147)
    for make in (timings_record, ratio_record):
        same, other = [make(rng)] * 7, good_record(rng)
        yield records_request(same)
        for place in range(7):
            yield records_request(with_word(same, place, other))


def any_words_lent_for_ratios():
    """The result's words before the call are none of its business, and stay if it stops."""
    rng = random.Random(148)
    for out in ([0, 0, 0], [LARGEST] * 3, [1, LARGEST, 2**32]):
        for make in (good_record, *BAD_RECORDS):
            exported = b"".join([good_record(rng), good_record(rng), make(rng)])
            yield bytes_request(exported, out)
            yield bytes_request(exported, out[:2])
            yield bytes_request(exported[:-1], out)


def a_bad_record_at_each_place():
    """One bad record at each place of vectors of every length, for stop 17 and for 18."""
    rng = random.Random(149)
    for length in range(1, MOST_RECORDS + 1):
        for place in range(length):
            for make in BAD_RECORDS:
                good = records_of(rng, good_record, length)
                yield records_request(with_word(good, place, make(rng)))


def two_bad_records():
    """17 against 18 at two places: the lower place decides, whichever stop it has."""
    rng = random.Random(150)
    places = [(4, i, j) for i in range(3) for j in range(i + 1, 4)]
    places += [(MOST_RECORDS, i, i + 1) for i in range(MOST_RECORDS - 1)]
    places += [(MOST_RECORDS, 0, MOST_RECORDS - 1)]
    for length, i, j in places:
        for lower, upper in (BAD_RECORDS, BAD_RECORDS[::-1]):
            good = records_of(rng, good_record, length)
            worse = with_word(with_word(good, i, lower(rng)), j, upper(rng))
            yield records_request(worse)


def bad_records_alone():
    """Vectors of bad records only."""
    rng = random.Random(151)
    for length in (1, 2, 3, MOST_RECORDS):
        for _ in range(4):
            yield records_request([chosen(rng, BAD_RECORDS)(rng) for _ in range(length)])


# 8. Random records.


def random_good_records():
    """Random records in range, each alone."""
    rng = random.Random(152)
    for _ in range(120):
        yield records_request([timings_record(rng)])
        yield records_request([ratio_record(rng)])


def random_records_about_the_ranges():
    """Random numbers in the ranges and next to them, with a random order of timings."""
    rng = random.Random(153)
    for _ in range(100):
        exponents = chosen(rng, range(-11, 11)), chosen(rng, range(-11, 11))
        yield timings_request(*(number(e, rng.getrandbits(23)) for e in exponents))
        ratio = number(chosen(rng, range(-12, 2)), rng.getrandbits(23))
        yield ratio_request(ratio)


def random_bits():
    """Records of known kinds and of any with random bits."""
    rng = random.Random(154)
    for _ in range(70):
        yield timings_request(rng.getrandbits(32), rng.getrandbits(32))
        yield ratio_request(rng.getrandbits(32))
        yield records_request([rng.getrandbits(96).to_bytes(RECORD_BYTES, "little")])


def random_vectors_of_records():
    """Vectors of any length where few records are bad."""
    rng = random.Random(155)
    makers = [good_record] * 14 + list(BAD_RECORDS)
    for _ in range(50):
        length = chosen(rng, range(1, MOST_RECORDS + 1))
        yield records_request([chosen(rng, makers)(rng) for _ in range(length)])


GROUPS = [
    timed_example,
    plausible_breaths,
    tenths_of_a_percent,
    ends_of_timings,
    ends_of_ratios,
    numbers_never_good,
    bits_behind_ratios,
    equal_and_next_timings,
    every_exponent_distance,
    every_pair_of_exponents,
    every_exponent_of_ratios,
    ratios_over_powers_of_two,
    held_timings,
    edge_ratios_timed,
    tied_timings,
    about_the_smallest_fraction,
    just_below_one,
    unknown_kinds,
    kinds_one_bit_away,
    kinds_exchanged,
    numbers_exchanged,
    bytes_exchanged,
    every_byte_count,
    byte_counts_and_places,
    broken_bad_records,
    wrong_numbers_of_places,
    good_vectors_of_records,
    one_record_everywhere,
    any_words_lent_for_ratios,
    a_bad_record_at_each_place,
    two_bad_records,
    bad_records_alone,
    random_good_records,
    random_records_about_the_ranges,
    random_bits,
    random_vectors_of_records,
]
