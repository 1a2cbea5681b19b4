"""The listing of a night's recording, from documents 00 and 01 and CRs 1, 3 and 7 of 02 alone.

The papers have no line of standard error: what the program says there is decided beside them.
"""

from fractions import Fraction
from functools import lru_cache

import slash
from slash import FIXED, Format, Stop
from stops import STOP_TEXTS

# Numbers of the stops that the recording can cause. 12, which CR 3 took away, stays reserved.
TOO_MANY_BREATHS = 8
BAD_LINE_END = 9
NOT_THREE_FIELDS = 10
BAD_NUMBER = 11
BAD_RATE = 19

# What a recording may hold at most.
MOST_BREATHS = 65536
MOST_BYTES = 32
LARGEST_TICK = 4294967295

# The clock starts again after its largest tick.
CLOCK = LARGEST_TICK + 1

# The ticks that a second may have, the first lines that tell them, and the place of a first line.
RATES = range(1, 4097)
RATE_LINES = {b"rate\t%d" % rate: rate for rate in RATES}
RATE_PLACE = 1

# A breath of more seconds is void.
MOST_SECONDS = 120

# The ticks of breathing in and of whole breaths where no breath is summed.
NO_TICKS = (0, 0)

# The format of the words that are stored.
STORED = Format(FIXED, 15)

VOID_COLUMNS = ("00000000", "-", "-")


def listing(recording):
    """The lines that are printed for a recording, both as bytes."""
    listed, sums = [], NO_TICKS
    try:
        for number, rate, breath in breaths_of(recording):
            ticks = summed_ticks(rate, *breath)
            listed.append(tabbed(number, columns(*ticks)))
            sums = added(sums, ticks)
        listed.append(tabbed("all", columns(*sums)))
    except Stop as stop:
        listed.append(refusal(stop))
    return "".join(listed).encode("ascii")


def complaint(recording):
    """What is written on standard error beside a recording's listing: the stop in words, if any."""
    try:
        for _ in breaths_of(recording):
            pass
        return b""
    except Stop as stop:
        return complaint_of("line %d: %s" % (stop.place, STOP_TEXTS[stop.number]))


def complaint_of(text):
    """A line of standard error, as bytes."""
    return b"night: " + text.encode("ascii") + b"\n"


# The recording, read.


def breaths_of(recording):
    """Each breath's number from 1, its rate and its durations; every stop of a recording."""
    rate = None
    for place, line in lines_of(recording):
        if place == RATE_PLACE:
            rate = rate_of(line)
        else:
            yield place - RATE_PLACE, rate, breath_of(line, place)


def lines_of(recording):
    """Each line and its place from 1, without its line feed; stops 8 and 9."""
    place, start = 1, 0
    while start < len(recording):
        if place > RATE_PLACE + MOST_BREATHS:
            raise Stop(TOO_MANY_BREATHS, place)
        end = recording.find(b"\n", start)
        if end < 0 or end - start > MOST_BYTES:
            raise Stop(BAD_LINE_END, place)
        yield place, recording[start:end]
        place, start = place + 1, end + 1


def rate_of(line):
    """The rate that a first line tells; stop 19 for a line that is no rate line."""
    if line not in RATE_LINES:
        raise Stop(BAD_RATE, RATE_PLACE)
    return RATE_LINES[line]


def breath_of(line, place):
    """The durations of the breath at a place; stops 10 and 11 there."""
    try:
        return durations(*tick_marks(line))
    except Stop as stop:
        raise Stop(stop.number, place) from None


# A recording of many lines holds few different ones.
@lru_cache(maxsize=2**12)
def tick_marks(line):
    """The onset, the peak and the next onset of a line; stops 10 and 11."""
    fields = line.split(b"\t")
    if len(fields) != 3:
        raise Stop(NOT_THREE_FIELDS)
    if not all(map(is_tick_mark, fields)):
        raise Stop(BAD_NUMBER)
    return tuple(map(int, fields))


def is_tick_mark(text):
    """Whether the bytes are a tick mark, digits only and no leading zero."""
    if not text or any(byte not in b"0123456789" for byte in text):
        return False
    return (text == b"0" or text[0] != ord("0")) and int(text) <= LARGEST_TICK


# Breaths.


def checked_rate(rate):
    """The rate that a caller gives; stop 19 for one that no recording can have."""
    if rate not in RATES:
        raise Stop(BAD_RATE)
    return rate


def durations(onset, peak, following):
    """The ticks of breathing in and of the whole breath."""
    return (peak - onset) % CLOCK, (following - onset) % CLOCK


def is_void(rate, inward, whole):
    """Whether a breath is void: its whole is 0, its in exceeds that, or it is overlong."""
    return whole == 0 or inward > whole or whole > MOST_SECONDS * rate


def summed_ticks(rate, inward, whole):
    """The ticks of a breath that go into the sums: none of a void one."""
    return NO_TICKS if is_void(rate, inward, whole) else (inward, whole)


def added(sums, ticks):
    """The sums of breathing in and of whole breaths with these ticks more."""
    return sums[0] + ticks[0], sums[1] + ticks[1]


# The listing, written.


@lru_cache(maxsize=2**12)
def columns(inward, whole):
    """The columns of a breath's ticks or of sums: of their ratio, or void where there are none."""
    if whole == 0:
        return VOID_COLUMNS
    return pair_columns(*slash.rounded(STORED, inward, whole))


def pair_columns(pair, mark):
    """The word of a pair in lowest terms with this mark, its fraction and its percentage."""
    word = slash.pair_word(STORED, 0, pair, mark)
    return "%08x" % word, "%d/%d" % pair, percentage(*pair)


def stored_word(n, d):
    """The word that n/d is rounded to, marked if that changed it."""
    return slash.pair_word(STORED, 0, *slash.rounded(STORED, n, d))


def percentage(numerator, denominator):
    """1000 times the fraction to the nearest whole, half to even, as tenths of a percent.

    Python's own round does just that with an exact fraction.
    """
    return percent(round(Fraction(1000 * numerator, denominator)))


def percent(tenths):
    """So many tenths of a percent, with one digit after the point."""
    return "%d.%d" % divmod(tenths, 10)


def refusal(stop):
    """The line that tells a stop."""
    return tabbed("refused", (stop.number, stop.place))


def tabbed(name, texts):
    """A listed line: its name or number, then the other columns."""
    return "\t".join(map(str, (name, *texts))) + "\n"
