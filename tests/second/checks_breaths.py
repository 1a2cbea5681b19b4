"""Checks of breaths at a rate, and of recordings that tell it: what CR 7 of 02 says of them.

Here a breath that isn't void is one whose whole lies in a range, the word comes by convergents, and
regular expressions tell a first line.
"""

import random
import re

import cases_breaths
import cases_night
import cases_rates
import night
from answers import answer
from cases_common import chosen, request
from cases_night import EXAMPLE_BREATHS, EXAMPLE_LISTING, GOOD
from checks_listings import ALL, short_recordings
from checks_timings import word_of_ratio

# Worked out by hand from documents 00 and 01 and CR 7.
BREATH_ANSWERS = [
    # Document 01's breaths and edges.
    ("h 1024 0 277 642", "277 642 1150282"),
    ("h 1024 4294967290 10 34", "16 40 20005"),
    ("h 1024 100 100 100", "0 0 void"),
    ("h 1024 5 5 6", "0 1 1"),
    ("h 1024 5 6 6", "1 1 10001"),
    ("h 1024 5 7 6", "2 1 void"),
    # 120 seconds are 120 ticks at the least rate, then 122880, 491400 and 491520.
    ("h 1 0 60 120", "60 120 10002"),
    ("h 1 0 60 121", "60 121 void"),
    ("h 2 4294967295 0 239", "1 240 100f0"),
    ("h 1024 0 30720 122880", "30720 122880 10004"),
    ("h 1024 0 30720 122881", "30720 122881 void"),
    ("h 1025 0 0 122881", "0 122881 1"),
    ("h 4095 7 491407 491407", "491400 491400 10001"),
    ("h 4095 0 0 491520", "0 491520 void"),
    ("h 4096 0 0 491520", "0 491520 1"),
    ("h 4096 0 0 491521", "0 491521 void"),
    # A next onset before its onset, and before its peak alone.
    ("h 4096 642 800 641", "158 4294967295 void"),
    ("h 4096 642 800 799", "158 157 void"),
    # 1/32768 is 0/1 and 491519/491520 is 1/1, both marked.
    ("h 4096 0 15 491520", "15 491520 8001"),
    ("h 4096 0 491519 491520", "491519 491520 18001"),
    # No rates, whatever the breath is.
    ("h 0 0 277 642", "stop 19 0"),
    ("h 4097 0 277 642", "stop 19 0"),
    ("h 4294968320 0 277 642", "stop 19 0"),
    ("h 18446744073709551615 100 100 100", "stop 19 0"),
    # Document 01's total; then a void breath, and an overlong one.
    ("a 1024 0 0 0 277 642", "277 642"),
    ("a 1024 277 642 4294967290 10 34", "293 682"),
    ("a 1024 293 682 100 100 100", "293 682"),
    ("a 1024 293 682 0 0 122880", "293 123562"),
    ("a 1024 293 682 0 0 122881", "293 682"),
    ("a 1 5 3 0 1 2", "6 5"),
    # Sums that a breath fills, that it would pass, and that a void one leaves alone.
    ("a 1 18446744073709551614 18446744073709551613 0 1 2", " ".join(2 * ["18446744073709551615"])),
    ("a 1 18446744073709551615 18446744073709551613 0 1 2", "full"),
    ("a 1 18446744073709551614 18446744073709551614 0 1 2", "full"),
    ("a 1 18446744073709551615 0 5 5 6", "18446744073709551615 1"),
    ("a 1 0 18446744073709551615 5 5 6", "full"),
    ("a 1 18446744073709551615 18446744073709551615 0 2 1", " ".join(2 * ["18446744073709551615"])),
    ("a 0 18446744073709551615 18446744073709551615 0 1 2", "stop 19 0"),
    ("a 4097 0 0 0 0 0", "stop 19 0"),
]

# Recordings and their listings, worked out by hand from CR 7.
RATED_LISTINGS = [
    (b"rate\t1024\n" + EXAMPLE_BREATHS, EXAMPLE_LISTING),
    (b"rate\t1\n", ALL),
    (b"rate\t4096\n", ALL),
    # First lines that are no rate lines: 9, then 19 in place of 10 and 11.
    (EXAMPLE_BREATHS, b"refused\t19\t1\n"),
    (b"\n", b"refused\t19\t1\n"),
    (b"rate\n" + GOOD, b"refused\t19\t1\n"),
    (b"rate\t0\n", b"refused\t19\t1\n"),
    (b"rate\t4097\n" + GOOD, b"refused\t19\t1\n"),
    (b"rate\t007\n" + GOOD, b"refused\t19\t1\n"),
    (b"rate\t1024\t\n" + GOOD, b"refused\t19\t1\n"),
    (b"rate\t1024", b"refused\t9\t1\n"),
    (b"rate\t" + b"1" * 27 + b"\n", b"refused\t19\t1\n"),
    (b"rate\t" + b"1" * 28 + b"\n", b"refused\t9\t1\n"),
    # Lines count the rate line, breaths don't.
    (b"rate\t5\nrate\t5\n", b"refused\t10\t2\n"),
    (b"rate\t5\n5\t5\t6\nrate\t5\n", b"1\t00000001\t0/1\t0.0\nrefused\t10\t3\n"),
    (b"rate\t5\n5\t5\t6\n\trate\t5\n", b"1\t00000001\t0/1\t0.0\nrefused\t11\t3\n"),
    # 600 ticks are 120 seconds; a longer breath isn't summed.
    (
        b"rate\t5\n0\t150\t600\n0\t150\t601\n6\t7\t5\n",
        b"1\t00010004\t1/4\t25.0\n2\t00000000\t-\t-\n3\t00000000\t-\t-\nall\t00010004\t1/4\t25.0\n",
    ),
    (b"rate\t4\n0\t150\t600\n", b"1\t00000000\t-\t-\n" + ALL),
]

# By stop, the groups of cases whose first line earns it, and nothing is printed before.
FIRST_STOPS = {
    9: [cases_rates.first_lines_unended],
    19: [cases_rates.first_lines_that_tell_no_rate, cases_rates.rates_out_of_range],
}

# Groups whose point would be lost if a breath was overlong.
NEVER_OVERLONG = [
    cases_night.the_example,
    cases_night.ends_of_the_ratio,
    cases_night.percentages,
    cases_night.percentages_of_the_fraction,
    cases_night.percentages_of_the_next_fraction,
    cases_night.every_tie,
    cases_night.next_to_every_tie,
    cases_night.sums_at_ties,
    cases_night.sums_next_to_ties,
    cases_night.large_ratios,
    cases_night.most_lines,
    cases_night.largest_sums,
    cases_night.listings_about_as_long_as_shown,
    cases_night.rows_numbered,
    cases_night.following_breaths,
]

# What ends a first line in time, and the first lines that are rate lines.
ENDED = re.compile(rb"[^\n]{0,32}\n")
RATED = re.compile(rb"rate\t([1-9][0-9]{0,2}|[1-3][0-9]{3}|40[0-8][0-9]|409[0-6])\n")


def check_breaths():
    """Asserts everything below."""
    check_by_hand()
    check_requests()
    check_every_rate()
    check_first_lines()
    check_recordings()
    check_first_stops()
    check_lengths_kept()
    check_ties_kept()


def check_by_hand():
    """Asserts the answers and the listings that were worked out by hand."""
    for line, expected in BREATH_ANSWERS:
        assert answer(line) == expected, (line, expected, answer(line))
    for recording, expected in RATED_LISTINGS:
        assert night.listing(recording) == expected, (recording, expected)


# Breaths and sums, worked by another way.


def check_requests():
    """Asserts the answer to every request line of the cases, and what is listed of a breath."""
    for line in cases_breaths.requests():
        expected = answer_by_ranges(line)
        assert answer(line) == expected, (line, expected)
        if line.startswith("h ") and not expected.startswith("stop"):
            check_listed(line, expected)


def answer_by_ranges(line):
    """The answer to a request line."""
    rate, *sums, onset, peak, following = map(int, line.split(" ")[1:])
    if not 0 < rate < 4097:
        return "stop 19 0"
    inward, whole = ticks_after(onset, peak), ticks_after(onset, following)
    good = whole in good_wholes(rate, inward)
    if not sums:
        word = "%x" % word_of_ratio(inward, whole) if good else "void"
        return "%d %d %s" % (inward, whole, word)
    if good:
        sums = [sums[0] + inward, sums[1] + whole]
    return "full" if max(sums) >> 64 else "%d %d" % tuple(sums)


def ticks_after(onset, mark):
    """The ticks from an onset to a mark, the clock starting again where that is lower."""
    return mark - onset if onset <= mark else mark + 2**32 - onset


def good_wholes(rate, inward):
    """The wholes of the breaths at a rate that aren't void, with this breathing in."""
    return range(max(1, inward), 120 * rate + 1)


def check_listed(line, expected):
    """Asserts that the recording of a breath alone lists the word that is answered for it."""
    rate, *marks = line.split(" ")[1:]
    listing = night.listing(cases_night.rate_line(rate) + cases_night.line(*marks))
    first, total = (row.split(b"\t")[1:] for row in listing.splitlines())
    word = expected.split(" ")[-1].replace("void", "0")
    assert first == total and int(first[0], 16) == int(word, 16), line


def check_every_rate():
    """Asserts for every rate the longest breath that isn't void, by its request and its line."""
    for rate in range(1, 4097):
        whole = 120 * rate
        assert answer(request("h", rate, 0, 0, whole)) == "0 %d 1" % whole, rate
        assert answer(request("h", rate, 0, 0, whole + 1)) == "0 %d void" % (whole + 1), rate
        breaths = cases_night.breath(0, whole) + cases_night.breath(whole, whole + 1)
        listing = night.listing(b"rate\t%d\n" % rate + breaths)
        rows = b"1\t00000001\t0/1\t0.0\n", b"2\t00000000\t-\t-\n", b"all\t00000001\t0/1\t0.0\n"
        assert listing == b"".join(rows), rate


# Recordings.


def check_first_lines():
    """Asserts the stops of random first lines, and of rate lines with random damages."""
    rng = random.Random(172)
    for _ in range(3000):
        length = chosen(rng, range(40))
        text = bytes(chosen(rng, b"rate\t\t0123456789\n \r\0\xff") for _ in range(length))
        check_first_line(text)
        check_first_line(b"rate\t" + text)
        rated = b"rate\t%d\n" % rng.getrandbits(13)
        check_first_line(rated)
        check_first_line(cases_night.damaged(rng, rated) + text)


def check_first_line(recording):
    """Asserts that stops 9 and 19 come at line 1 just where regular expressions tell them."""
    listing = night.listing(recording)
    stop = stop_of_first_line(recording)
    if stop is None:
        assert not (listing.startswith(b"refused") and listing.endswith(b"\t1\n")), recording
    else:
        assert listing == b"refused\t%d\t1\n" % stop, recording


def stop_of_first_line(recording):
    """The stop of a recording's first line, or None where it has none or no line."""
    if not recording or RATED.match(recording):
        return None
    return 19 if ENDED.match(recording) else 9


def check_recordings():
    """Asserts of the cases' recordings what is asserted of one."""
    for recording in short_recordings():
        check_first_line(recording)
        check_line_numbers(recording)
        check_larger_rates(recording)


def check_line_numbers(recording):
    """Asserts that a stop's line is behind the rate line and the breaths listed before it."""
    *rows, last = night.listing(recording).splitlines()
    if last.startswith(b"refused\t"):
        place = int(last.split(b"\t")[2])
        assert len(rows) == max(0, place - 2), recording


def check_larger_rates(recording):
    """Asserts that at larger rates no more breaths are void, and the others' lines stay."""
    rated = RATED.match(recording)
    if rated is None:
        return
    rate, rest = int(rated[1]), recording[rated.end() :]
    rows = night.listing(recording).splitlines()[:-1]
    for larger in {min(other, 4096) for other in (rate + 1, 2 * rate, 4096)}:
        others = night.listing(b"rate\t%d\n" % larger + rest).splitlines()[:-1]
        assert len(rows) == len(others), (recording, larger)
        for row, other in zip(rows, others):
            assert row == other or row.endswith(b"\t-\t-"), (recording, larger)


# Groups of cases.


def check_first_stops():
    """Asserts the stop of the groups that are named above, and the listing of no breaths."""
    for number, groups in FIRST_STOPS.items():
        for _, pieces in cases_night.named_cases(groups):
            listing = night.listing(cases_night.recording(pieces))
            assert listing == b"refused\t%d\t1\n" % number, pieces
    for pieces in cases_rates.rates_alone():
        assert night.listing(cases_night.recording(pieces)) == ALL, pieces


def check_lengths_kept():
    """Asserts of the groups named above that no breath of theirs is overlong."""
    for name, pieces in cases_night.named_cases(NEVER_OVERLONG):
        texts = b"".join(text for count, text in pieces if count)
        rate, *lines = texts.split(b"\n")
        for line in lines:
            marks = line.split(b"\t")
            if len(marks) == 3 and all(map(bytes.isdigit, marks)):
                whole = ticks_after(int(marks[0]), int(marks[2]))
                assert whole <= 120 * night.RATE_LINES[rate], (name, line)


def check_ties_kept():
    """Asserts which totals are at ties, of ticks and of sums that are ties or next to one."""
    ties = {b"%d/%d" % tie for tie in cases_night.ties()}
    for group in (cases_night.percentages_of_the_fraction, cases_night.sums_at_ties):
        assert all(fraction in ties for fraction in total_fractions(group)), group.__name__
    group = cases_night.percentages_of_the_next_fraction
    assert not any(fraction in ties for fraction in total_fractions(group))


def total_fractions(group):
    """The fraction of each total in the listings of a group's recordings."""
    for pieces in group():
        listing = night.listing(cases_night.recording(pieces))
        yield listing.splitlines()[-1].split(b"\t")[2]
