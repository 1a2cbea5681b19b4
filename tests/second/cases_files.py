"""Recordings in files, for the program night_files: each way that a run ends, and lines that are cut.

It reads 16,384 bytes at once and writes 32,768 at once; a line may begin before the end of either.
"""

import night
from cases_common import LARGEST_RATE, longest_whole
from cases_night import EXAMPLE, EXAMPLE_BREATHS, GOOD, LATER, RATE, breath, line, rate_line

# The most bytes that are read at once, and written at once.
READ = 16_384
WRITTEN = 32_768

# The bytes of the shortest breath with its line feed, and of the longest; no listed line has more.
SHORTEST = 6
LONGEST = 33

# Two names that nothing can be read by: that of no file, and that of the folder of the files.
UNREAD = ["missing", "."]

# What is told where nothing can be read, and where nothing can be written.
UNREADABLE = night.complaint_of("the recording cannot be read")
UNWRITABLE = night.complaint_of("the listing cannot be written")


def outputs():
    """The program's files: its arguments, each recording, and what must be printed."""
    listed = recordings()
    for name, recording in listed.items():
        yield f"data/{name}", [recording]
    yield "args", (f"{name}\n".encode("ascii") for name in [*listed, *UNREAD])
    yield "stdout", printed(listed)


def recordings():
    """Each recording by its name."""
    return {**short(), **rates(), **at_ends_of_reads_and_writes(), **longest()}


def printed(listed):
    """Behind each name its listing and how its run ended; then each name again, listed in vain.

    What the program writes on standard error stands behind the listing.
    """
    for name, recording in listed.items():
        listing = night.listing(recording)
        yield headed(name, listing + night.complaint(recording), end_of(listing))
    yield from unread()
    for name in listed:
        yield headed(name, UNWRITABLE, b"unwritten\n")
    yield from unread()


def unread():
    """The names that nothing can be read by."""
    for name in UNREAD:
        yield headed(name, UNREADABLE, b"unread\n")


def headed(name, text, end):
    """A text behind a name and before what tells its end."""
    return f"# {name}\n".encode("ascii") + text + b"# " + end


def end_of(listing):
    """What tells the end of a run: its listing's last line where that tells a stop."""
    last = listing.splitlines(keepends=True)[-1]
    return last if last.startswith(b"refused\t") else b"listed\n"


# Recordings of a few lines.


def short():
    """Nothing; stops 9 to 11 at a first, a second or a last breath; and what lies next to them."""
    return {
        "example": EXAMPLE,
        "one": RATE + GOOD,
        # 32 bytes before the line feed, the largest tick mark among them.
        "widest": RATE + line(4294966653, 4294966930, 4294967295),
        # An empty night, and the one byte that is an empty line.
        "empty": b"",
        "line_feed": b"\n",
        # A line of 33 bytes before the line feed, and none with a line feed.
        "overlong": RATE + GOOD + line(4294966653, 4294966930, 42949672950) + LATER,
        "unended": RATE + b"0\t277\t642",
        "unended_later": EXAMPLE + b"0\t277\t642",
        "unended_bad": RATE + GOOD + b"0\t277",
        "endless": RATE + GOOD + b"1" * READ,
        "two_fields": RATE + b"0\t277\n" + LATER,
        "four_fields": RATE + GOOD + b"0\t277\t642\t\n" + LATER,
        "empty_line": EXAMPLE + b"\n",
        "leading_zero": RATE + b"0\t0277\t642\n" + LATER,
        "too_large": RATE + GOOD + line(0, 277, 4294967296) + LATER,
        "empty_field": EXAMPLE + b"0\t\t642\n",
        "other_byte": RATE + GOOD + b"0\t277\t64x\n" + LATER,
    }


def rates():
    """First lines that are rate lines or aren't, and breaths as long as can be and longer."""
    return {
        "rate_alone": RATE,
        "rate_least": rate_line(1) + around_longest(1),
        "rate_largest": rate_line(LARGEST_RATE) + around_longest(LARGEST_RATE),
        "rate_zero": rate_line(0) + GOOD,
        "rate_too_large": rate_line(LARGEST_RATE + 1) + GOOD,
        "rate_bad": b"rate\t01024\n" + GOOD,
        "rate_missing": EXAMPLE_BREATHS,
        # 32 bytes before the line feed, 33, and none with a line feed.
        "rate_widest": rate_line("1" * 27) + GOOD,
        "rate_long": rate_line("1" * 28) + GOOD,
        "rate_unended": RATE[:-1],
        "rate_endless": b"rate\t" + b"1" * READ,
        "rate_again": RATE + GOOD + RATE + LATER,
    }


def around_longest(rate):
    """A breath of 120 seconds, one of a tick more, and one that ends before it begins."""
    whole = longest_whole(rate)
    return breath(whole // 5, whole) + breath(whole // 5, whole + 1) + breath(1, -1, 642)


# Recordings about as long as what is read or written at once.


def at_ends_of_reads_and_writes():
    """Bad lines that begin behind the first read, that its end cuts, and behind the first write."""
    return {
        "behind_read": opened(READ) + b"0\t277\n" + LATER,
        "cut_by_read": opened(READ - 5) + b"0\t277\t0642\n" + LATER,
        "unended_cut": opened(READ - 5) + b"0\t277\t642",
        "behind_write": RATE + void_line(SHORTEST) * written_at_once() + b"0\t277\t64x\n" + LATER,
    }


def opened(length):
    """The rate line and void breaths whose lines have so many bytes in all."""
    return RATE + void_lines(length - len(RATE))


def void_line(length):
    """A void breath whose line has this many bytes: it begins again at its onset."""
    digits = length - 3
    outer = "1" * ((digits + 1) // 3)
    return line(outer, "1" * (digits - 2 * len(outer)), outer)


def void_lines(length, each=28):
    """Void breaths whose lines have so many bytes in all, and so many each but the first one."""
    first = SHORTEST + (length - SHORTEST) % each
    return void_line(first) + void_line(each) * ((length - first) // each)


def written_at_once():
    """How many void breaths are listed at once, until there is no room for a longest line."""
    room, count = WRITTEN, 0
    while room >= LONGEST:
        count += 1
        room -= len(night.tabbed(count, night.VOID_COLUMNS))
    return count


# Recordings of as many breaths as there can be.


def longest():
    """65,536 breaths, and a byte behind so many; short lines, so that writes end before reads."""
    cut = b"".join(cut_at_each_place())
    shortest = void_line(SHORTEST)
    return {
        "most": RATE + cut + shortest * (night.MOST_BREATHS - cut.count(b"\n")),
        "breath_65537": RATE + shortest * night.MOST_BREATHS + b"0",
    }


def cut_at_each_place():
    """Lines such that the end of each read cuts a longest one, behind 0 bytes of it, 1, 2 and so on.

    The first read begins with the rate line. Bytes of a line that was cut are read with those that
    follow it, so that each later read begins, as it were, with that line. What a read's bytes list
    is written at once: ten bytes a line see to that.
    """
    begun = len(RATE)
    for place in range(LONGEST):
        yield void_lines(READ - begun - place, each=10)
        # Each of these has a ratio of its own, which a lost or a doubled byte would change.
        cut = breath(277 + place, 642 + 3 * place, 4_000_000_000 + 1_000_003 * place)
        begun = len(cut) if place > 0 else 0
        yield cut[:begun]
