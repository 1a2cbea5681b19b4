"""Checks of the stops in words: that they are the header's, and which a refused recording gets."""

import os
import re

import cases_files
import night
from cases_night import EXAMPLE, EXAMPLE_BREATHS, GOOD, RATE
from checks_listings import short_recordings
from stops import STOP_TEXTS

# The header, and how it tells a stop's text.
HEADER = os.path.join(os.path.dirname(__file__), "..", "..", "include", "slash.h")
TOLD = re.compile(r'case ([0-9]+): return "([^"]*)";')

# The stops that a recording can have.
RECORDING_STOPS = {8, 9, 10, 11, 19}

# Recordings and what is written of them on standard error, worked out by hand.
COMPLAINTS = [
    (b"", b""),
    (RATE, b""),
    (EXAMPLE, b""),
    (b"\n", b"night: line 1: no rate line, or no rate from 1 to 4096\n"),
    (EXAMPLE_BREATHS, b"night: line 1: no rate line, or no rate from 1 to 4096\n"),
    (RATE[:-1], b"night: line 1: over 32 bytes before the line feed, or no line feed\n"),
    (RATE + b"1" * 33, b"night: line 2: over 32 bytes before the line feed, or no line feed\n"),
    (RATE + GOOD * 7 + b"0\t277\n" + GOOD, b"night: line 9: not three fields\n"),
    (RATE + GOOD + b"0\t277\t0642\n", b"night: line 3: a field that is no tick mark\n"),
    (RATE + GOOD * 65536 + b"0", b"night: line 65538: more than 65,536 breaths\n"),
]


def check_stops():
    """Asserts everything below."""
    check_texts()
    check_complaints()
    check_files()


def check_texts():
    """Asserts that the texts are the header's, each told once."""
    with open(HEADER, encoding="utf-8") as header:
        told = TOLD.findall(header.read())
    assert sorted(STOP_TEXTS.items()) == sorted((int(number), text) for number, text in told)


def check_complaints():
    """Asserts what was worked out by hand, and of the cases' recordings what is asserted of one."""
    for recording, expected in COMPLAINTS:
        assert night.complaint(recording) == expected, (recording[-40:], expected)
    for recording in short_recordings():
        check_complaint(recording)


def check_complaint(recording):
    """Asserts that a recording's stop is said in words just where its listing tells it."""
    name, *rest = night.listing(recording).decode("ascii").splitlines()[-1].split("\t")
    said = ""
    if name == "refused":
        said = f"night: line {rest[1]}: {STOP_TEXTS[int(rest[0])]}\n"
    assert night.complaint(recording) == said.encode("ascii"), recording


def check_files():
    """Asserts that the recordings in files have each stop, and some have none."""
    recordings = cases_files.recordings().values()
    said = {night.complaint(recording).partition(b": line ")[2] for recording in recordings}
    texts = {text.partition(b": ")[2].decode("ascii").rstrip("\n") for text in said}
    assert texts == {"", *(STOP_TEXTS[number] for number in RECORDING_STOPS)}, texts
