"""Breaths, recordings, listings and timings beside the second program."""

import io
import struct
from array import array

import support  # First: it tells where the other modules are.

import cases_common
import listings
import night
import timings as second_timings
from lekhnaom import RECORDED, breath, load, pieces, timings, timings_each
from lekhnaom import night as listed_night
from support import ROOT, answer

RECORDINGS = sorted((ROOT / "crates" / "night_files" / "data").iterdir())
KEPT_LISTING = (ROOT / "crates" / "relist" / "stdin").read_bytes()


class Breaths(support.Beside):
    """The word of one breath."""

    def test_breaths(self):
        for _ in range(3000):
            rate = self.random.choice([*cases_common.RATES_TRIED, self.random.randrange(1, 4097)])
            onset = self.random.choice([0, 2**32 - 1, self.random.getrandbits(32)])
            whole = self.random.choice([0, 1, 120 * rate, 120 * rate + 1, self.random.randrange(1, 120 * rate + 2)])
            inward = self.random.choice([0, whole, whole + 1, self.random.randrange(whole + 1)])
            marks = onset, (onset + inward) % night.CLOCK, (onset + whole) % night.CLOCK
            self.check_breath(rate, *marks)

    def check_breath(self, rate, *marks):
        ticks = night.summed_ticks(rate, *night.durations(*marks))
        theirs = None if ticks == night.NO_TICKS else night.stored_word(*ticks)
        word = breath(rate, *marks)
        self.hold("breaths", word and word.bits, theirs, rate, marks)

    def test_bad_rates(self):
        for rate in cases_common.BAD_RATES:
            self.hold("breaths", answer(breath, rate, 0, 277, 642), ("stop", 19, 0), rate)
        self.assertRaises(OverflowError, breath, 2**64 + 1024, 0, 277, 642)
        self.assertRaises(OverflowError, breath, 1024, 2**32, 277, 642)


def random_recording(rng):
    """A recording of up to 60 breaths, in some of which something is wrong."""
    lines = [b"rate\t%d\n" % rng.choice([1, 1024, 4096, rng.randrange(1, 4097)])]
    for _ in range(rng.randrange(60)):
        marks = [rng.getrandbits(rng.choice([4, 10, 18, 32])) for _ in range(3)]
        lines.append(b"%d\t%d\t%d\n" % tuple(sorted(marks) if rng.random() < 0.8 else marks))
    if rng.random() < 0.4:
        spoil(rng, lines)
    return b"".join(lines)


def spoil(rng, lines):
    """Changes a byte of a line, takes one out or puts one in."""
    place = rng.randrange(len(lines))
    line = bytearray(lines[place])
    at = rng.randrange(len(line))
    new = rng.choice([b"", b"0", b"\t", b"\n", b"-", b" ", b"9", bytes([rng.randrange(256)]), b"1" * 20])
    line[at : at + rng.randrange(2)] = new
    lines[place] = bytes(line)


class Trickle(io.BytesIO):
    """A file that has only so many bytes at a time, as a pipe may."""

    most = 5

    def read(self, size):
        return super().read(min(size, self.most))


def printed_by(file, size=65536):
    """What the package makes of a file piece by piece, with the line that the program prints for a stop."""
    listed = []
    try:
        for piece in pieces(file, size):
            listed.append(piece)
    except support.Stop as stop:
        listed.append(night.refusal(stop).encode("ascii"))
    return b"".join(listed)


def listed_before_a_stop(file, size):
    """The pieces that are handed on."""
    listed = pieces(file, size)
    while True:
        try:
            yield next(listed)
        except (StopIteration, support.Stop):
            return


class Nights(support.Beside):
    """Recordings listed."""

    def check_recording(self, recording):
        theirs = night.listing(recording)
        refused = theirs.splitlines()[-1].split(b"\t")
        if refused[0] == b"refused":
            stop = "stop", int(refused[1]), int(refused[2])
            self.hold("recordings refused", answer(listed_night, recording), stop, recording[:200])
        else:
            self.check_rows(listed_night(recording), theirs)
        self.hold("recordings in pieces", printed_by(io.BytesIO(recording)), theirs, recording[:200])

    def check_rows(self, ours, theirs):
        self.hold("recordings listed", ours.listing, theirs)
        self.hold("rows", b"".join(map(printed, (*ours.rows, ours.total))), theirs)

    def test_random_recordings(self):
        for _ in range(1500):
            self.check_recording(random_recording(self.random))

    def test_stored_recordings(self):
        for path in RECORDINGS:
            self.check_recording(path.read_bytes())

    def test_no_byte(self):
        self.check_recording(b"")
        rows, total, listing = listed_night(b"")
        self.assertEqual((rows, total.is_void, listing), ([], True, b"all\t00000000\t-\t-\n"))

    def test_any_sizes_of_pieces(self):
        for _ in range(400):
            recording = random_recording(self.random)
            size = self.random.choice([-1, 0, 1, 33, 34, 64, 256, 1000])
            file = Trickle(recording)
            file.most = self.random.choice([1, 2, 7, 32, 33, 34, 1000])
            self.hold("sizes of pieces", printed_by(file, size), night.listing(recording), size, recording)
            file.seek(0)
            longest = max(map(len, listed_before_a_stop(file, size)), default=0)
            self.assertLessEqual(longest, max(size, 33))

    def test_other_buffers_of_bytes(self):
        recording = b"rate\t1024\n0\t277\t642\n"
        for buffer in (bytearray(recording), memoryview(recording), array("B", recording)):
            self.assertEqual(listed_night(buffer), listed_night(recording))
        for wrong in (recording.decode(), 5, None):
            for call in (listed_night, load, timings):
                self.assertRaises(TypeError, call, wrong)


def printed(row):
    """The listed line that a row was made of."""
    columns = night.VOID_COLUMNS
    if not row.is_void:
        columns = row.word.digits, "%d/%d" % row.fraction.as_integer_ratio(), row.percentage
    return night.tabbed(row.number or "all", columns).encode()


class Listings(support.Beside):
    """Listings read back."""

    def check_listing(self, text):
        theirs = answer(listings.load, text)
        ours = answer(load, text)
        if theirs[0] == "stop":
            self.hold("listings refused", ours, theirs, text[:300])
            return
        bits = [row.word.bits if row.word else 0 for row in (*ours.rows, ours.total)]
        self.hold("listings loaded", bits, [*theirs[0], theirs[1]], text[:300])
        self.hold("listings loaded", [row.number for row in ours.rows], list(range(1, len(bits))))

    def test_random_listings(self):
        for _ in range(800):
            lines = night.listing(random_recording(self.random)).splitlines(keepends=True)
            self.check_listing(b"".join(lines))
            spoil(self.random, lines)
            self.check_listing(b"".join(lines))

    def test_a_long_listing(self):
        self.check_listing(KEPT_LISTING)

    def test_no_byte(self):
        self.check_listing(b"")


class Timings(support.Beside):
    """Records of the scoring package."""

    def test_random_records(self):
        for _ in range(2000):
            records = b"".join(self.record() for _ in range(self.random.randrange(8)))
            if self.random.random() < 0.05:
                records = records[:-1]
            out = [0] * (len(records) // 12)
            theirs = answer(lambda: second_timings.store_ratios(records, out) or out)
            ours = answer(timings, records)
            ours = ours if isinstance(ours, tuple) else [word.bits for word in ours]
            self.hold("timings", ours, theirs, records)
            lent = array("Q", bytes(8 * len(out)))
            ours = answer(timings_each, records, lent)
            self.hold("timings", ours if isinstance(ours, tuple) else list(lent), theirs, records)

    def record(self):
        kind = self.random.choices([1, 2, 0, 3], [50, 50, 1, 1])[0]
        if kind == 1:
            whole = self.random.uniform(0.001, 900)
            return struct.pack("<Iff", kind, whole * self.random.uniform(0.01, 1), whole)
        if self.random.random() < 0.02:
            return struct.pack("<III", kind, self.random.getrandbits(32), self.random.getrandbits(1))
        return struct.pack("<Iff", kind, self.random.uniform(0.0009, 1), 0)

    def test_the_words_are_the_recorders(self):
        (word,) = timings(struct.pack("<Iff", 1, 1.5, 4.0))
        self.assertEqual(word.format, RECORDED)

    def test_a_place_a_record(self):
        stop = answer(timings_each, struct.pack("<Iff", 1, 1.5, 4.0), array("Q", [0, 0]))
        self.hold("timings", stop, ("stop", 3, 0))
