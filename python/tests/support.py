"""What the tests share: the package and the second program side by side, the seed, the counts of cases.

The second program (tests/second) was written from the papers and shares nothing with the archive. Its modules are
imported by their plain names; those of the module are `lekhnaom` and `_lekhnaom`.
"""

import random
import sys
import unittest
from collections import Counter
from pathlib import Path

sys.dont_write_bytecode = True

ROOT = Path(__file__).resolve().parents[2]
sys.path.insert(0, str(ROOT / "python"))
# Behind Python's own modules, in case that one has the same name.
sys.path.append(str(ROOT / "tests" / "second"))

import cases_common
import slash
from lekhnaom import Format, Stop

seed = random.SystemRandom().getrandbits(32)

# How many cases each subject had.
counts = Counter()


def seed_with(number):
    """Makes the random cases of a run that has been."""
    global seed
    seed = number


class Beside(unittest.TestCase):
    """Tests that hold the package to something else, and count how often."""

    def setUp(self):
        # Each test has random numbers of its own, so that one alone has the same ones.
        self.random = random.Random(f"{seed} {self.id()}")

    def hold(self, subject, ours, theirs, *asked):
        """Counts a case, and fails where the answers differ."""
        counts[subject] += 1
        if ours != theirs:
            self.fail("%s, seed %d, asked %.300r: %.600r, and not %.600r" % (subject, seed, asked, ours, theirs))


def answer(call, *arguments):
    """What a call of either program answers: its result, or its stop's number and place."""
    try:
        return call(*arguments)
    except (Stop, slash.Stop) as stop:
        return "stop", stop.number, stop.place


# Formats and words, by the second program's own choice of cases.

ALL_FORMATS = slash.all_formats()


def ours(form):
    """The package's format for one of the second program's."""
    return Format(form.kind, form.k)


def good_words(form):
    """Every word of a format that has no stop."""
    return [word for word in range(2 ** slash.width(form)) if is_good(form, word)]


def is_good(form, word):
    """Whether a word has no stop."""
    try:
        slash.read_word(form, word)
    except slash.Stop:
        return False
    return True


def some_words(rng, form):
    """Edge words and random words of a format, all good."""
    randoms = [cases_common.random_word(rng, form) for _ in range(20)]
    return cases_common.random_edge_words(rng, form) + randoms
