"""The example's picture: that it is well formed for any night, and that what it shows is the night's."""

import re
import sys
from xml.etree import ElementTree

import support  # First: it tells where the other modules are.

from lekhnaom import night
from support import ROOT

sys.path.append(str(ROOT / "examples" / "python"))

import picture
from timeline import Timeline, seconds

SVG = "{http://www.w3.org/2000/svg}"


def drawn(recording, title="a night"):
    """The picture of a recording, and its elements."""
    svg = picture.draw(title, night(recording), Timeline(recording))
    return svg, ElementTree.fromstring(svg)


def dots_in(svg, colour):
    """The places of all dots of a colour, in points."""
    places = []
    for path in re.findall(rf'<path transform="scale\(0.5\)" fill="none" stroke="{colour}".*? d="(.*?)"', svg):
        x = y = 0
        for move in re.findall(r"m(-?\d+) (-?\d+)h0", path):
            x, y = x + int(move[0]), y + int(move[1])
            places.append((x / 2, y / 2))
    return places


class Pictures(support.Beside):
    """Pictures of nights of every kind."""

    def texts(self, elements):
        return [text.text for text in elements.iter(SVG + "text")]

    def test_nights_without_a_ratio(self):
        nights = {b"": "nothing recorded", b"rate\t512\n": "no breath was recorded"}
        nights[b"rate\t1\n5\t5\t5\n5\t9\t7\n"] = "2 breaths · 2 void · 1 tick a second"
        for recording, said in nights.items():
            _, elements = drawn(recording)
            self.assertTrue(any(said in text for text in self.texts(elements)), recording)

    def test_a_title_with_signs(self):
        _, elements = drawn(b"", "<one & only>")
        self.assertEqual(self.texts(elements)[0], "<one & only>")

    def test_each_breath_has_its_dot(self):
        recording = b"rate\t1\n" + b"".join(b"%d\t%d\t%d\n" % (10 * i, 10 * i + i, 10 * i + 10) for i in range(11))
        svg, elements = drawn(recording)
        shown = sorted(dots_in(svg, picture.BREATH))
        height, width = picture.BOTTOM - picture.TOP, picture.RIGHT - picture.LEFT
        expected = [(picture.LEFT + width * i / 10, picture.BOTTOM - height * i / 10) for i in range(11)]
        # The legend has a dot too.
        self.assertEqual(len(shown), 12)
        for place in expected:
            nearest = min(shown, key=lambda each: abs(each[0] - place[0]) + abs(each[1] - place[1]))
            self.hold("dots", max(abs(nearest[0] - place[0]), abs(nearest[1] - place[1])) <= 0.25, True, place)
        self.assertIn("50.0 %", self.texts(elements))

    def test_void_and_approximate_breaths_are_told_apart(self):
        recording = b"rate\t4096\n0\t20000\t40001\n40001\t60000\t40001\n"
        svg, elements = drawn(recording)
        self.assertEqual(len(dots_in(svg, picture.APPROXIMATE)), 2)
        self.assertEqual(len(re.findall(r"v-9", svg)), 1)
        self.assertIn("2 breaths · 1 void · 1 approximate · 4096 ticks a second", self.texts(elements))

    def test_the_longest_night(self):
        marks = [(3000 * i, 3000 * i + self.random.randrange(3000), 3000 * i + 3000) for i in range(65536)]
        recording = b"rate\t1024\n" + b"".join(b"%d\t%d\t%d\n" % each for each in marks)
        svg, _ = drawn(recording)
        self.assertLess(len(svg), 2**20)

    def test_parts_of_the_night(self):
        marks = [(4000 * i, 4000 * i + 1000 + i, 4000 * i + 4000) for i in range(2000)]
        lines = [b"%d\t%d\t%d\n" % each for each in marks]
        timeline = Timeline(b"rate\t1024\n" + b"".join(lines))
        for start, row in timeline.parts(600):
            inside = [m for m in marks if start <= m[0] / 1024 < start + 600]
            ratio = sum(p - o for o, p, _ in inside), sum(n - o for o, _, n in inside)
            theirs = support.slash.rounded(support.slash.Format(1, 15), *ratio)[0]
            self.hold("parts of a night", row.fraction.as_integer_ratio(), theirs, start)

    def test_the_clock_starts_again(self):
        onsets = [2**32 - 2048, 2**32 - 1024, 0, 1024, 512]
        self.hold("times", seconds(1024, onsets), [0, 1, 2, 3, 2.5])
