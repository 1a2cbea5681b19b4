"""A night's ratio as an SVG picture: time goes to the right, the share of inspiration up.

The scale up is the same for every night, 0 to 100 percent, so that nights can hang side by side.
"""

from fractions import Fraction
from html import escape
from math import ceil, floor

WIDTH, HEIGHT = 1200, 620
LEFT, RIGHT, TOP, BOTTOM = 64, 1096, 112, 540

INK, PALE, GRID = "#2b2b2b", "#767676", "#e4e4e4"
BREATH, APPROXIMATE, VOID, PART, TOTAL = "#41668c", "#c06a14", "#b03030", "#16263a", "#8c2f2f"

# A night that lasts so long also gets a line of its parts, of the first of these lengths that makes few enough
# of them; all in seconds.
PARTED_FROM = 3600
PARTS = {600: "ten minutes", 1800: "half an hour", 3600: "an hour", 10800: "three hours"}
MOST_PARTS = 72

# How wide a breath's dot is, and how much it covers, for so many breaths at most.
DOTS = [(100, 7, 0.9), (1000, 4.5, 0.8), (10000, 3, 0.6), (65536, 2, 0.5)]

# Breaths are painted in so many layers, each a little transparent: where many meet, it is darker.
LAYERS = 6

# Steps between marks of time, in seconds, and what their labels tell.
HOURS, MINUTES, SECONDS = "hours:minutes", "minutes:seconds", "seconds"
STEPS = [0.1, 0.2, 0.5, 1, 2, 5, 10, 15, 30, 60, 120, 300, 600, 900, 1800, 3600, 7200, 14400, 43200, 86400]
MOST_STEPS = 12


def draw(title, night, timeline):
    """The picture of a night, its times those of the timeline: an SVG document."""
    scale = Scale(timeline)
    parts = [
        f'<svg xmlns="http://www.w3.org/2000/svg" viewBox="0 0 {WIDTH} {HEIGHT}" width="{WIDTH}" height="{HEIGHT}"'
        ' font-family="Helvetica, Arial, sans-serif" font-size="13">',
        f"<title>{escape(title)}</title>",
        f'<rect width="{WIDTH}" height="{HEIGHT}" fill="white"/>',
        *heading(title, night, timeline),
        *percent_axis(),
        *time_axis(scale),
        *breaths(night, timeline, scale),
        *parts_line(timeline, scale),
        *total_line(night.total),
        *legend(night, scale),
        "</svg>",
    ]
    return "\n".join(parts) + "\n"


class Scale:
    """Where a time and a share stand on the paper."""

    def __init__(self, timeline):
        self.start = timeline.start
        self.duration = timeline.duration or 1
        self.is_empty = not timeline.onsets
        lengths = [length for length in PARTS if self.duration / length <= MOST_PARTS]
        self.part = None if self.duration < PARTED_FROM else min(lengths, default=max(PARTS))

    def across(self, time):
        """The place of a time, in seconds since the first onset."""
        return LEFT + (RIGHT - LEFT) * (time - self.start) / self.duration


def up(fraction):
    """The place of a share."""
    return BOTTOM - (BOTTOM - TOP) * fraction.numerator / fraction.denominator


# What stands around the breaths.


def heading(title, night, timeline):
    """The title, and in a line what the night has."""
    words = [row.word for row in night.rows if not row.is_void]
    void = len(night.rows) - len(words)
    approximate = sum(word.mark for word in words)
    facts = [counted(len(night.rows), "breath")]
    facts += [f"{void} void"] * (void > 0) + [f"{approximate} approximate"] * (approximate > 0)
    facts += [f"{counted(timeline.rate, 'tick')} a second"] if timeline.rate else ["nothing recorded"]
    yield text(LEFT, 40, title, size=20)
    yield text(LEFT, 62, " · ".join(facts), PALE)


def counted(number, thing):
    """So many things; a comma from ten thousand on."""
    return f"{number if number < 10000 else f'{number:,}'} {thing}{'' if number == 1 else 's'}"


def percent_axis():
    """Lines and labels for the shares, every twenty percent."""
    for percent in range(0, 101, 20):
        y = up(Fraction(percent, 100))
        yield line(LEFT, y, RIGHT, y, GRID if percent else PALE)
        yield text(LEFT - 10, y + 4.5, percent, PALE, "end")
    yield text(LEFT - 32, TOP - 18, "inspiration, percent of the breath", PALE)


def time_axis(scale):
    """Marks and labels for the time; none in a night without a breath."""
    if scale.is_empty:
        yield text((LEFT + RIGHT) / 2, (TOP + BOTTOM) / 2, "no breath was recorded", PALE, "middle", 16)
        return
    step = time_step(scale.duration)
    unit = HOURS if step >= 60 else MINUTES if step >= 1 else SECONDS
    for mark in range(ceil(scale.start / step), floor((scale.start + scale.duration) / step) + 1):
        x = scale.across(mark * step)
        yield line(x, BOTTOM, x, BOTTOM + 6, PALE)
        yield text(x, BOTTOM + 22, time_label(mark * step, unit), PALE, "middle")
    yield text((LEFT + RIGHT) / 2, BOTTOM + 48, f"time since the first onset, {unit}", PALE, "middle")


def time_step(duration):
    """The least step with few enough marks."""
    step = next((step for step in STEPS if duration / step <= MOST_STEPS), STEPS[-1])
    while duration / step > MOST_STEPS:
        step *= 2
    return step


def time_label(time, unit):
    """A time in seconds as its unit tells it."""
    if unit == SECONDS:
        return f"{time:.1f}"
    lower = round(abs(time)) // (60 if unit == HOURS else 1)
    return f"{'-' if time < 0 else ''}{lower // 60}:{lower % 60:02}"


def legend(night, scale):
    """What each sign means, for those that are there, up to the right end."""
    rows = [row for row in night.rows if not row.is_void]
    shown = [("breath", "a breath")] * any(not row.word.mark for row in rows)
    shown += [("approximate", "approximate")] * any(row.word.mark for row in rows)
    shown += [("void", "void")] * (len(rows) < len(night.rows))
    shown += [("part", PARTS[scale.part])] if scale.part else []
    shown += [("total", "the whole night")] * (not night.total.is_void)
    x = RIGHT + LEGEND_ROOM - sum(legend_width(*each) for each in shown)
    for sign, meaning in shown:
        yield from SIGNS[sign](x, 57.5)
        yield text(x + SIGN_WIDTHS[sign] + 7, 62, meaning, PALE)
        x += legend_width(sign, meaning)


def legend_width(sign, meaning):
    """About how wide a sign, what it means and the room behind are, in a usual font."""
    return SIGN_WIDTHS[sign] + 7 + 6.2 * len(meaning) + LEGEND_ROOM


# The night itself.


def breaths(night, timeline, scale):
    """A dot a breath, a ring where its word is approximate, and a tick at the foot where it is void."""
    places = list(zip(map(scale.across, timeline.onsets), night.rows))
    exact = [(x, up(row.fraction)) for x, row in places if not row.is_void and not row.word.mark]
    marked = [(x, up(row.fraction)) for x, row in places if not row.is_void and row.word.mark]
    size, cover = next((size, cover) for most, size, cover in DOTS if len(places) <= most)
    for layer in range(LAYERS):
        yield from dots(exact[layer::LAYERS], BREATH, size, f' stroke-opacity="{cover}"')
    yield from rings(marked, size + 2)
    yield from ticks([x for x, row in places if row.is_void])


def dots(places, colour, size, more=""):
    """A round dot at each place, all in one path, on a grid of half points so that none is drawn twice."""
    path, last = [], (0, 0)
    for place in sorted({(round(2 * x), round(2 * y)) for x, y in places}):
        path.append(f"m{place[0] - last[0]} {place[1] - last[1]}h0")
        last = place
    if path:
        yield (
            f'<path transform="scale(0.5)" fill="none" stroke="{colour}" stroke-width="{2 * size}"'
            f' stroke-linecap="round"{more} d="{"".join(path)}"/>'
        )


def rings(places, size):
    """A ring at each place."""
    yield from dots(places, APPROXIMATE, size)
    yield from dots(places, "white", size - 2.4)


def ticks(places):
    """A tick at the foot at each place."""
    path = "".join(f"M{x / 2:g} {BOTTOM - 1}v-9" for x in sorted({round(2 * x) for x in places}))
    if path:
        yield f'<path fill="none" stroke="{VOID}" stroke-width="1.2" d="{path}"/>'


def parts_line(timeline, scale):
    """The ratio of each part of the night as steps, broken where there is none."""
    if scale.part is None:
        return
    path, joined = [], None
    for start, row in timeline.parts(scale.part):
        if row.is_void:
            continue
        end = start + scale.part
        left = scale.across(max(start, scale.start))
        right = scale.across(min(end, scale.start + scale.duration))
        path.append(f"V{up(row.fraction):.1f}" if start == joined else f"M{left:.1f} {up(row.fraction):.1f}")
        path.append(f"H{right:.1f}")
        joined = end
    yield f'<path fill="none" stroke="white" stroke-width="4" stroke-opacity="0.7" d="{"".join(path)}"/>'
    yield f'<path fill="none" stroke="{PART}" stroke-width="1.8" d="{"".join(path)}"/>'


def total_line(total):
    """The ratio of the whole night, with its value at the right."""
    if total.is_void:
        return
    y = up(total.fraction)
    yield line(LEFT, y, RIGHT + 6, y, TOTAL, ' stroke-dasharray="7 4"')
    yield text(RIGHT + 12, y + 5, f"{total.percentage} %", TOTAL, size=16)
    yield text(RIGHT + 12, y + 22, "%d/%d" % total.fraction.as_integer_ratio(), PALE, size=11)
    if total.word.mark:
        yield text(RIGHT + 12, y + 35, "approximate", PALE, size=11)


# Signs of the legend, each with its left end and its middle.
SIGNS = {
    "breath": lambda x, y: dots([(x + 4, y)], BREATH, 6),
    "approximate": lambda x, y: rings([(x + 4, y)], 7),
    "void": lambda x, y: [line(x + 4, y - 5, x + 4, y + 5, VOID, ' stroke-width="1.5"')],
    "part": lambda x, y: [line(x, y, x + 22, y, PART, ' stroke-width="1.8"')],
    "total": lambda x, y: [line(x, y, x + 22, y, TOTAL, ' stroke-dasharray="7 4"')],
}
SIGN_WIDTHS = {"breath": 8, "approximate": 8, "void": 8, "part": 22, "total": 22}
LEGEND_ROOM = 20


# Elements.


def line(x1, y1, x2, y2, colour, more=""):
    """A straight line."""
    return f'<path fill="none" stroke="{colour}"{more} d="M{x1:.1f} {y1:.1f}L{x2:.1f} {y2:.1f}"/>'


def text(x, y, words, colour=INK, anchor="start", size=13):
    """A line of text."""
    return (
        f'<text x="{x:.1f}" y="{y:.1f}" fill="{colour}" text-anchor="{anchor}" font-size="{size}">'
        f"{escape(str(words))}</text>"
    )
