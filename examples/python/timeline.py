"""When the breaths of a recording began, and its ratio in parts of the night."""

from lekhnaom import night

# The recorder's clock starts again at 0 after so many ticks.
CLOCK = 2**32


class Timeline:
    """The times of a recording that was listed, so that its lines are good."""

    def __init__(self, recording):
        self.rate_line, *self.lines = recording.splitlines(keepends=True) or [b""]
        self.rate = int(self.rate_line.split()[1]) if self.rate_line else None
        self.onsets = seconds(self.rate, [int(line.split()[0]) for line in self.lines])

    @property
    def start(self):
        """The earliest onset in seconds since the first one: 0 where they are in order."""
        return min(self.onsets, default=0)

    @property
    def duration(self):
        """The seconds between the earliest onset and the latest."""
        return max(self.onsets, default=0) - self.start

    def parts(self, length):
        """Each part of the night of so many seconds in which a breath began: its start, and the row of its total.

        A part is listed as a recording of its own, so that its total is rounded from its ticks as a night's is.
        """
        lines = {}
        for onset, line in zip(self.onsets, self.lines):
            lines.setdefault(onset // length, []).append(line)
        for part in sorted(lines):
            yield part * length, night(self.rate_line + b"".join(lines[part])).total


def seconds(rate, onsets):
    """The seconds from the first onset to each; every onset is taken as less than half the clock from the last."""
    ticks, times = 0, []
    for before, onset in zip(onsets[:1] + onsets, onsets):
        ticks += (onset - before + CLOCK // 2) % CLOCK - CLOCK // 2
        times.append(ticks / rate)
    return times
