"""A night's recording from standard input, listed on standard output: a plain Python script."""

import sys


def cut(n, d):
    """The last convergent of n/d whose parts have at most 15 bits, and whether it isn't n/d."""
    r0, s0, r1, s1 = 0, 1, 1, 0
    while d:
        quotient, rest = divmod(n, d)
        r, s = quotient * r1 + r0, quotient * s1 + s0
        if r > 32767 or s > 32767:
            return r1, s1, 1
        n, d, r0, s0, r1, s1 = d, rest, r1, s1, r, s
    return r1, s1, 0


def thousandths(n, d):
    """The nearest whole number to 1000 n/d, at a tie the even one."""
    below, rest = divmod(1000 * n, d)
    return below + (d < 2 * rest + below % 2)


def columns(inward, whole):
    """The word, its fraction and its percentage; those of a void one where whole is 0."""
    if whole == 0:
        return "00000000\t-\t-\n"
    r, s, mark = cut(inward, whole)
    tenths = thousandths(r, s)
    return f"{r << 16 | mark << 15 | s:08x}\t{r}/{s}\t{tenths // 10}.{tenths % 10}\n"


def whole_number(text, most, stop):
    """The number up to the most that the bytes are; an error with the stop if they are none."""
    if not text.isdigit() or (text[0] == 48 and len(text) > 1) or int(text) > most:
        raise ValueError(stop)
    return int(text)


def fields(line):
    """The fields of a line; an error if it is too long."""
    if len(line) > 32:
        raise ValueError(9)
    return line.split(b"\t")


def rate(line):
    """The rate that the first line tells."""
    name, *numbers = fields(line)
    if name != b"rate" or len(numbers) != 1 or numbers[0] == b"0":
        raise ValueError(19)
    return whole_number(numbers[0], 4096, 19)


def durations(line):
    """The ticks in and whole of a breath's line."""
    marks = fields(line)
    if len(marks) != 3:
        raise ValueError(10)
    onset, peak, following = [whole_number(mark, 4294967295, 11) for mark in marks]
    return peak - onset & 4294967295, following - onset & 4294967295


def listed(recording):
    """The lines of the listing."""
    lines = recording.split(b"\n")
    if lines.pop():
        # Without its line feed the last line counts as one that is too long.
        lines.append(b"-" * 33)
    number = in_sum = whole_sum = 0
    try:
        longest = 120 * rate(lines[0]) if lines else 0
        for number, line in enumerate(lines[1:], 1):
            if number > 65536:
                raise ValueError(8)
            inward, whole = durations(line)
            if inward > whole or whole > longest:
                inward = whole = 0
            yield f"{number}\t{columns(inward, whole)}"
            in_sum += inward
            whole_sum += whole
    except ValueError as stop:
        # The rate line is the first.
        yield f"refused\t{stop.args[0]}\t{number + 1}\n"
        return
    yield f"all\t{columns(in_sum, whole_sum)}"


sys.stdout.write("".join(listed(sys.stdin.buffer.read())))
