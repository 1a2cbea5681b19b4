"""The command line: a night listed, words inspected."""

import argparse
import signal
import sys

from .inspector import answers
from .library import VERSION
from .nights import pieces
from .stops import Stop


def main(arguments):
    """Runs a command; the exit status, 1 where something was refused."""
    asked = parser().parse_args(arguments)
    # A reader that has seen enough, as `head`, ends this program too.
    signal.signal(signal.SIGPIPE, signal.SIG_DFL)
    return asked.run(asked)


def parser():
    """What the command line may be."""
    top = argparse.ArgumentParser(prog="lekhnaom", description="Slash arithmetic for breath ratios.")
    top.add_argument("--version", action="version", version=VERSION)
    commands = top.add_subparsers(required=True, metavar="COMMAND")
    night = commands.add_parser("night", help="lists a night's recording")
    night.add_argument("recording", nargs="?", help="a file; standard input where none is named")
    night.set_defaults(run=list_night)
    inspect = commands.add_parser("inspect", help="tells what words say")
    inspect.add_argument("format", nargs="?", choices=["fixed", "floating"], help="with K and words: the kind")
    inspect.add_argument("k", nargs="?", metavar="K", help="the format's number of bits")
    inspect.add_argument("words", nargs="*", metavar="WORD", help="a word in hexadecimal")
    inspect.epilog = "With no arguments, standard input has lines: fixed K or floating K, then words."
    inspect.set_defaults(run=inspect_words)
    return top


def list_night(asked):
    """Prints the listing of a recording; a refusal also in words on standard error."""
    try:
        with open(asked.recording or sys.stdin.fileno(), "rb") as recording:
            return write_all(pieces(recording))
    except Stop as stop:
        told = write_all([f"refused\t{stop.number}\t{stop.place}\n".encode()])
        print(f"night: line {stop.place}: {stop.text}", file=sys.stderr)
        return told or 1
    except OSError as error:
        print(f"night: the recording cannot be read: {error}", file=sys.stderr)
        return 1


def write_all(texts):
    """Writes texts on standard output, each as soon as it is there; 1 where that can't be written, else 0."""
    for text in texts:
        try:
            sys.stdout.buffer.write(text)
            sys.stdout.buffer.flush()
        except OSError as error:
            print(f"night: the listing cannot be written: {error}", file=sys.stderr)
            return 1
    return 0


def inspect_words(asked):
    """Prints what the program `inspect` prints, of standard input or of the lines that the arguments make."""
    lines = sys.stdin.buffer
    if asked.format:
        first = " ".join(filter(None, (asked.format, asked.k)))
        lines = [line.encode() + b"\n" for line in (first, *asked.words)]
    status = 0
    for answer in answers(lines):
        sys.stdout.buffer.write(answer)
        if answer.startswith(b"refused"):
            status = 1
    return status
