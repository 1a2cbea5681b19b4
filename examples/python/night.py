"""Lists a night's recording and draws its ratio, with PYTHONPATH=python:

    python3 examples/python/night.py examples/sample.recording sample.svg
"""

import sys
from pathlib import Path

from lekhnaom import Stop, night
from picture import draw
from timeline import Timeline


def main(recording_path, picture_path):
    """Prints the listing of a recording and writes its picture; the exit status."""
    try:
        recording = Path(recording_path).read_bytes()
        listed = night(recording)
    except OSError as error:
        print(f"{recording_path}: {error.strerror}", file=sys.stderr)
        return 1
    except Stop as stop:
        print(f"{recording_path}: line {stop.place}: {stop.text}", file=sys.stderr)
        return 1
    sys.stdout.buffer.write(listed.listing)
    picture = draw(Path(recording_path).name, listed, Timeline(recording))
    Path(picture_path).write_text(picture, encoding="utf-8")
    return 0


if __name__ == "__main__":
    if len(sys.argv) != 3:
        sys.exit("usage: python3 night.py RECORDING PICTURE.svg")
    sys.exit(main(*sys.argv[1:]))
