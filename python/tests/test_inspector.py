"""Words told: the package's lines beside the second program's, and beside the stored ones of the program."""

import io
import subprocess
import sys

import support  # First: it tells where the other modules are.

import cases_common
import inspecting
import slash
from lekhnaom import Stop, Word, inspect
from _lekhnaom.inspector import answers
from support import ALL_FORMATS, ROOT, ours, some_words

STORED = ROOT / "crates" / "inspect"


class Inspector(support.Beside):
    """Lines of words."""

    def test_words_of_all_formats(self):
        for form in ALL_FORMATS:
            self.check_words(form, some_words(self.random, form))

    def test_every_word_of_the_smallest_formats(self):
        for form in cases_common.small_formats(3, 5):
            self.check_words(form, support.good_words(form))

    def check_words(self, form, words):
        told = inspect(ours(form), words).splitlines(keepends=True)
        self.assertEqual(len(told), len(words))
        for line, word in zip(told, words):
            self.hold("words told", line, inspecting.word_line(*form, word), form, word)

    def test_random_lines(self):
        for _ in range(1500):
            text = b"".join(self.line() for _ in range(self.random.randrange(12)))
            if self.random.random() < 0.1:
                text = text[:-1]
            told = b"".join(answers(io.BytesIO(text)))
            self.hold("texts told", told, inspecting.inspection(text), text)

    def line(self):
        """A line that tells a format, a word of any width, or neither."""
        kind = self.random.choices(["format", "word", "other"], [3, 6, 1])[0]
        if kind == "format":
            name, k = self.random.choice(["fixed", "floating"]), self.random.randrange(36)
            return f"{name} {k}\n".encode()
        if kind == "word":
            digits = "%x" % self.random.getrandbits(self.random.randrange(1, 65))
            return (digits.upper() if self.random.getrandbits(1) else digits).encode() + b"\n"
        wrong = ["", "fixed", "fixed 015", "Fixed 15", "fixed  15", "fixed 100", "-1", "0x1", "g", " 1"]
        wrong += ["0" * 17, "a" * 32, "a" * 33, "floating 2 ", "fixed 15\r", "\0", "٣", "1 2"]
        return self.random.choice(wrong).encode() + b"\n"

    def test_the_programs_stored_input(self):
        told = b"".join(answers(io.BytesIO((STORED / "stdin").read_bytes())))
        self.hold("stored texts told", told, (STORED / "stdout").read_bytes())

    def test_bad_words(self):
        form = cases_common.small_formats(2, 2)[0]
        for bits in cases_common.beyond_words(form):
            self.assertRaises(Stop, inspect, ours(form), [bits])
        self.assertEqual(inspect(ours(form), []), "")
        self.assertEqual(slash.width(form), Word(ours(form), 0).format.width)


class CommandLine(support.Beside):
    """The commands, each in a process of its own."""

    def run_command(self, *arguments, given=b""):
        command = [sys.executable, str(ROOT / "python" / "lekhnaom.py"), *arguments]
        done = subprocess.run(command, input=given, capture_output=True)
        return done.stdout, done.stderr, done.returncode

    def test_inspect(self):
        told = b"01150282\t+\t277/642\texact\t0.431464\t0 2 3 6 1 3 3\n"
        self.hold("commands", self.run_command("inspect", "fixed", "15", "1150282"), (told, b"", 0))
        given = b"fixed 15\n01150282\nx\n"
        self.hold("commands", self.run_command("inspect", given=given), (told + b"refused\t13\t3\n", b"", 1))

    def test_night(self):
        sample = ROOT / "examples" / "sample.recording"
        listing = inspecting.night.listing(sample.read_bytes())
        self.hold("commands", self.run_command("night", str(sample)), (listing, b"", 0))
        self.hold("commands", self.run_command("night", given=sample.read_bytes()), (listing, b"", 0))
        refused = b"refused\t10\t2\n", b"night: line 2: not three fields\n", 1
        self.hold("commands", self.run_command("night", given=b"rate\t1\n1\t2\n"), refused)
        printed, said, status = self.run_command("night", "no such file")
        self.hold("commands", (printed, status), (b"", 1))
        self.assertIn(b"cannot be read", said)

    def test_usage(self):
        for arguments in [], ["day"], ["night", "a", "b"], ["inspect", "fixd", "15"]:
            printed, said, status = self.run_command(*arguments)
            self.hold("commands", (printed, status), (b"", 2), arguments)
            self.assertIn(b"usage:", said)
