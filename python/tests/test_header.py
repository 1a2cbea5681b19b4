"""What the package repeats of include/slash.h, held to it: parameters, structs; and every stop with its text."""

import ctypes
import doctest
import importlib
import pickle
import re
import struct
from array import array

import support  # First: it tells where the other modules are.

from lekhnaom import Binary, Format, Stop, Unary, Word, __version__
from lekhnaom import binary_each, breath, load, night, timings, timings_each, twist_each, unary_each
from _lekhnaom.library import PARAMETERS, NightState, Piece, Value, library, number
from support import ROOT

HEADER = (ROOT / "include" / "slash.h").read_text(encoding="utf-8")

PROTOTYPE = re.compile(r"^uint64_t (slash_\w+)\(([^)]*)\);", re.M)
NUMBER = re.compile(r"^#define SLASH_(\w+) (\d+)\b", re.M)
TEXT = re.compile(r'^    case (\d+): return "(.*)";$', re.M)
STRUCT = re.compile(r"^typedef struct \{\n(.*?)^\} slash_(\w+);", re.M | re.S)

# What ctypes calls a type of the header; bytes go as c_char_p, read or written.
TYPES = {
    "uint64_t": ctypes.c_uint64,
    "uint32_t": ctypes.c_uint32,
    "size_t": ctypes.c_size_t,
    "uint64_t *": ctypes.POINTER(ctypes.c_uint64),
    "uint32_t *": ctypes.POINTER(ctypes.c_uint32),
    "uint8_t *": ctypes.c_char_p,
    "slash_value *": ctypes.POINTER(Value),
    "slash_night_state *": ctypes.POINTER(NightState),
    "slash_piece *": ctypes.POINTER(Piece),
}

STRUCTS = {"value": Value, "night_state": NightState, "piece": Piece}

TWO_BREATHS = b"1\t00020005\t2/5\t40.0\n2\t00020005\t2/5\t40.0\nall\t00020005\t2/5\t40.0\n"
TIMING = struct.pack("<Iff", 1, 1.5, 4.0)

# Of each stop that Python can cause: a call, and the place. The package never lends a list that is too short.
STOPS = {
    1: (lambda: Format.fixed(32), 0),
    2: (lambda: unary_each(Format.fixed(15), 8, array("Q", [1])), 0),
    3: (lambda: binary_each(Format.fixed(15), Binary.ADD, array("Q", [1]), array("Q")), 0),
    4: (lambda: unary_each(Format.fixed(15), Unary.NEGATE, array("Q", [1, 1, 2**32])), 2),
    5: (lambda: twist_each(Format.floating(26), array("Q", [0, 30 << 25])), 1),
    6: (lambda: Format.fixed(15).word("1/0"), 0),
    8: (lambda: night(b"rate\t1\n" + b"0\t0\t1\n" * 65537), 65538),
    9: (lambda: night(b"rate\t1024\n0\t277\t642"), 2),
    10: (lambda: night(b"rate\t1024\n0\t277\t642\n0\t277\n"), 3),
    11: (lambda: night(b"rate\t1024\n0\t0277\t642\n"), 2),
    13: (lambda: load(TWO_BREATHS.replace(b"all", b"sum")), 3),
    14: (lambda: load(TWO_BREATHS.replace(b"2\t0", b"3\t0")), 2),
    15: (lambda: load(TWO_BREATHS.replace(b"40.0", b"41.0")), 1),
    16: (lambda: timings(TIMING[:-1]), 0),
    17: (lambda: timings(TIMING + b"\3" + TIMING[1:]), 1),
    18: (lambda: timings_each(TIMING * 2 + TIMING[:4] + TIMING[8:] + TIMING[4:8]), 2),
    19: (lambda: breath(0, 0, 277, 642), 0),
}
NOT_CAUSED = {0, 7, 255}


class Header(support.Beside):
    """The package and the header say the same."""

    def test_parameters(self):
        prototypes = PROTOTYPE.findall(HEADER)
        self.assertEqual(sorted(name for name, _ in prototypes), sorted(PARAMETERS))
        for name, parameters in prototypes:
            types = [re.sub(r"\w+$", "", each.replace("const ", "").strip()).strip() for each in parameters.split(",")]
            self.hold("parameters", list(PARAMETERS[name]), [TYPES[each] for each in types], name)

    def test_structs(self):
        structs = STRUCT.findall(HEADER)
        self.assertEqual({name for _, name in structs}, set(STRUCTS))
        for body, name in structs:
            fields = re.findall(r"^    uint64_t (\w+);", body, re.M)
            self.hold("structs", [field for field, _ in STRUCTS[name]._fields_], fields, name)
            size = ctypes.c_uint64.in_dll(library, f"lekhnaom_{name}_bytes").value
            self.hold("structs", ctypes.sizeof(STRUCTS[name]), size, name)

    def test_numbers(self):
        defined = dict(NUMBER.findall(HEADER))
        exported = re.findall(r"^NUMBER\((\w+)\)$", (ROOT / "python" / "shared.c").read_text(), re.M)
        for name in exported:
            self.hold("numbers", number(name), int(defined[name]), name)
        self.assertIn(f'"{__version__}"', HEADER)


class Stops(support.Beside):
    """Each stop as an exception."""

    def test_every_stop(self):
        texts = {int(number): text for number, text in TEXT.findall(HEADER)}
        self.assertEqual(set(texts), set(STOPS) | NOT_CAUSED)
        for stop, (call, place) in STOPS.items():
            with self.assertRaises(Stop) as caught:
                call()
            raised = caught.exception
            self.hold("stops", (raised.number, raised.place, raised.text), (stop, place, texts[stop]))
            self.assertIsInstance(raised, ValueError)
            self.assertEqual(str(raised), f"stop {stop} at {place}: {texts[stop]}")

    def test_a_stop_travels(self):
        # As it must from one process to another.
        raised = pickle.loads(pickle.dumps(Stop(10, 3, "not three fields")))
        self.assertEqual((raised.number, raised.place, raised.text), (10, 3, "not three fields"))

    def test_a_single_word(self):
        for form, bits, stop in (Format.fixed(15), 2**32, 4), (Format.floating(26), 30 << 25, 5):
            with self.assertRaises(Stop) as caught:
                Word(form, bits)
            self.assertEqual((caught.exception.number, caught.exception.place), (stop, 0))


def load_tests(_loader, tests, _pattern):
    """The examples of the docstrings are tests too."""
    parts = (f"_lekhnaom.{part}" for part in ("words", "vectors", "nights", "inspector"))
    for module in ("lekhnaom", *parts):
        tests.addTests(doctest.DocTestSuite(importlib.import_module(module)))
    return tests
