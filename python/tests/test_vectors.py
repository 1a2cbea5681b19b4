"""Vectors: every form beside the second program, and every kind of memory that they may be in."""

import ctypes
import mmap
import unittest
from array import array

import support  # First: it tells where the other modules are.

import cases_common
import slash
import vectors
from lekhnaom import Binary, Format, Stop, Unary
from lekhnaom import binary_each, convert_each, twist_each, unary_each, untwist_each
from _lekhnaom.vectors import is_aligned, lent_to_read
from support import ALL_FORMATS, answer, ours, some_words

try:
    import numpy
except ImportError:
    numpy = None

FIXED_15 = Format.fixed(15)

# What the result's memory is filled with, to see that a stop leaves it.
FILLED = 0x0123456789ABCDEF


class Forms(support.Beside):
    """Each vector form on random vectors, some with a bad word, some of unequal lengths."""

    def test_binary(self):
        for form in ALL_FORMATS:
            for code in (*Binary, 0, 5):
                left, right, out = self.lengths_mostly_equal(form, 3)
                theirs = self.theirs(vectors.binary_each, *form, code, left, right, out)
                self.check(lambda *lent: binary_each(ours(form), code, *lent), [left, right], out, theirs)

    def test_unary(self):
        for form in ALL_FORMATS:
            for code in (*Unary, 0, 8):
                operand, out = self.lengths_mostly_equal(form, 2)
                theirs = self.theirs(vectors.unary_each, *form, code, operand, out)
                self.check(lambda *lent: unary_each(ours(form), code, *lent), [operand], out, theirs)

    def test_conversion(self):
        for form in ALL_FORMATS * 3:
            target = self.random.choice(ALL_FORMATS)
            operand, out = self.lengths_mostly_equal(form, 2)
            theirs = self.theirs(vectors.convert_each, *form, *target, operand, out)
            self.check(lambda *lent: convert_each(ours(form), ours(target), *lent), [operand], out, theirs)

    def test_twisting(self):
        for form in ALL_FORMATS * 2:
            for way, each in (1, twist_each), (2, untwist_each):
                operand, out = self.lengths_mostly_equal(form, 2)
                theirs = self.theirs(vectors.twist_each, *form, way, operand, out)
                self.check(lambda *lent: each(ours(form), *lent), [operand], out, theirs)

    def lengths_mostly_equal(self, form, count):
        """So many lists of words, the last for a result; in some a word that stops."""
        length = self.random.randrange(30)
        lists = []
        for _ in range(count):
            shorter = self.random.random() < 0.05
            words = some_words(self.random, form)
            lists.append([self.random.choice(words) for _ in range(max(0, length - shorter))])
        stopping = cases_common.stopping_words(form)
        if stopping and self.random.random() < 0.3:
            words = self.random.choice(lists[:-1])
            if words:
                words[self.random.randrange(len(words))] = self.random.choice(stopping)
        return *lists[:-1], [FILLED] * len(lists[-1])

    def theirs(self, each, *arguments):
        """The second program's result, or its stop; its list is a copy."""
        out = list(arguments[-1])
        return answer(lambda: each(*arguments[:-1], out) or out)

    def check(self, each, operands, out, theirs):
        """The same into lent memory and into new, where the lengths are such."""
        lent = array("Q", out)
        returned = answer(each, *[array("Q", operand) for operand in operands], lent)
        if isinstance(theirs, tuple):
            self.hold("vectors refused", returned, theirs, operands)
            self.hold("results left", list(lent), out, operands)
            return
        self.assertIs(returned, lent)
        self.hold("vectors", list(lent), theirs, operands)
        fresh = each(*[array("Q", operand) for operand in operands])
        self.hold("vectors", list(fresh), theirs, operands)


class Memory(unittest.TestCase):
    """Operands and results in one kind of memory or another."""

    words = [0x00010002, 0x00010003, 0x01150282]
    doubled = [0x00010001, 0x00020003, 0x01150141]

    def check_operand(self, operand):
        sums = binary_each(FIXED_15, Binary.ADD, operand, operand)
        self.assertEqual(list(sums), self.doubled)
        self.assertIsInstance(sums, array)

    def check_result(self, out):
        words = array("Q", self.words)
        self.assertIs(binary_each(FIXED_15, Binary.ADD, words, words, out), out)
        self.assertEqual(list(out), self.doubled)

    def test_operands(self):
        packed = array("Q", self.words).tobytes()
        self.check_operand(array("Q", self.words))
        self.check_operand(array("L", self.words))
        self.check_operand(memoryview(array("Q", self.words)))
        self.check_operand(memoryview(array("Q", self.words)).toreadonly())
        self.check_operand(memoryview(array("Q", [0, *self.words, 0]))[1:-1])
        self.check_operand(memoryview(packed).cast("Q"))
        self.check_operand(memoryview(bytearray(packed)).cast("Q"))
        self.check_operand(memoryview(b"x" + packed)[1:].cast("Q"))
        self.check_operand(memoryview(bytearray(b"x" + packed))[1:].cast("Q"))
        self.check_operand((ctypes.c_uint64 * 3)(*self.words))
        with mmap.mmap(-1, len(packed)) as mapped:
            mapped[:] = packed
            with memoryview(mapped) as view, view.cast("Q") as words:
                self.check_operand(words)

    def test_unaligned_operands_are_copied(self):
        for buffer in (bytearray(25), bytes(25)):
            vector = memoryview(buffer)[1:].cast("Q")
            self.assertTrue(is_aligned(lent_to_read(vector)))
        vector = array("Q", self.words)
        self.assertEqual(ctypes.addressof(lent_to_read(vector)), vector.buffer_info()[0])

    def test_results(self):
        self.check_result(array("Q", [0] * 3))
        self.check_result(memoryview(bytearray(24)).cast("Q"))
        self.check_result((ctypes.c_uint64 * 3)())

    def test_what_is_no_vector(self):
        packed = array("Q", self.words).tobytes()
        words = memoryview(array("Q", self.words * 2))
        wrong = [self.words, "abc", None, packed, bytearray(packed), memoryview(packed), array("q", self.words)]
        wrong += [array("d", [0.5] * 3), array("I", [1] * 6), words[::2], words.cast("B").cast("Q", (2, 3))]
        wrong.append((ctypes.c_uint64.__ctype_be__ * 3)())
        for vector in wrong:
            with self.subTest(vector=vector):
                self.assertRaises(TypeError, unary_each, FIXED_15, Unary.NEGATE, vector)
                good = array("Q", self.words)
                self.assertRaises(TypeError, binary_each, FIXED_15, Binary.ADD, good, vector)
                if vector is not None:
                    self.assertRaises(TypeError, unary_each, FIXED_15, Unary.NEGATE, good, vector)

    def test_results_that_cannot_be_written(self):
        words = array("Q", self.words)
        read_only = memoryview(array("Q", self.words)).toreadonly()
        self.assertRaises(TypeError, unary_each, FIXED_15, Unary.NEGATE, words, read_only)
        unaligned = memoryview(bytearray(25))[1:].cast("Q")
        self.assertRaises(ValueError, unary_each, FIXED_15, Unary.NEGATE, words, unaligned)

    def test_results_that_overlap(self):
        words = array("Q", self.words * 3)
        view = memoryview(words)
        left, right = view[:4], array("Q", self.words[:1] * 4)
        for start in range(6):
            out = view[start : start + 4]
            with self.subTest(start=start):
                if start < 4:
                    self.assertRaises(ValueError, binary_each, FIXED_15, Binary.ADD, left, right, out)
                    self.assertRaises(ValueError, binary_each, FIXED_15, Binary.ADD, right, left, out)
                    self.assertEqual(list(words), self.words * 3)
                else:
                    binary_each(FIXED_15, Binary.ADD, left, right, out)
        self.assertRaises(ValueError, unary_each, FIXED_15, Unary.NEGATE, words, words)

    def test_codes_above_64_bits(self):
        words = array("Q", self.words)
        self.assertRaises(OverflowError, unary_each, FIXED_15, 2**64 + Unary.NEGATE, words)
        self.assertRaises(OverflowError, binary_each, FIXED_15, 2**64 + Binary.ADD, words, words)

    def test_no_words(self):
        nothing = array("Q")
        self.assertEqual(list(unary_each(FIXED_15, Unary.NEGATE, nothing)), [])
        self.assertEqual(list(binary_each(FIXED_15, Binary.ADD, nothing, array("Q"), array("Q"))), [])
        self.assertEqual(list(twist_each(Format.floating(26), memoryview(b"").cast("Q"))), [])

    def test_operands_are_free_again(self):
        # A buffer that is still lent can't grow.
        words = array("Q", self.words)
        unary_each(FIXED_15, Unary.NEGATE, words)
        words.append(1)
        with self.assertRaises(Stop):
            binary_each(FIXED_15, Binary.ADD, words, array("Q"))
        words.append(1)

    def test_the_place_of_a_stop(self):
        words = array("Q", [1, 1, 2**40, 1])
        with self.assertRaises(Stop) as caught:
            unary_each(FIXED_15, Unary.NEGATE, words)
        self.assertEqual((caught.exception.number, caught.exception.place), (4, 2))
        self.assertEqual(slash.BITS_ABOVE_WIDTH, 4)

    @unittest.skipUnless(numpy, "numpy isn't here, and isn't needed")
    def test_numpy(self):
        words = numpy.array(self.words, dtype=numpy.uint64)
        self.check_operand(words)
        self.check_result(numpy.zeros(3, dtype=numpy.uint64))
        words.flags.writeable = False
        self.check_operand(words)
        for wrong in (numpy.zeros(3), numpy.zeros(3, numpy.int64), numpy.zeros(6, numpy.uint64)[::2]):
            self.assertRaises(TypeError, unary_each, FIXED_15, Unary.NEGATE, wrong)
        self.assertRaises(TypeError, unary_each, FIXED_15, Unary.NEGATE, numpy.zeros(3, ">u8"))
