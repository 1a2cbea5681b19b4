"""Words: read, written, worked with, beside the second program and beside Python's own fractions."""

import copy
import math
import operator
import pickle
from fractions import Fraction

import support  # First: it tells where the other modules are.

import cases_common
import operations
import slash
import twisting
from lekhnaom import Format, Stop, Word
from support import ALL_FORMATS, answer, good_words, ours, some_words

# The formats of which every word is tried, and those of which every pair of words is.
SMALL_FORMATS = cases_common.small_formats(4, 7)
SMALLEST_FORMATS = cases_common.small_formats(2, 4)

BINARY = {1: operator.add, 2: operator.sub, 3: operator.mul, 4: operator.truediv}
UNARY = {
    1: operator.neg,
    2: abs,
    3: Word.reciprocal,
    4: math.floor,
    5: math.ceil,
    6: lambda word: word % 1,
    7: Word.normalised,
}

# As the papers name the classes of value.
CLASSES = {"is_zero": slash.ZERO, "is_infinite": slash.INFINITY, "is_nan": slash.NOT_A_NUMBER}


class Reading(support.Beside):
    """What a word says."""

    def test_every_word_of_the_small_formats(self):
        for form in SMALL_FORMATS:
            for bits in range(2 ** slash.width(form) + 2):
                self.check_word(form, bits)

    def test_words_of_all_formats(self):
        for form in ALL_FORMATS:
            for bits in some_words(self.random, form) + cases_common.stopping_words(form):
                self.check_word(form, bits)

    def check_word(self, form, bits):
        said = answer(lambda: tuple(slash.read_word(form, bits)))
        self.hold("words read", answer(self.read, form, bits), said, form, bits)
        if said[0] != "stop":
            self.check_facts(form, bits, Word(ours(form), bits))

    def read(self, form, bits):
        word = Word(ours(form), bits)
        classes = [theirs for name, theirs in CLASSES.items() if getattr(word, name)]
        self.assertLessEqual(len(classes), 1)
        sign = word.sign if not word.is_nan else slash.read_word(form, bits).sign
        return (*(classes or [slash.FRACTION]), sign, word.numerator, word.denominator, word.mark)

    def check_facts(self, form, bits, word):
        self.hold("quotients", list(word.quotients), operations.quotients_of(form, bits), form, bits)
        self.hold("quotient counts", word.quotient_count, operations.quotient_count(form, bits), form, bits)
        self.hold("divisors", word.gcd, operations.common_divisor(form, bits), form, bits)
        twisted = answer(twisting.twist, form, bits)
        self.hold("words twisted", answer(word.twisted), twisted, form, bits)
        back = answer(lambda: Word.untwisted(ours(form), bits).bits)
        self.hold("words untwisted", back, answer(twisting.untwist, form, bits), form, bits)

    def test_a_value_as_fraction_and_float(self):
        for form in ALL_FORMATS:
            for bits in some_words(self.random, form):
                word, value = Word(ours(form), bits), slash.read_word(form, bits)
                if value.value_class in (slash.FRACTION, slash.ZERO):
                    exact = operations.exact_of(value)
                    self.hold("fractions", word.fraction, exact, form, bits)
                    self.hold("floats", float(word), float(exact), form, bits)

    def test_infinity_and_not_a_number_are_no_fraction(self):
        form = Format.floating(26)
        with self.assertRaises(OverflowError):
            form.infinity.fraction
        with self.assertRaises(ValueError):
            form.not_a_number.fraction
        self.assertEqual(float(-form.infinity), -math.inf)
        self.assertTrue(math.isnan(float(form.not_a_number)))

    def test_every_word_is_true(self):
        self.assertTrue(Format.fixed(15).word(0))

    def test_a_negative_not_a_number_has_no_sign(self):
        self.assertEqual(Word(Format.fixed(15), 1 << 31).sign, 0)

    def test_a_word_stays_as_it_is(self):
        word = Format.fixed(15).word("277/642")
        with self.assertRaises(AttributeError):
            word.bits = 1
        # Before its value is read, and behind.
        for _ in range(2):
            for copied in (copy.copy(word), pickle.loads(pickle.dumps(word))):
                self.assertEqual((copied.format, copied.bits), (word.format, word.bits))
                self.assertEqual(copied.fraction, Fraction(277, 642))
            self.assertEqual(word.fraction, Fraction(277, 642))


class Formats(support.Beside):
    """Widths and largest parts, and formats that there aren't."""

    def test_every_format(self):
        for form in ALL_FORMATS:
            made = ours(form)
            self.hold("formats", made.width, slash.width(form), form)
            self.hold("formats", made.largest, slash.largest_numerator(form), form)
            self.hold("formats", made.largest, slash.largest_denominator(form), form)
            self.assertEqual(eval(repr(made)), made)

    def test_unknown_formats(self):
        for kind, k in cases_common.UNKNOWN_FORMATS:
            self.hold("formats", answer(Format, kind, k), answer(slash.make_format, kind, k), kind, k)

    def test_numbers_that_the_archive_never_sees(self):
        for wrong in (-1, 2**64, 2**64 + 15):
            self.assertRaises(OverflowError, Format.fixed, wrong)
            self.assertRaises(OverflowError, Word, Format.fixed(15), wrong)
            self.assertRaises(OverflowError, Word.untwisted, Format.floating(26), wrong)
        self.assertRaises(TypeError, Format.fixed, 15.0)
        self.assertRaises(TypeError, Word, Format.fixed(15), "01150282")


class Writing(support.Beside):
    """Words made of values."""

    def test_no_held_pair_is_better(self):
        # By the demands' own words, with every pair that a format holds: no convergent, no descent.
        for form in cases_common.small_formats(3, 5):
            held = [(r, s) for r in range(32) for s in range(32) if slash.holds(form, r, s)]
            for n in range(40):
                for d in range(1, 40):
                    word = ours(form).word(f"{n}/{d}")
                    kept = (word.numerator, word.denominator)
                    self.assertIn(kept, held)
                    ranks = [(abs(s * n - r * d), r + s) for r, s in held if (r, s) != kept]
                    ours_rank = (abs(kept[1] * n - kept[0] * d), sum(kept))
                    self.hold("no better pair", ours_rank < min(ranks), True, form, n, d)
                    self.hold("marks of rounding", word.mark, int(ours_rank[0] != 0), form, n, d)

    def test_ratios_in_all_formats(self):
        for form in ALL_FORMATS:
            for _ in range(40):
                parts = [cases_common.random_part_of_any_size(self.random) for _ in range(2)]
                sign, mark = self.random.getrandbits(1), self.random.getrandbits(1)
                value = slash.Value(slash.FRACTION, sign, *parts, mark)
                text = "%s%d/%d" % ("-" * sign, *parts)
                theirs = slash.write_value(form, value)
                self.hold("ratios written", ours(form).word(text, bool(mark)).bits, theirs, form, text, mark)
                exact = -Fraction(*parts) if sign else Fraction(*parts)
                self.hold("ratios written", ours(form).word(exact, mark).bits, theirs, form, text, mark)

    def test_whole_numbers_and_zeros(self):
        form = Format.fixed(3)
        self.assertEqual(str(form.word(-7)), "-7/1, exact")
        self.assertEqual(str(form.word(8)), "1/0, approximate")
        self.assertEqual(str(form.word("-0/5")), "-0/1, exact")
        self.assertEqual(str(form.word(0, approximate=True)), "0/1, approximate")
        self.assertEqual(str(form.word("+2")), "2/1, exact")
        self.assertEqual(str(form.not_a_number), "0/0, exact")

    def test_what_no_word_is_made_of(self):
        form = Format.fixed(15)
        for wrong in (0.5, None, b"1/2", 1j, form.word(1)):
            self.assertRaises(TypeError, form.word, wrong)
        for wrong in ("", "1/", "/2", "1.5", " 1/2", "1/-2", "1/2\n", "1_0/2", "٣/4"):
            self.assertRaises(ValueError, form.word, wrong)
        for wrong in (2**64, f"1/{2**64}", Fraction(1, 2**70)):
            self.assertRaises(OverflowError, form.word, wrong)
        with self.assertRaises(Stop) as caught:
            form.word("277/0")
        self.assertEqual(caught.exception.number, 6)

    def test_special_values(self):
        for form in ALL_FORMATS:
            for name, value in ("infinity", operations.infinity(0, 0)), ("not_a_number", operations.not_a_number()):
                self.hold("specials", getattr(ours(form), name).bits, slash.write_value(form, value), form)


class Operations(support.Beside):
    """The operators and the operations on one word."""

    def test_every_pair_of_the_smallest_formats(self):
        for form in SMALLEST_FORMATS:
            words = good_words(form)
            for left in words:
                for right in words:
                    self.check_pair(form, left, right)

    def test_pairs_of_all_formats(self):
        for form in ALL_FORMATS:
            words = some_words(self.random, form)
            for _ in range(60):
                self.check_pair(form, self.random.choice(words), self.random.choice(words))

    def check_pair(self, form, left, right):
        operands = Word(ours(form), left), Word(ours(form), right)
        for code, operation in BINARY.items():
            theirs = operations.binary(form, code, left, right)
            self.hold("operators", operation(*operands).bits, theirs, form, code, left, right)

    def test_every_word_of_the_small_formats(self):
        for form in SMALL_FORMATS:
            for bits in good_words(form):
                self.check_alone(form, bits)

    def test_words_of_all_formats(self):
        for form in ALL_FORMATS:
            for bits in some_words(self.random, form):
                self.check_alone(form, bits)

    def check_alone(self, form, bits):
        word = Word(ours(form), bits)
        for code, operation in UNARY.items():
            self.hold("unary", operation(word).bits, operations.unary(form, code, bits), form, code, bits)
        self.assertIs(+word, word)

    def test_conversions(self):
        for source in ALL_FORMATS:
            for bits in some_words(self.random, source):
                target = self.random.choice(ALL_FORMATS)
                converted = Word(ours(source), bits).convert(ours(target))
                self.assertEqual(converted.format, ours(target))
                theirs = operations.converted(source, target, bits)
                self.hold("conversions", converted.bits, theirs, source, target, bits)

    def test_what_fits_is_exact(self):
        for form in ALL_FORMATS:
            for _ in range(40):
                pairs = [cases_common.random_fraction(self.random, form) for _ in range(2)]
                left, right = [ours(form).word(Fraction(*pair)) for pair in pairs]
                for operation in BINARY.values():
                    self.check_exact(form, operation(left, right), operation(left.fraction, right.fraction))

    def check_exact(self, form, word, exact):
        """Where the format holds the exact result it is the word's value, unmarked; else the word is marked."""
        held = slash.holds(form, abs(exact.numerator), exact.denominator)
        self.hold("exact or marked", word.mark, int(not held), form, word, exact)
        if held:
            self.hold("exact results", word.fraction, exact, form, word)

    def test_what_is_not_combined(self):
        word, other = Format.fixed(15).word("1/2"), Format.floating(26).word("1/2")
        for operation in BINARY.values():
            self.assertRaises(TypeError, operation, word, other)
            self.assertRaises(TypeError, operation, word, 1)
            self.assertRaises(TypeError, operation, 0.5, word)
        self.assertRaises(TypeError, operator.mod, word, 2)
        self.assertRaises(TypeError, operator.mod, word, word)
