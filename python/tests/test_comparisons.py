"""Comparisons of words and their hashes, beside the second program's and beside those of fractions."""

import operator

import support  # First: it tells where the other modules are.

import operations
import slash
from lekhnaom import Format, Word
from support import ALL_FORMATS, good_words, ours, some_words
from test_words import SMALLEST_FORMATS

# What each operator says of the second program's orders; with a not-a-number only != is true.
OPERATORS = {
    operator.lt: (operations.BELOW,),
    operator.le: (operations.BELOW, operations.EQUAL),
    operator.eq: (operations.EQUAL,),
    operator.ne: (operations.BELOW, operations.ABOVE, operations.UNORDERED),
    operator.ge: (operations.EQUAL, operations.ABOVE),
    operator.gt: (operations.ABOVE,),
}


class Comparisons(support.Beside):
    """Words of one format."""

    def test_every_pair_of_the_smallest_formats(self):
        for form in SMALLEST_FORMATS:
            words = good_words(form)
            for left in words:
                for right in words:
                    self.check_pair(form, left, right)

    def test_pairs_of_all_formats(self):
        for form in ALL_FORMATS:
            words = some_words(self.random, form)
            for _ in range(60):
                self.check_pair(form, self.random.choice(words), self.random.choice(words))

    def check_pair(self, form, left, right):
        order = operations.compared(form, left, right)
        words = Word(ours(form), left), Word(ours(form), right)
        for compare, orders in OPERATORS.items():
            self.hold("comparisons", compare(*words), order in orders, form, compare, left, right)
        if order == operations.EQUAL:
            self.hold("hashes of equal words", hash(words[0]), hash(words[1]), form, left, right)

    def test_sorting(self):
        form = Format.floating(20)
        fractions = [form.word(f"{self.random.randrange(99)}/{self.random.randrange(1, 99)}") for _ in range(500)]
        ordered = [word.fraction for word in sorted(fractions)]
        self.hold("sorted lists", ordered, sorted(ordered))


class MixedFormats(support.Beside):
    """Words of two formats: compared by their values."""

    def test_pairs(self):
        formats = self.random.choices(ALL_FORMATS, k=400)
        for left_form, right_form in zip(formats[::2], formats[1::2]):
            for _ in range(20):
                left = self.random.choice(some_words(self.random, left_form))
                right = self.near(right_form, left_form, left)
                self.check_pair(left_form, left, right_form, right)

    def near(self, form, other_form, word):
        """A word of a format, half the time that of another format's word, so that some are equal."""
        if self.random.getrandbits(1):
            return operations.converted(other_form, form, word)
        return self.random.choice(some_words(self.random, form))

    def check_pair(self, left_form, left, right_form, right):
        order = value_order(slash.read_word(left_form, left), slash.read_word(right_form, right))
        words = Word(ours(left_form), left), Word(ours(right_form), right)
        for compare, orders in OPERATORS.items():
            asked = left_form, left, right_form, right, compare
            self.hold("comparisons of two formats", compare(*words), order in orders, *asked)
        if order == operations.EQUAL:
            self.hold("hashes of equal words", hash(words[0]), hash(words[1]), words)

    def test_other_things_are_unequal(self):
        word = Format.fixed(15).word(1)
        self.assertFalse(word == 1)
        self.assertTrue(word != 1)
        self.assertRaises(TypeError, operator.lt, word, 1)


def value_order(left, right):
    """How two values of the second program lie to one another, whatever their formats."""
    if slash.NOT_A_NUMBER in (left.value_class, right.value_class):
        return operations.UNORDERED
    places = operations.place_on_line(left), operations.place_on_line(right)
    return (places[0] > places[1]) - (places[0] < places[1])
