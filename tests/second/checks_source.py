"""Checks that the examples of cases_source.py are those that document 004 prints."""

import operations
import slash
from cases_source import (
    CONVERGENTS,
    DOUBLED_KS,
    FLOATING_HALF,
    HALF,
    RATIOS,
    SINGLE,
    TABLE_1,
    THREE_DIGITS,
    TWENTY_BITS,
    determinant,
    extreme_results,
    repeated_parts,
    source_gap,
    subtraction,
    subtraction_of_parts,
    table_row,
)
from slash import FIXED, Format


def check_source():
    """Asserts everything below."""
    check_table()
    check_convergents()
    check_parts()
    check_gap()
    check_doubles()
    check_determinant()
    check_three_digits()
    check_subtraction()


def worked(steps):
    """What the steps of an example return."""
    while True:
        try:
            next(steps)
        except StopIteration as end:
            return end.value


def pair_of(form, word):
    """The parts of a word, and whether it is marked."""
    value = slash.read_word(form, word)
    assert value.sign == 0, (form, word)
    return (value.numerator, value.denominator), value.mark


def exact(form, word):
    """The parts of a word that isn't marked."""
    pair, mark = pair_of(form, word)
    assert mark == 0, (form, word)
    return pair


def check_table():
    """Asserts each row of Table 1 as printed, and the quotients of its last one."""
    for quotients, fraction, (digits, decimals), (error, error_decimals) in TABLE_1:
        words = worked(table_row(quotients, decimals, error_decimals))
        parts = [exact(SINGLE, word) for word in words]
        assert parts == [fraction, (digits, 1), (error, 1)], (fraction, parts)
    # A row before the last may end in a quotient 1, which no list of a word does.
    quotients, fraction, _, _ = TABLE_1[-1]
    assert slash.partial_quotients(*fraction) == list(quotients)


def check_convergents():
    """Asserts both lists of convergents that 004 prints, which begin at 0/1."""
    table = [fraction for _, fraction, _, _ in TABLE_1]
    for printed in (table, CONVERGENTS):
        assert slash.convergents(*printed[-1])[1:] == printed


def check_parts():
    """Asserts that repeated floors are the partial quotients."""
    for form in (THREE_DIGITS, HALF, SINGLE, FLOATING_HALF):
        for n, d in RATIOS:
            if slash.holds(form, n, d):
                floors = worked(repeated_parts(form, n, d))
                quotients = [(q, 1) for q in slash.partial_quotients(n, d)]
                assert [exact(form, word) for word in floors] == quotients


def check_gap():
    """Asserts the mediant, that nothing lies in the gap, its error and its rounding."""
    mediant, size, error, rounded = worked(source_gap())
    assert exact(SINGLE, mediant) == (277, 642)
    assert exact(SINGLE, size) == (1, 445 * 197)
    assert exact(SINGLE, error) == (1, 642 * 197)
    assert pair_of(TWENTY_BITS, rounded) == ((85, 197), 1)
    assert slash.neighbours(TWENTY_BITS, 277, 642) == ((192, 445), (85, 197))


def check_doubles():
    """Asserts that twice the width is exact, and that Theorem 2 needs it."""
    for k in DOUBLED_KS:
        assert extreme_marks(k, 2 * k + 1) == [0, 0, 0, 0], k
        assert extreme_marks(k, 2 * k) == [1, 1, 0, 0], k
        assert extreme_marks(k, 2 * k - 1) == [1, 1, 1, 1], k


def extreme_marks(k, target_k):
    """The marks of a sum, a difference, a product and a quotient."""
    target = Format(FIXED, target_k)
    words = worked(extreme_results(k, target))
    return [pair_of(target, word)[1] for word in words]


def check_determinant():
    """Asserts both sums that 004 prints, and 5/13 in every format that is tried."""
    left, right, _ = worked(determinant(THREE_DIGITS))
    assert pair_of(THREE_DIGITS, left) == ((320, 277), 1)
    assert pair_of(THREE_DIGITS, right) == ((84, 109), 1)
    for form in (THREE_DIGITS, TWENTY_BITS, HALF, FLOATING_HALF):
        _, _, difference = worked(determinant(form))
        assert pair_of(form, difference) == ((5, 13), 1), form
    # In 64 bits no step is rounded.
    assert exact(SINGLE, worked(determinant(SINGLE))[2]) == (5, 13)


def check_three_digits():
    """Asserts each step of the determinant in 004's three decimal digits."""
    for line in determinant(THREE_DIGITS):
        letter, *numbers = line.split(" ")
        if letter == "b":
            code, left, right = map(int, numbers[2:])
            values = [slash.read_word(THREE_DIGITS, word) for word in (left, right)]
            result = operations.BINARY[code](*values)
            word = operations.binary(THREE_DIGITS, code, left, right)
            pair, _ = pair_of(THREE_DIGITS, word)
            assert pair == three_digits(result.numerator, result.denominator), line


def three_digits(n, d):
    """The last convergent of n/d with at most three decimal digits in each part."""
    return [pair for pair in slash.convergents(n, d) if max(pair) <= 999][-1]


def check_subtraction():
    """Asserts the parts of the difference, and the rounding in every format."""
    words = worked(subtraction_of_parts((320, 277), (84, 109)))
    parts = [exact(SINGLE, word) for word in words]
    assert parts == [(11612, 1), (30193, 1), (11612, 30193)], parts
    for form in slash.all_formats():
        if slash.holds(form, 320, 277):
            pair, _ = pair_of(form, worked(subtraction(form)))
            held = [ratio for ratio in CONVERGENTS if slash.holds(form, *ratio)]
            assert pair == held[-1], form
