"""Checks of this program itself, before it answers anything."""

import random
from fractions import Fraction
from functools import lru_cache
from itertools import product
from math import gcd

import night
import operations
import slash
import vectors
from answers import LENT, answer
from cases_common import chosen, small_formats
from cases_night import EXAMPLE, EXAMPLE_LISTING, RATE, next_to, ties
from checks_breaths import check_breaths
from checks_counts import check_counts
from checks_inspect import check_inspect
from checks_listings import check_listings
from checks_source import check_source
from checks_stops import check_stops
from checks_timings import check_timings
from checks_twisting import check_twisting
from slash import FIXED, FRACTION, ZERO

# What the papers print: document 01's Edges, with 004's roundings and widths. What
# 004 works out in steps is in checks_source.py.
PAPER_ANSWERS = [
    ("n 1 9 277 642", "85/197 1"),
    ("n 1 2 5 2", "2/1 1"),
    ("n 1 3 1 10", "0/1 1"),
    ("n 1 3 15 2", "7/1 1"),
    ("n 1 3 8 1", "1/0 1"),
    ("n 1 3 7 1", "7/1 0"),
    ("n 2 4 5 2", "2/1 1"),
    ("n 2 4 5 1", "5/1 0"),
    ("n 2 4 9 1", "1/0 1"),
    ("w 2 26 0 0 355 113 1", "4c0058f1"),
    # 004 prints its slash position, 6.
    ("r 2 26 1275091185", "+ 355/113 1 0 1 6 22769"),
    ("n 1 2 6 23", "1/3 1"),
    ("n 1 3 6 23", "1/4 1"),
    ("n 1 2 1 4", "0/1 1"),
    ("f 1 1", "stop 1 0 stop 1 0"),
    ("f 2 1", "stop 1 0 stop 1 0"),
    ("f 1 32", "stop 1 0 stop 1 0"),
    ("f 1 15", "done 32 32767 32767"),
    ("f 2 26", "done 32 33554431 33554431"),
    ("w 1 15 0 0 277 642 0", "1150282"),
    # 277/642 is [0,2,3,6,1,3,3]; in four digits 22/51; in 20 bits 85/197, whose
    # parts 001010101 and 011000101 stand on both sides of the mark.
    ("q 1 15 7 18154114", "7 0 2 3 6 1 3 3"),
    ("n 1 6 277 642", "22/51 1"),
    ("w 1 9 0 0 277 642 0", "%x" % 0b0_001010101_1_011000101),
    ("r 1 9 87749", "+ 85/197 1 0 85 1 197"),
    # 320/277 - 84/109: 5/13 in 20 bits, 11612/30193 in 32.
    ("b 1 9 2 327957 86125", "160d"),
    ("b 1 15 2 20971797 5505133", "2d5c75f1"),
    # 13 + 15 in hexadecimal gives 1a.
    ("b 1 3 1 19 21", "1a"),
    # Floor, ceiling and mod 1 of -2/3: -1, +0 and 1/3.
    ("u 1 3 4 163", "91"),
    ("u 1 3 5 163", "1"),
    ("u 1 3 6 163", "13"),
]

# Worked out by hand from document 01's rules, which print no such words.
RULE_ANSWERS = [
    # Mod 1 of -1/3 in floating k = 3: 2/3 is not held, so 1/1, marked.
    ("u 2 3 6 39", "11"),
    # 6/23 from fixed k = 5 to k = 2 at once, then by way of k = 3.
    ("v 1 5 1 2 407", "f"),
    ("v 1 5 1 3 407", "1c"),
    ("v 1 3 1 2 28", "5"),
    # 355/113 with its mark from fixed k = 9 to floating k = 26.
    ("v 1 9 2 26 364145", "4c0058f1"),
    # Zero has the one quotient 0; infinity and not-a-number have none.
    ("q 1 3 3 1", "1 0 4242 4242"),
    ("q 1 3 2 16", "0 4242 4242"),
    ("q 1 3 0 0", "0"),
    ("q 1 3 1 19", "stop 7 0 4242"),
    # Special values as fixed words of k = 3: the zeros 1 and 129, the infinities
    # 16 and 144, 1/1 as 17 and 145, not-a-number 0.
    ("b 1 3 1 129 129", "1"),
    ("b 1 3 2 17 17", "1"),
    ("b 1 3 3 129 17", "81"),
    ("b 1 3 4 145 1", "90"),
    ("b 1 3 1 17 144", "90"),
    ("b 1 3 1 144 17", "90"),
    ("b 1 3 2 17 144", "10"),
    ("b 1 3 1 16 16", "10"),
    ("b 1 3 1 16 144", "0"),
    ("b 1 3 2 16 16", "0"),
    ("b 1 3 3 1 16", "0"),
    ("b 1 3 4 1 1", "0"),
    ("b 1 3 4 16 144", "0"),
    ("b 1 3 3 16 145", "90"),
    ("b 1 3 4 144 17", "90"),
    ("b 1 3 4 144 1", "90"),
    ("b 1 3 4 145 16", "81"),
    ("b 1 3 1 0 17", "0"),
    ("b 1 3 1 24 144", "0"),
    ("b 1 3 1 25 144", "98"),
    ("u 1 3 3 129", "90"),
    ("u 1 3 3 144", "81"),
    ("u 1 3 6 16", "0"),
    ("u 1 3 4 176", "90"),
    ("u 1 3 1 176", "30"),
    ("u 1 3 2 175", "2f"),
    ("u 1 3 1 2", "0"),
    ("o 1 3 1 129", "equal"),
    ("o 1 3 16 48", "equal"),
    ("o 1 3 144 129", "below"),
    ("o 1 3 0 0", "unordered"),
    ("g 1 3 34", "2"),
    ("g 1 3 7", "0"),
    # Vectors: 13 + 15 and 15 + 13 in hexadecimal, then the stops in their order. The
    # check of the operands comes first, and stops 2 and 3 of the result not in it.
    ("x 1 3 1 2 2 2 19 21 21 19 7 8", "done done 1a 1a"),
    ("x 1 3 1 0 0 0", "done done"),
    ("x 3 3 0 2 1 1 256 256 256 7", "stop 1 0 stop 1 0 7"),
    ("x 1 3 0 2 1 1 256 256 256 7", "stop 3 0 stop 2 0 7"),
    ("x 1 3 0 0 0 0", "done stop 2 0"),
    ("x 1 3 1 1 1 2 256 256 7 8", "stop 4 0 stop 3 0 7 8"),
    ("x 1 3 1 2 2 2 1 1 1 256 7 8", "stop 4 1 stop 4 1 7 8"),
    # Floating k = 3: width 6; slash position 2, words 8 to 11, is undefined.
    ("x 2 3 1 2 2 2 8 0 64 0 7 8", "stop 5 0 stop 5 0 7 8"),
    ("x 2 3 1 2 2 2 0 8 64 0 7 8", "stop 4 0 stop 4 0 7 8"),
    ("x 2 3 1 2 2 2 0 8 0 64 7 8", "stop 5 1 stop 5 1 7 8"),
    ("x 2 3 1 1 1 1 72 8 7", "stop 4 0 stop 4 0 7"),
    ("y 1 3 4 2 2 163 16 7 8", "done done 91 10"),
    ("y 1 3 8 1 2 163 7 8", "done stop 2 0 7 8"),
    ("y 1 3 4 2 1 163 16 7", "done stop 3 0 7"),
    ("z 1 5 1 2 2 2 407 1 7 8", "done done f 1"),
    ("z 1 5 1 32 2 1 407 1 7", "done stop 1 0 7"),
    ("z 1 3 1 2 2 2 1 256 7 8", "stop 4 1 stop 4 1 7 8"),
]

# Recordings and their listings, worked out by hand from the rules of document 01 and
# CRs 1 and 3 of 02, behind CR 7's rate line.
NIGHT_LISTINGS = [
    (EXAMPLE, EXAMPLE_LISTING),
    (b"", b"all\t00000000\t-\t-\n"),
    (RATE + b"\n", b"refused\t10\t2\n"),
    (RATE + b"0\t1\t2", b"refused\t9\t2\n"),
    (RATE + b"0\t1\tx\n", b"refused\t11\t2\n"),
    (RATE + b"0\t1\t16\nx\ty\n", b"1\t00010010\t1/16\t6.2\nrefused\t10\t3\n"),
    (RATE + b"5\t5\t6\n", b"1\t00000001\t0/1\t0.0\nall\t00000001\t0/1\t0.0\n"),
    (RATE + b"5\t6\t6\n", b"1\t00010001\t1/1\t100.0\nall\t00010001\t1/1\t100.0\n"),
    (RATE + b"5\t7\t6\n", b"1\t00000000\t-\t-\nall\t00000000\t-\t-\n"),
    # 1/32768 is 0/1 and marked: bit 15.
    (RATE + b"0\t1\t32768\n", b"1\t00008001\t0/1\t0.0\nall\t00008001\t0/1\t0.0\n"),
    # 1/16 is 6.25 percent and prints 6.2; 3/16 is 18.75 and stays 18.8.
    (RATE + b"0\t1\t16\n", b"1\t00010010\t1/16\t6.2\nall\t00010010\t1/16\t6.2\n"),
    (RATE + b"0\t3\t16\n", b"1\t00030010\t3/16\t18.8\nall\t00030010\t3/16\t18.8\n"),
]


def check_all():
    """Asserts everything below."""
    check_answers()
    check_source()
    check_held_pairs()
    check_descent()
    check_demand_3()
    check_one_word()
    check_quotients()
    check_counts()
    check_vectors()
    check_twisting()
    check_timings()
    check_night()
    check_breaths()
    check_ties()
    check_listings()
    check_stops()
    check_inspect()


def check_answers():
    """Asserts the answers that the papers print, and those worked out from them."""
    for request, expected in PAPER_ANSWERS + RULE_ANSWERS:
        assert answer(request) == expected, (request, expected, answer(request))


# Rounding.


def check_held_pairs():
    """Asserts the held pairs by another count of bits, and their largest parts."""
    for form in searched_formats(1):
        pairs = sorted(pairs_of(form))
        # Parts up to twice as large as those of any held pair.
        tried = product(range(2 ** (form.k + 1)), repeat=2)
        assert pairs == [pair for pair in tried if slash.holds(form, *pair)], form
        assert pairs == sorted(slash.held_pairs(form)), form
        assert max(r for r, s in pairs) == slash.largest_numerator(form)
        assert max(s for r, s in pairs) == slash.largest_denominator(form)


@lru_cache(maxsize=None)
def pairs_of(form):
    """Every held pair by another count of bits than slash.holds takes."""
    parts = range(2**form.k)
    pairs = [(r, s) for r in parts for s in parts[1:]]
    if form.kind != FIXED:
        # Both begin with 0b, and 0 has one digit.
        pairs = [(r, s) for r, s in pairs if len(bin(r) + bin(s)) <= form.k + 4]
    return pairs + [(1, 0)]


def check_descent():
    """Asserts that both ways of rounding agree, and the best pair is the only one."""
    small = [(n, d) for n in range(21) for d in range(1, 21)]
    for form in searched_formats(0):
        for n, d in small:
            check_rounding(form, n, d)
    # Formats somewhat larger than those searched later on, and large ratios.
    rng = random.Random(0)
    for form in searched_formats(1):
        for _ in range(40):
            n, d = rng.getrandbits(64), rng.getrandbits(64)
            check_rounding(form, n >> rng.getrandbits(6), (d >> rng.getrandbits(6)) + 1)


def searched_formats(more):
    """The formats whose pairs are all searched, and so many more of each kind."""
    return [
        form
        for form in slash.all_formats()
        if form.k <= slash.LARGEST_SEARCHED_K[form.kind] + more
    ]


def check_rounding(form, n, d):
    """Asserts that search and descent find one pair, and no other ranks with it."""
    best = slash.best_by_search(form, n, d)
    assert best == slash.best_by_descent(form, n, d), (form, n, d)
    best_rank = slash.rank(best, n, d)
    ranks = [slash.rank(pair, n, d) for pair in slash.held_pairs(form)]
    assert ranks.count(best_rank) == 1, (form, n, d)


# Binary operations and conversions, by document 01's N over D, not reduced.


def check_demand_3():
    """Asserts demand 3 of a sample of results, against a loop over all pairs."""
    rng = random.Random(1)
    forms = small_formats(4, 6)
    for form in forms:
        words = finite_words(form)
        for _ in range(120):
            left, right = chosen(rng, words), chosen(rng, words)
            for code in operations.BINARY:
                result = operations.binary(form, code, left, right)
                check_binary(form, code, left, right, result)
            target = chosen(rng, forms)
            result = operations.converted(form, target, left)
            check_conversion(form, target, left, result)


def finite_words(form):
    """The words of the format that are finite."""
    return [word for word in range(2 ** slash.width(form)) if is_finite(form, word)]


def is_finite(form, word):
    """Whether a word's value is finite; a word that stops has none."""
    try:
        return slash.read_word(form, word).value_class in (FRACTION, ZERO)
    except slash.Stop:
        return False


def check_binary(form, code, left_word, right_word, word):
    """Asserts demand 3, the sign and the mark of the word that a binary code gave."""
    left, right = slash.read_word(form, left_word), slash.read_word(form, right_word)
    if code == 4 and right.value_class == ZERO:
        return
    sign, n, d = paper_result(code, left, right)
    check_best(form, word, sign, n, d, left.mark | right.mark)


def paper_result(code, left, right):
    """The sign, N and D of a finite result, as document 01 sets them out."""
    a, b, c, d = left.numerator, left.denominator, right.numerator, right.denominator
    if code == 3:
        return left.sign ^ right.sign, a * c, b * d
    if code == 4:
        return left.sign ^ right.sign, a * d, b * c
    right_sign = right.sign if code == 1 else 1 - right.sign
    if left.sign == right_sign:
        size, sign = a * d + b * c, left.sign
    else:
        size, sign = abs(a * d - b * c), left.sign if a * d > b * c else right_sign
    return (sign if size else 0), size, b * d


def check_conversion(form, target, source_word, word):
    """Asserts demand 3, the sign and the mark of the word that a conversion gave."""
    value = slash.read_word(form, source_word)
    check_best(target, word, value.sign, value.numerator, value.denominator, value.mark)


def check_best(form, word, sign, n, d, mark):
    """Asserts that the word's pair is the only best for n/d, and its sign and mark."""
    result = slash.read_word(form, word)
    pair = result.numerator, result.denominator
    missed, parts = abs(pair[1] * n - pair[0] * d), sum(pair)
    for r, s in pairs_of(form):
        other = abs(s * n - r * d)
        better = (missed, parts) < (other, r + s)
        assert better or (r, s) == pair, (form, word, n, d, r, s)
    assert result.sign == sign, (form, word, n, d)
    assert result.mark == (mark or int(missed != 0)), (form, word, n, d)


# Operations on one word.

UNARY_CODES = range(1, 8)


def check_one_word():
    """Asserts what each unary code and the common divisor mean, by whole numbers."""
    for form in small_formats(4, 6):
        for word in finite_words(form):
            for code in UNARY_CODES:
                check_unary(form, code, word, operations.unary(form, code, word))
            check_divisor(form, word)


def check_unary(form, code, operand_word, word):
    """Asserts what a unary code means, of the word that it gave for a finite one."""
    operand = slash.read_word(form, operand_word)
    if code in (1, 2):
        sign = 1 - operand.sign if code == 1 else 0
        check_sign_bit(form, operand_word, word, sign)
    elif code in (4, 5):
        check_whole(code, operand, slash.read_word(form, word))
    else:
        sign, n, d = paper_unary_result(code, operand)
        check_best(form, word, sign, n, d, operand.mark)


def paper_unary_result(code, operand):
    """The sign, N and D of a reciprocal, of what mod 1 leaves and of the value itself.

    A zero's reciprocal is 1 over 0, which the pair 1/0 alone doesn't miss.
    """
    n, d = operand.numerator, operand.denominator
    if code == 3:
        return operand.sign, d, n
    if code == 6:
        return 0, signed_numerator(operand) % d, d
    return operand.sign, n, d


def check_sign_bit(form, operand_word, word, sign):
    """Asserts that a word has this sign, and of the operand's bits changed no other."""
    operand = slash.read_word(form, operand_word)
    assert slash.read_word(form, word) == operand._replace(sign=sign), (form, word)
    changed = bin(operand_word ^ word).count("1")
    assert changed == int(sign != operand.sign), (form, operand_word, word)


def check_whole(code, operand, result):
    """Asserts that a floor or a ceiling lies next to the operand, and its mark."""
    n, d, whole = signed_numerator(operand), operand.denominator, whole_of(result)
    if code == 4:
        assert whole * d <= n < (whole + 1) * d, (operand, result)
    else:
        assert (whole - 1) * d < n <= whole * d, (operand, result)
    assert result.mark == operand.mark, (operand, result)


def whole_of(value):
    """The whole number that a value is; a zero has sign 0."""
    assert value.denominator == 1 and (value.numerator or not value.sign)
    return signed_numerator(value)


def signed_numerator(value):
    """The numerator of a finite value with its sign."""
    return -value.numerator if value.sign else value.numerator


def check_divisor(form, word):
    """Asserts that the common divisor is the largest of all common divisors."""
    value = slash.read_word(form, word)
    n, d = value.numerator, value.denominator
    common = [t for t in range(1, d + 1) if n % t == 0 and d % t == 0]
    expected = max(common) if value.value_class == FRACTION else 0
    assert operations.common_divisor(form, word) == expected, (form, word)


def check_quotients():
    """Asserts that partial quotients give back the value, and are at most 2k."""
    for form in small_formats(4, 6):
        for word in finite_words(form):
            value = slash.read_word(form, word)
            quotients = operations.quotients_of(form, word)
            assert slash.truncated_value(quotients) == operations.size_of(value)
            assert len(quotients) <= 2 * form.k and min(quotients[1:], default=1) >= 1
            assert len(quotients) == 1 or quotients[-1] >= 2, (form, word)


# Vectors.


def check_vectors():
    """Asserts of each place of a vector form's result what is asserted of a word's."""
    rng = random.Random(2)
    forms, places = small_formats(3, 5), range(9)
    for form in forms:
        words = finite_words(form)
        left, right = ([chosen(rng, words) for _ in places] for _ in range(2))
        for code in operations.BINARY:
            out = stored(vectors.binary_each, *form, code, left, right)
            for i in places:
                check_binary(form, code, left[i], right[i], out[i])
        for code in UNARY_CODES:
            out = stored(vectors.unary_each, *form, code, left)
            for i in places:
                check_unary(form, code, left[i], out[i])
        target = chosen(rng, forms)
        out = stored(vectors.convert_each, *form, *target, left)
        for i in places:
            check_conversion(form, target, left[i], out[i])


def stored(vector_form, *arguments):
    """What a vector form stores in a lent vector as long as its last operand."""
    out = [LENT] * len(arguments[-1])
    vector_form(*arguments, out)
    return out


# A night.


def check_night():
    """Asserts the listings that the paper prints, and those worked out from it."""
    for recording, expected in NIGHT_LISTINGS:
        assert night.listing(recording) == expected, (recording, expected)
    most = night.listing(RATE + b"0\t1\t2\n" * 65536)
    assert most.count(b"\n") == 65537 and most.endswith(b"all\t00010002\t1/2\t50.0\n")
    beyond = night.listing(RATE + b"0\t1\t2\n" * 65536 + b"x")
    assert beyond.count(b"\n") == 65537 and beyond.endswith(b"\nrefused\t8\t65538\n")


def check_ties():
    """Asserts which ratios are ties, and that each goes to the even tenth.

    What is next below a tie goes to the tenth below it, what is next above to the
    one above.
    """
    assert sorted(ties()) == sorted(ties_by_denominators())
    # Each odd number of half tenths once, 1000 in all.
    halves = range(1, 2000, 2)
    assert [Fraction(n, d) * 2000 for n, d in ties()] == list(halves)
    for half, tie in zip(halves, ties()):
        down, up = half // 2, half // 2 + 1
        assert printed_tenths(*tie) == (up if down % 2 else down), tie
        below, above = next_to(*tie)
        assert printed_tenths(*below) == down and printed_tenths(*above) == up, tie
        check_next(below, tie)
        check_next(tie, above)


def ties_by_denominators():
    """The held ratios in lowest terms that are ties, found by their denominators.

    1000n/d is a whole number and a half where 2000n is an odd multiple of d. In
    lowest terms d then divides 2000, so that few denominators are left to try.
    """
    held = range(1, slash.largest_denominator(night.STORED) + 1)
    for d in (d for d in held if 2000 % d == 0):
        lowest = (n for n in range(d + 1) if gcd(n, d) == 1)
        yield from ((n, d) for n in lowest if 2000 * n // d % 2 == 1)


def printed_tenths(n, d):
    """The tenths of a percent that are printed for n/d."""
    whole, tenths = night.percentage(n, d).split(".")
    assert len(tenths) == 1, (n, d)
    return 10 * int(whole) + int(tenths)


def check_next(lower, upper):
    """Asserts that two ratios are held and up to 1, and no held one lies between them.

    As the products across differ by 1, the denominator of what lies between is at
    least the sum of theirs.
    """
    (p, q), (r, s) = lower, upper
    largest = slash.largest_denominator(night.STORED)
    assert q * r - p * s == 1 and q + s > largest, (lower, upper)
    assert p <= q <= largest and r <= s <= largest, (lower, upper)
