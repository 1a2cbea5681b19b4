"""Slash arithmetic over Python's Fraction: times the rows of a file and prints each row's result.

A row of the file is a line with its operation, code, format, target format and count, then a line with
two numbers for each call. For each row the nanoseconds a call and the checksum of the results are printed.
Inputs are good: no call here is refused.
"""

import math
import sys
import time
from fractions import Fraction

FINITE, INFINITE, NOT_A_NUMBER = range(3)


class Form:
    """A format with the places of its fields."""

    def __init__(self, kind, k):
        self.fixed, self.k = kind == 1, k
        self.slash_bits = (k - 1).bit_length()
        self.sign_at = 2 * k + 1 if self.fixed else k + self.slash_bits
        self.mark_at = k if self.fixed else self.sign_at - 1

    def holds(self, r, s):
        """Whether the format holds the pair."""
        if self.fixed:
            return (r | s) >> self.k == 0
        return max(1, r.bit_length()) + s.bit_length() <= self.k

    def parts(self, word):
        """The stored parts; 1/0 for an infinity and 0/0 for a not-a-number."""
        k = self.k
        if self.fixed:
            r, s = word >> (k + 1) & (1 << k) - 1, word & (1 << k) - 1
            if r and s:
                return r, s
            return (0, s & 1) if r == 0 else (r & 1, 0)
        e = word >> (k - 1) & (1 << self.slash_bits) - 1
        if e > k - 2:
            return 1 - (word & 1), 0
        r = (word & (1 << k - 1) - 1) >> e
        return (r, word & (1 << e) - 1 | 1 << e) if r else (0, 1)

    def read(self, word):
        """The class, sign, mark and size of a word."""
        r, s = self.parts(word)
        sign, mark = word >> self.sign_at & 1, word >> self.mark_at & 1
        if s:
            return FINITE, sign, mark, Fraction(r, s)
        return (INFINITE if r else NOT_A_NUMBER), sign, mark, None

    def write(self, kind, sign, mark, size):
        """The word of a number, a finite one cut to its last held convergent."""
        if kind == NOT_A_NUMBER:
            if self.fixed:
                return 0
            return (1 << self.slash_bits) - 1 << self.k - 1 | 1
        if kind == INFINITE:
            return self.put(sign, mark, 1, 0)
        n, d = size.numerator, size.denominator
        r0, s0, r1, s1 = 0, 1, 1, 0
        while d:
            quotient, rest = divmod(n, d)
            r, s = quotient * r1 + r0, quotient * s1 + s0
            if not self.holds(r, s):
                mark = 1
                break
            n, d, r0, s0, r1, s1 = d, rest, r1, s1, r, s
        return self.put(sign, mark, r1, s1)

    def put(self, sign, mark, r, s):
        """The word of a held pair in lowest terms."""
        top = sign << self.sign_at | mark << self.mark_at
        if self.fixed:
            return top | r << (self.k + 1) | s
        if s == 0:
            return top | (1 << self.slash_bits) - 1 << self.k - 1
        e = s.bit_length() - 1
        return top | e << (self.k - 1) | r << e | s ^ 1 << e


NO_NUMBER = (NOT_A_NUMBER, 0, 0, None)


def signed(sign, size):
    """A finite number's value."""
    return -size if sign else size


def finite_of(exact, mark):
    """The finite number with an exact result's own sign."""
    return FINITE, int(exact < 0), mark, abs(exact)


def add(left, right):
    """The sum of two numbers."""
    mark = left[2] | right[2]
    if left[0] == FINITE and right[0] == FINITE:
        return finite_of(signed(left[1], left[3]) + signed(right[1], right[3]), mark)
    if left[0] == right[0] and left[1] != right[1]:
        return NO_NUMBER
    return INFINITE, (left if left[0] == INFINITE else right)[1], mark, None


def subtract(left, right):
    """The left number plus the right one with its sign turned."""
    return add(left, (right[0], 1 - right[1], right[2], right[3]))


def multiply(left, right):
    """The product of two numbers."""
    sign, mark = left[1] ^ right[1], left[2] | right[2]
    if left[0] == FINITE and right[0] == FINITE:
        return FINITE, sign, mark, left[3] * right[3]
    return NO_NUMBER if left[3] == 0 or right[3] == 0 else (INFINITE, sign, mark, None)


def divide(left, right):
    """The quotient of two numbers."""
    sign, mark = left[1] ^ right[1], left[2] | right[2]
    if right[0] == INFINITE:
        return NO_NUMBER if left[0] == INFINITE else (FINITE, sign, mark, Fraction(0))
    if left[0] == INFINITE:
        return INFINITE, sign, mark, None
    if right[3] == 0:
        return NO_NUMBER if left[3] == 0 else (INFINITE, sign, mark, None)
    return FINITE, sign, mark, left[3] / right[3]


BINARY = {1: add, 2: subtract, 3: multiply, 4: divide}


def binary(code, form, _, left, right):
    """The word that a binary code gives."""
    left, right = form.read(left), form.read(right)
    if left[0] == NOT_A_NUMBER or right[0] == NOT_A_NUMBER:
        return form.write(*NO_NUMBER)
    return form.write(*BINARY[code](left, right))


def unary(code, form, _, word, __):
    """The word that a unary code gives."""
    kind, sign, mark, size = form.read(word)
    if kind == NOT_A_NUMBER:
        return form.write(*NO_NUMBER)
    if code == 1:
        return word ^ 1 << form.sign_at
    if code == 2:
        return word & ~(1 << form.sign_at)
    if code == 7:
        return form.write(kind, sign, mark, size)
    if code == 3:
        if kind == INFINITE:
            return form.write(FINITE, sign, mark, Fraction(0))
        if size == 0:
            return form.write(INFINITE, sign, mark, None)
        return form.write(FINITE, sign, mark, 1 / size)
    if kind == INFINITE:
        return form.write(*NO_NUMBER) if code == 6 else form.write(kind, sign, mark, size)
    exact = signed(sign, size)
    result = {4: math.floor, 5: math.ceil, 6: lambda x: x % 1}[code](exact)
    return form.write(*finite_of(Fraction(result), mark))


def compare(_, form, __, left, right):
    """0 below, 1 equal, 2 above, 3 unordered."""
    left, right = form.read(left), form.read(right)
    if left[0] == NOT_A_NUMBER or right[0] == NOT_A_NUMBER:
        return 3
    places = [signed(x[1], 1) if x[0] == INFINITE else 0 for x in (left, right)]
    if left[0] == FINITE and right[0] == FINITE:
        places = [signed(x[1], x[3]) for x in (left, right)]
    return 1 + (places[0] > places[1]) - (places[0] < places[1])


def round_ratio(_, form, __, n, d):
    """The word of a ratio."""
    return form.write(FINITE, 0, 0, Fraction(n, d))


def read_value(_, form, __, word, ___):
    """What a word says: sign, mark and parts beside one another, and the class added."""
    r, s = form.parts(word)
    value_class = (1 if r else 2) if s else 3 if r else 4
    sign = word >> form.sign_at & 1 if r or s else 0
    mark = word >> form.mark_at & 1
    return (sign << 63 | mark << 62 | r << 31 | s) + value_class & 2**64 - 1


def write_value(_, form, __, sign_mark_and_numerator, denominator):
    """The word of a fraction; its sign and mark come in one number with its numerator."""
    sign_and_mark, numerator = divmod(sign_mark_and_numerator, 2**62)
    sign, mark = divmod(sign_and_mark, 2)
    return form.write(FINITE, sign, mark, Fraction(numerator, denominator))


def breath(_, form, __, rate_and_onset, peak_and_next):
    """The word of a breath, 0 where it is void; two inputs come in one number."""
    rate, onset = divmod(rate_and_onset, 2**32)
    peak, following = divmod(peak_and_next, 2**32)
    inward, whole = (peak - onset) % 2**32, (following - onset) % 2**32
    if whole == 0 or inward > whole or whole > 120 * rate:
        return 0
    return form.write(FINITE, 0, 0, Fraction(inward, whole))


def convert(_, form, target, word, __):
    """The word of the target format."""
    return target.write(*form.read(word))


def rearranged(form, word, order):
    """A finite word with the text of its field put in another order; others as they are."""
    k = form.k
    e = word >> (k - 1) & (1 << form.slash_bits) - 1
    if e > k - 2:
        return word
    field = word & (1 << k - 1) - 1
    return word - field + int(order(format(field, f"0{k - 1}b"), e), 2)


def twist(_, form, __, word, ___):
    """The twisted word: the denominator's bits turned, at the left."""
    return rearranged(form, word, lambda bits, e: bits[::-1][:e] + bits[: len(bits) - e])


def untwist(_, form, __, word, ___):
    """The word of a twisted one."""
    return rearranged(form, word, lambda bits, e: bits[e:] + bits[:e][::-1])


def common_divisor(_, form, __, word, ___):
    """The greatest common divisor of the stored parts."""
    r, s = form.parts(word)
    return math.gcd(r, s) if r and s else 0


def quotients(_, form, __, word, ___):
    """The partial quotients, folded as the checksum folds."""
    kind, _, _, size = form.read(word)
    if kind != FINITE:
        return 0
    n, d = size.numerator, size.denominator
    found = []
    while d:
        quotient, rest = divmod(n, d)
        found.append(quotient)
        n, d = d, rest
    return folded([len(found), *found])


def quotient_count(_, form, __, word, ___):
    """The count of the partial quotients."""
    kind, _, _, size = form.read(word)
    if kind != FINITE:
        return 0
    n, d, count = size.numerator, size.denominator, 0
    while d:
        n, d, count = d, n % d, count + 1
    return count


def folded(results):
    """The checksum of results: times 31 plus the next, modulo 2^64."""
    h = 0
    for result in results:
        h = h * 31 + result & 2**64 - 1
    return h


OPERATIONS = {
    "read": read_value,
    "write": write_value,
    "round": round_ratio,
    "breath": breath,
    "binary": binary,
    "unary": unary,
    "compare": compare,
    "convert": convert,
    "twist": twist,
    "untwist": untwist,
    "gcd": common_divisor,
    "quotients": quotients,
    "quotient_count": quotient_count,
}


def main():
    """Times each row of the file named."""
    with open(sys.argv[1], encoding="ascii") as rows:
        for line in rows:
            name, *numbers = line.split()
            code, kind, k, to_kind, to_k, count = map(int, numbers)
            form, target, operation = Form(kind, k), Form(to_kind, to_k), OPERATIONS[name]
            inputs = [tuple(map(int, next(rows).split())) for _ in range(count)]
            start = time.perf_counter_ns()
            results = [operation(code, form, target, a, b) for a, b in inputs]
            spent = time.perf_counter_ns() - start
            print(spent / count, folded(results))


if __name__ == "__main__":
    main()
