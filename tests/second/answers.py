"""Answers request lines, by one function for each first letter."""

from functools import partial

import night
import operations
import slash
import timings
import twisting
import vectors

# Formats, words and rounding.


def answer_format(kind, k):
    """f: what the check of the format tells, then its width and largest parts.

    Where there is no such format, both its check and its making stop.
    """
    checked = told_text(slash.make_format, kind, k)
    if checked != "done":
        return "%s %s" % (checked, checked)
    form = slash.Format(kind, k)
    parts = slash.largest_numerator(form), slash.largest_denominator(form)
    return "%s %d %d %d" % (checked, slash.width(form), *parts)


def answer_read(kind, k, word):
    """r: the value of a word, and its fields."""
    form = slash.make_format(kind, k)
    value = slash.read_word(form, word)
    return " ".join([value_text(value), *map(str, slash.fields_of(form, word))])


def value_text(value):
    """A value with its sign, unless it's not-a-number, and its mark."""
    if value.value_class == slash.NOT_A_NUMBER:
        return "nan %d" % value.mark
    names = {
        slash.FRACTION: "%d/%d" % (value.numerator, value.denominator),
        slash.ZERO: "zero",
        slash.INFINITY: "infinity",
    }
    sign = "-" if value.sign else "+"
    return "%s %s %d" % (sign, names[value.value_class], value.mark)


def answer_write(kind, k, value_class, sign, n, d, mark):
    """w: the canonical word of a value."""
    form = slash.make_format(kind, k)
    value = slash.Value(value_class, sign, n, d, mark)
    return "%x" % slash.write_value(form, value)


def answer_round(kind, k, n, d):
    """n: the pair that a ratio is rounded to, and its mark."""
    pair, mark = slash.rounded(slash.make_format(kind, k), n, d)
    return "%d/%d %d" % (*pair, mark)


# Operations on two words.

COMPARISON_NAMES = {
    operations.BELOW: "below",
    operations.EQUAL: "equal",
    operations.ABOVE: "above",
    operations.UNORDERED: "unordered",
}

COMPARISON_CHARACTERS = {
    operations.BELOW: "<",
    operations.EQUAL: "=",
    operations.ABOVE: ">",
    operations.UNORDERED: "?",
}


def answer_binary(kind, k, code, left, right):
    """b: the word that a binary code gives."""
    form = slash.make_format(kind, k)
    return "%x" % operations.binary(form, code, left, right)


def answer_binary_each(kind, k, code, left):
    """B: what b answers for every right word."""
    form = slash.make_format(kind, k)
    return each_word(form, "%x", partial(operations.binary, form, code, left))


def answer_compare(kind, k, left, right):
    """o: what two words compare as."""
    form = slash.make_format(kind, k)
    return COMPARISON_NAMES[operations.compared(form, left, right)]


def answer_compare_each(kind, k, left):
    """O: what o answers for every right word, one character each."""
    form = slash.make_format(kind, k)
    return "".join(compare_character(form, left, right) for right in all_words(form))


def compare_character(form, left, right):
    """The character for what two words compare as, or for a stop."""
    try:
        return COMPARISON_CHARACTERS[operations.compared(form, left, right)]
    except slash.Stop:
        return "!"


def answer_convert(kind, k, to_kind, to_k, word):
    """v: the word that a conversion gives."""
    source, target = slash.make_format(kind, k), slash.make_format(to_kind, to_k)
    return "%x" % operations.converted(source, target, word)


def answer_convert_each(kind, k, to_kind, to_k):
    """V: what v answers for every word."""
    source, target = slash.make_format(kind, k), slash.make_format(to_kind, to_k)
    return each_word(source, "%x", partial(operations.converted, source, target))


# Operations on one word.

# What each place of a lent list holds before the call.
LENT = 4242


def answer_unary(kind, k, code, word):
    """u: the word that a unary code gives."""
    form = slash.make_format(kind, k)
    return "%x" % operations.unary(form, code, word)


def answer_unary_each(kind, k, code):
    """U: what u answers for every word."""
    form = slash.make_format(kind, k)
    return each_word(form, "%x", partial(operations.unary, form, code))


def answer_divisor(kind, k, word):
    """g: the greatest common divisor of a word's parts."""
    return "%d" % operations.common_divisor(slash.make_format(kind, k), word)


def answer_divisor_each(kind, k):
    """G: what g answers for every word."""
    form = slash.make_format(kind, k)
    return each_word(form, "%d", partial(operations.common_divisor, form))


def answer_quotients(kind, k, length, word):
    """q: the count of the partial quotients, or the stop, and the lent list."""
    lent = [LENT] * length
    try:
        form = slash.make_format(kind, k)
        first = "%d" % operations.lend_quotients(form, word, lent)
    except slash.Stop as stop:
        first = stop_text(stop)
    return " ".join([first, *map(str, lent)])


def answer_count(kind, k, word):
    """c: the count of a word's partial quotients, with no list lent."""
    return "%d" % operations.quotient_count(slash.make_format(kind, k), word)


def answer_count_each(kind, k):
    """C: what c answers for every word."""
    form = slash.make_format(kind, k)
    return each_word(form, "%d", partial(operations.quotient_count, form))


# Twisted storage. Way 1 twists, way 2 untwists.


def answer_twist(kind, k, way, word):
    """t: the word that a way of twisting gives."""
    form = slash.make_format(kind, k)
    return "%x" % twisting.WAYS[way](form, word)


def answer_twist_each(kind, k, way):
    """T: what t answers for every word."""
    form = slash.make_format(kind, k)
    return each_word(form, "%x", partial(twisting.WAYS[way], form))


# Vectors. The words come after all lengths: the operands', then the lent result's.
# First the operands alone are checked.


def answer_binary_vector(kind, k, code, left_length, right_length, out_length, *words):
    """x: a binary code on two vectors."""
    left, right, out = parted(words, left_length, right_length, out_length)
    checked = told_text(vectors.check_operands, kind, k, left, right)
    told = told_text(vectors.binary_each, kind, k, code, left, right, out)
    return vector_text(checked, told, out)


def answer_unary_vector(kind, k, code, length, out_length, *words):
    """y: a unary code on a vector."""
    operand, out = parted(words, length, out_length)
    checked = told_text(vectors.check_operands, kind, k, operand)
    told = told_text(vectors.unary_each, kind, k, code, operand, out)
    return vector_text(checked, told, out)


def answer_convert_vector(kind, k, to_kind, to_k, length, out_length, *words):
    """z: a conversion of a vector."""
    operand, out = parted(words, length, out_length)
    checked = told_text(vectors.check_operands, kind, k, operand)
    told = told_text(vectors.convert_each, kind, k, to_kind, to_k, operand, out)
    return vector_text(checked, told, out)


def answer_twist_vector(kind, k, way, length, out_length, *words):
    """e: a way of twisting on a vector; a fixed format's words are checked as well."""
    operand, out = parted(words, length, out_length)
    checked = told_text(vectors.check_operands, kind, k, operand)
    told = told_text(vectors.twist_each, kind, k, way, operand, out)
    return vector_text(checked, told, out)


def parted(words, *lengths):
    """The words as vectors of these lengths, one after the other."""
    assert len(words) == sum(lengths)
    rest = iter(words)
    return [[next(rest) for _ in range(length)] for length in lengths]


def vector_text(checked, told, out):
    """What the check and the operation told, and the lent result after both."""
    return "%s %s" % (checked, lent_text(told, out))


def lent_text(told, out):
    """What a call told, and the lent result after it."""
    return " ".join([told, *("%x" % word for word in out)])


# Timings. The records' bytes and the lent result's words come after both lengths.


def answer_timings(length, out_length, *numbers):
    """i: the ratios of the scoring package's records."""
    exported, out = parted(numbers, length, out_length)
    told = told_text(timings.store_ratios, bytes(exported), out)
    return lent_text(told, out)


# Breaths. The tick marks come last: onset, peak and next onset.

# The largest sum of 64 bits.
LARGEST_SUM = 2**64 - 1


def answer_breath(rate, *marks):
    """h: the durations of a breath, and its word or that it is void."""
    rate, breath = night.checked_rate(rate), night.durations(*marks)
    word = "void" if night.is_void(rate, *breath) else "%x" % night.stored_word(*breath)
    return "%d %d %s" % (*breath, word)


def answer_sums(rate, inward, whole, *marks):
    """a: sums of breathing in and of wholes with a breath more, or that 64 bits are full."""
    ticks = night.summed_ticks(night.checked_rate(rate), *night.durations(*marks))
    sums = night.added((inward, whole), ticks)
    return "full" if max(sums) > LARGEST_SUM else "%d %d" % sums


# The dispatcher.


def all_words(form):
    """Every word of the format's width, ascending."""
    return range(2 ** slash.width(form))


def each_word(form, pattern, operation):
    """What the operation gives for each word of the format, stops as !S."""
    return " ".join(short_text(pattern, operation, word) for word in all_words(form))


def short_text(pattern, operation, word):
    """What the operation gives for one word, in a pattern, a stop as !S."""
    try:
        return pattern % operation(word)
    except slash.Stop as stop:
        return "!%d" % stop.number


ANSWERS = {
    "f": answer_format,
    "r": answer_read,
    "w": answer_write,
    "n": answer_round,
    "b": answer_binary,
    "B": answer_binary_each,
    "o": answer_compare,
    "O": answer_compare_each,
    "v": answer_convert,
    "V": answer_convert_each,
    "u": answer_unary,
    "U": answer_unary_each,
    "g": answer_divisor,
    "G": answer_divisor_each,
    "q": answer_quotients,
    "c": answer_count,
    "C": answer_count_each,
    "x": answer_binary_vector,
    "y": answer_unary_vector,
    "z": answer_convert_vector,
    "t": answer_twist,
    "T": answer_twist_each,
    "e": answer_twist_vector,
    "i": answer_timings,
    "h": answer_breath,
    "a": answer_sums,
}


def told_text(call, *arguments):
    """Whether a call was done or stopped."""
    try:
        call(*arguments)
        return "done"
    except slash.Stop as stop:
        return stop_text(stop)


def stop_text(stop):
    """A stop with its number and place."""
    return "stop %d %d" % (stop.number, stop.place)


def answer(request_line):
    """The answer to one request line, both without their line feed."""
    letter, *numbers = request_line.split(" ")
    try:
        return ANSWERS[letter](*map(int, numbers))
    except slash.Stop as stop:
        return stop_text(stop)
