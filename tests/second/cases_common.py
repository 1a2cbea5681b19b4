"""What the case modules share: request lines, rates, edge words and random words."""

import slash
from night import MOST_SECONDS, RATES
from slash import FIXED, FLOATING

LARGEST = 2**64 - 1


# Request lines.


def asked_once(groups):
    """The request lines of all groups in order, each asked once."""
    lines = [line for group in groups for line in group()]
    return list(dict.fromkeys(lines))


def request(letter, *numbers):
    """One request line."""
    return " ".join([letter, *map(str, numbers)])


# Formats.

# Kinds and k that no format has; those above 255 are good ones again when
# bits are dropped.
UNKNOWN_FORMATS = [
    *((kind, 3) for kind in (0, 3, 257, 2**32 + 1, 2**63 + 2, LARGEST)),
    *((FIXED, k) for k in (0, 1, 32, 33, 64, 258, 2**32 + 2, LARGEST)),
    *((FLOATING, k) for k in (0, 1, 33, 64, 258, 2**32 + 2, LARGEST)),
]

# The ends of both kinds, which are formats.
END_FORMATS = [(FIXED, 2), (FIXED, 31), (FLOATING, 2), (FLOATING, 32)]


def small_formats(largest_fixed, largest_floating):
    """The formats with at most these k."""
    largest = {FIXED: largest_fixed, FLOATING: largest_floating}
    return [form for form in slash.all_formats() if form.k <= largest[form.kind]]


def chosen(rng, things):
    """One of the things at random."""
    return things[rng.getrandbits(16) % len(things)]


# Rates.

LARGEST_RATE = RATES[-1]

# The ends of the rates, document 01's, and what is next to them.
RATES_TRIED = [1, 2, 1023, 1024, 1025, LARGEST_RATE - 1, LARGEST_RATE]

# Rates that no recording has; most of the large ones are good when bits are dropped.
BAD_RATES = [
    *(0, LARGEST_RATE + 1, 8192, 65536, 65537, 2**16 + 1024),
    *(2**32, 2**32 + 1, 2**32 + 1024, 2**32 + LARGEST_RATE, 2**63, 2**63 + 1, LARGEST),
]


def longest_whole(rate):
    """The most ticks of a breath that isn't overlong."""
    return MOST_SECONDS * rate


# Random numbers and words.


def random_part(rng, bits):
    """A number from 1 to 2^bits - 1."""
    return max(1, rng.getrandbits(bits))


def random_part_of_any_size(rng):
    """A number from 1 to 2^64 - 1 of a random bit count."""
    return random_part(rng, 1 + rng.getrandbits(6))


def random_fraction(rng, form):
    """A held pair, neither part 0, whose parts have random bit counts."""
    if form.kind == FIXED:
        bits = chosen(rng, range(1, form.k + 1)), chosen(rng, range(1, form.k + 1))
    else:
        numerator_bits = chosen(rng, range(1, form.k))
        bits = numerator_bits, chosen(rng, range(1, form.k - numerator_bits + 1))
    return random_part(rng, bits[0]), random_part(rng, bits[1])


def wide_fraction(rng, form):
    """A held pair, neither part 0, whose parts fill the format's bits."""
    if form.kind == FIXED:
        return random_part(rng, form.k), random_part(rng, form.k)
    bits = chosen(rng, range(1, form.k))
    return random_part(rng, bits), random_part(rng, form.k - bits)


def fraction_word(rng, form, pair):
    """A held pair's word, with a random sign and mark."""
    return slash.pair_word(form, rng.getrandbits(1), pair, rng.getrandbits(1))


def random_word(rng, form):
    """The word of a random fraction, filling the format's bits half the time."""
    source = wide_fraction if rng.getrandbits(1) else random_fraction
    return fraction_word(rng, form, source(rng, form))


# Edge words.


def edge_words(form, sign, mark):
    """The edge words of the format with this sign and mark, each once."""
    words = [slash.pair_word(form, sign, pair, mark) for pair in edge_pairs(form)]
    words += special_words(form, sign, mark)
    return list(dict.fromkeys(words))


def edge_pairs(form):
    """Zeros with messages, largest parts, smallest and unreduced fractions."""
    r, s = slash.largest_numerator(form), slash.largest_denominator(form)
    a, b = widest_pair(form)
    pairs = [(0, 1), (0, 3), (0, s)]
    pairs += [(1, 1), (r, 1), (r - 1, 1), (1, s), (1, s - 1)]
    pairs += [(a, b), (a - 1, b), (a, b - 1), (a - 1, b - 1)]
    pairs += [(2, 2), (6, 3), (2, 4)]
    return [pair for pair in pairs if slash.holds(form, *pair)]


def widest_pair(form):
    """The largest parts that are held together, a floating pair's about as wide."""
    if form.kind == FIXED:
        return slash.largest_numerator(form), slash.largest_denominator(form)
    half = form.k // 2
    return 2**half - 1, 2 ** (form.k - half) - 1


def special_words(form, sign, mark):
    """Infinities and not-a-numbers, each with and without messages."""
    if form.kind == FIXED:
        m = slash.largest_numerator(form)
        pairs = [(1, 0), (3, 0), (m, 0), (0, 0), (0, 2), (m - 1, 0)]
        return [slash.pair_word(form, sign, pair, mark) for pair in pairs]
    e = 2 ** slash.slash_width(form.k) - 1
    end = 2 ** (form.k - 1)
    fields = [f for f in (0, 2, end - 2, 1, 3, end - 1) if f < end]
    return [slash.floating_word(form.k, sign, mark, e, f) for f in fields]


def random_edge_words(rng, form):
    """Each edge word of the format once, each with a random sign and mark.

    The sign is bit s; words that differ in it and the mark alone come in the
    same order, so each place is one edge.
    """
    places = range(len(edge_words(form, 0, 0)))
    return [edge_words(form, rng.getrandbits(1), rng.getrandbits(1))[i] for i in places]


# Words that stop.


def beyond_words(form):
    """Words with bits above the width, which earn stop 4; none for 64 bits."""
    width = slash.width(form)
    return sorted({2**width, 2**63, LARGEST} if width < 64 else set())


def undefined_words(form):
    """Words with the first and last undefined slash position, which earn stop 5."""
    if form.kind == FIXED:
        return []
    k = form.k
    first, last = k - 1, 2 ** slash.slash_width(k) - 2
    if last < first:
        return []
    fields = [(0, 0, first, 0), (1, 1, last, 1)]
    return [slash.floating_word(k, *each) for each in fields]


def stopping_words(form):
    """One word for stop 4, one for stop 5, and one that earns both, where there are."""
    beyond, undefined = beyond_words(form)[:1], undefined_words(form)[-1:]
    both = [high + low for high in beyond for low in undefined]
    return beyond + undefined + both
