"""What each stop is called in words: the texts of slash_stop_text in include/slash.h, by number.

checks_stops.py holds them against the header.
"""

STOP_TEXTS = {
    0: "done",
    1: "unknown format (twisting: floating ones only)",
    2: "unknown code",
    3: "unequal lengths",
    4: "bits above the word's width",
    5: "undefined slash position",
    6: "denominator 0",
    7: "list too short",
    8: "more than 65,536 breaths",
    9: "over 32 bytes before the line feed, or no line feed",
    10: "not three fields",
    11: "a field that is no tick mark",
    13: "not the shape of a listed line",
    14: "out of sequence",
    15: "no listed word, or columns of another",
    16: "not whole records of 12 bytes",
    17: "unknown kind of record",
    18: "a number that no record of its kind has",
    19: "no rate line, or no rate from 1 to 4096",
    255: "a night that no recording has",
}
