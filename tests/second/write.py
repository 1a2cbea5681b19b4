"""Writes the programs' inputs and what they must print: python3 write.py DIR."""

import os
import sys
from itertools import chain

import answers
import cases_binary
import cases_breaths
import cases_counts
import cases_files
import cases_inspect
import cases_load
import cases_night
import cases_print
import cases_rates
import cases_source
import cases_timings
import cases_twisting
import cases_unary
import cases_vectors
import cases_words
import checks
import inspecting
import listings
import night

# The modules whose requests are written, one after the other.
CASE_MODULES = [
    cases_words,
    cases_source,
    cases_binary,
    cases_unary,
    cases_vectors,
    cases_twisting,
    cases_timings,
    cases_counts,
    cases_breaths,
]

# The same of the cases on recordings and listings, which have answers of their own.
NIGHT_MODULES = [cases_night, cases_rates, cases_load, cases_print]


def outputs():
    """Each file there is: its crate, its name, and its parts as bytes."""
    requests = [line for module in CASE_MODULES for line in module.requests()]
    yield "cases", "stdin", as_lines(requests)
    yield "cases", "stdout", as_lines(map(answers.answer, requests))
    longest = cases_night.longer_than_any()
    yield "night", "stdin", [longest]
    yield "night", "stdout", [night.listing(longest)]
    asked = [module.requests() for module in NIGHT_MODULES]
    yield "night_cases", "stdin", as_lines(chain(*asked))
    printed = [module.answers() for module in NIGHT_MODULES]
    yield "night_cases", "stdout", chain(*printed)
    listing = night.listing(cases_night.varied_night())
    yield "relist", "stdin", [listing]
    yield "relist", "stdout", [listings.relisting(listing)]
    words = cases_inspect.text()
    yield "inspect", "stdin", [words]
    yield "inspect", "stdout", [inspecting.inspection(words)]
    for name, parts in cases_files.outputs():
        yield "night_files", name, parts


def as_lines(texts):
    """Each text as bytes, ended by one line feed on every system."""
    return (text.encode("ascii") + b"\n" for text in texts)


def write_file(path, parts):
    """Writes bytes, part by part."""
    os.makedirs(os.path.dirname(path), exist_ok=True)
    with open(path, "wb") as output:
        output.writelines(parts)


def main():
    """Checks this program, then writes every file below the directory named."""
    if len(sys.argv) != 2:
        sys.exit("usage: python3 write.py DIR")
    checks.check_all()
    for crate, name, parts in outputs():
        write_file(os.path.join(sys.argv[1], crate, name), parts)


if __name__ == "__main__":
    main()
