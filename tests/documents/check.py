"""Checks that what the documents cite is there, and that what is there is cited.

    python3 tests/documents/check.py [ROOT]

In docs/CLAIMS.md and docs/WRONG_PROGRAMS.md, cell by cell (the forms are in citations.py):
definitions in the module of the crate that is named, public laws in its proofs, public functions
and their clauses, must-fail edits, cases of the second program, decisions. In every other document
but the notes on changes, on the port and on the design pass: each name in backticks is that of something in the repository, and behind
a crate's name of something of that crate. Then: every must-fail edit is cited under its crate,
every public function has two wrong programs and a row in CLAIMS.md, every crate has a row in
README.md or ARCHITECTURE.md, include/slash.h declares the functions of crates/lekhnaom and no others,
the header's numbers and structs are those of the code, what `night` says of a stop are its words, the version stands in the header and heads
CHANGELOG.md, the sources of the partial quotients have no array, and what must be trusted stands
apart (trusted.py).

Prints each failure as `file:line: what is wrong`, and ends with status 1 where there is any.
"""

import re
import sys
from collections import Counter
from pathlib import Path

sys.dont_write_bytecode = True

from citations import names_in, rows
from repository import Repository
from tables import CLAIMS, WRONG, Tables
from trusted import Trusted
from words import Words

README, ARCHITECTURE, HEADER = "README.md", "docs/ARCHITECTURE.md", "include/slash.h"
CHANGELOG, REPORT = "CHANGELOG.md", "crates/stream/src/report.rt"

# The header's numbers that the code has too: a constant of a file of crates/, or its only array of so many bytes.
NUMBERS = {
    "FIXED": ("slash/src/format.rt", r"const FIXED: u64 = (\d+);"),
    "FLOATING": ("slash/src/format.rt", r"const FLOATING: u64 = (\d+);"),
    "FRACTION": ("lekhnaom/src/values.rt", r"const FRACTION: u64 = (\d+);"),
    "ZERO": ("lekhnaom/src/values.rt", r"const ZERO: u64 = (\d+);"),
    "INFINITY": ("lekhnaom/src/values.rt", r"const INFINITY: u64 = (\d+);"),
    "NOT_A_NUMBER": ("lekhnaom/src/values.rt", r"const NOT_A_NUMBER: u64 = (\d+);"),
    "NO_NIGHT": ("lekhnaom/src/pieces.rt", r"const NO_NIGHT: u64 = (\d+);"),
    "BAD_RATE": ("breaths/src/rate.rt", r"const REFUSED: u64 = (\d+);"),
    "MOST_RATE": ("breaths/src/rate.rt", r"const MOST: u64 = (\d+);"),
    "MOST_BREATHS": ("text/src/line.rt", r"const MOST_BREATHS: u32 = (\d+);"),
    "LINE_BYTES": ("text/src/line.rt", r"const LONGEST_LINE: usize = (\d+);"),
    "LISTING_BYTES": ("lekhnaom/src/nights.rt", r"\[u8; (\d+)\]"),
}

# The header's structs, and the parameters that lend them as numbers in a row.
STRUCTS = {
    "slash_value": ("lekhnaom/src/values.rt", r"value: &(?:mut )?\[u64; (\d+)\]"),
    "slash_night_state": ("lekhnaom/src/pieces.rt", r"night: &mut \[u64; (\d+)\]"),
    "slash_piece": ("lekhnaom/src/pieces.rt", r"piece: &mut \[u64; (\d+)\]"),
}

# The stops that a recording can have: `night` says each in words.
SAID_BY_NIGHT = ("8", "9", "10", "11", "19")

# Measured figures, written by a program; and what names things that were there before: the notes on changes, and the
# page on the port to today's toolchain.
LEFT_OUT = ("bench/RESULTS.md", "docs/changes/", "docs/PORT.md", "docs/DESIGN-PASS.md")

# Where CLAIMS.md says that there is no array besides the caller's list (CR 6). Brackets there are those of
# an index, of an attribute or of a slice that is lent, `[u32]`; any others are an array's.
WITHOUT_ARRAYS = ("crates/euclid/src/", "crates/lekhnaom/src/words.rt")


class Findings:
    """The failures, and how much was looked at."""

    def __init__(self):
        self.failures, self.counts = set(), Counter()

    def fail(self, path, line, what):
        """Notes a failure."""
        self.failures.add((path, line, what))


class Check:
    """All checks of one repository."""

    def __init__(self, root):
        self.repo = Repository(root)
        self.findings = Findings()
        self.words = Words(self.repo, self.findings)
        self.tables = Tables(self.repo, self.words, self.findings)
        self.trusted = Trusted(self.repo, self.findings)

    def run(self):
        """Every check; the failures in the order of files and lines."""
        self.tables.check_claims()
        self.tables.check_wrong_programs()
        for path in sorted(path for path in self.repo.files if path.endswith(".md")):
            if not path.startswith(LEFT_OUT):
                self.words.check_document(path, tables=path not in (CLAIMS, WRONG))
        self.words.check_decisions()
        self.check_edits()
        self.check_functions()
        self.check_crates()
        self.check_header()
        self.check_numbers()
        self.check_structs()
        self.check_stop_texts()
        self.check_version()
        self.check_arrays()
        self.trusted.check()
        return sorted(self.findings.failures)

    def check_edits(self):
        """Every must-fail edit is cited under its crate."""
        for crate, edits in self.repo.edits.items():
            for edit in edits:
                if (crate, edit) not in self.tables.edits_cited:
                    path = f"crates/{crate}/must-fail/{edit}.edit"
                    what = f"neither {CLAIMS} nor {WRONG} cites it under {crate}"
                    self.findings.fail(path, 1, what)

    def check_functions(self):
        """Every public function has a row of CLAIMS.md and two wrong programs."""
        for function in self.repo.public_functions():
            key, name = (function.crate, function.title), f"`{function.title}` of {function.crate}"
            number = self.tables.programs[key]
            if key not in self.tables.claimed:
                self.findings.fail(function.path, function.line, f"no row of {CLAIMS} has {name}")
            if number < 2:
                what = f"{name} has {number} wrong programs in {WRONG}, not two"
                self.findings.fail(function.path, function.line, what)

    def check_crates(self):
        """Every crate has a row of README.md or ARCHITECTURE.md."""
        described = set()
        for path in (README, ARCHITECTURE):
            for _, _, cells in rows(self.repo.text(path)):
                described.update(name.removeprefix("crates/") for name in names_in(cells[0]))
        for crate in set(self.repo.crates) - described:
            what = f"no row, nor one of {ARCHITECTURE}, has the crate {crate}"
            self.findings.fail(README, 1, what)

    def check_header(self):
        """The header declares what the crate for C defines."""
        defined = {f.name for f in self.repo.public_functions() if f.crate == "lekhnaom"}
        for name in self.repo.header - defined:
            self.findings.fail(HEADER, 1, f"declares `{name}`, which crates/lekhnaom doesn't define")
        for name in defined - self.repo.header:
            self.findings.fail(HEADER, 1, f"doesn't declare `{name}` of crates/lekhnaom")

    def check_numbers(self):
        """The header's numbers are those of the code."""
        header = self.repo.text(HEADER)
        for name, (path, pattern) in NUMBERS.items():
            told = re.search(rf"^#define SLASH_{name} (\d+)", header, re.M)
            had = set(re.findall(pattern, self.repo.text(f"crates/{path}")))
            if not told or had != {told[1]}:
                self.findings.fail(HEADER, 1, f"SLASH_{name} isn't the number in crates/{path}")

    def check_structs(self):
        """A struct of the header has as many numbers as the parameters that lend it."""
        bodies = dict((n, b) for b, n in re.findall(r"typedef struct \{(.*?)\} (\w+);", self.repo.text(HEADER), re.S))
        for name, (path, pattern) in STRUCTS.items():
            fields = len(re.findall(r"^    uint64_t \w+;", bodies.get(name, ""), re.M))
            had = set(re.findall(pattern, self.repo.text(f"crates/{path}")))
            if had != {str(fields)}:
                self.findings.fail(HEADER, 1, f"`{name}` has {fields} numbers, another count than in crates/{path}")

    def check_stop_texts(self):
        """What the program `night` says of a stop is the header's text of it."""
        texts = dict(re.findall(r'case (\d+): return "(.*)";', self.repo.text(HEADER)))
        said = set(re.findall(r'b"([^":]+)\\n"', self.repo.text(REPORT)))
        for number in SAID_BY_NIGHT:
            if texts.get(number) not in said:
                self.findings.fail(REPORT, 1, f"doesn't say stop {number} as {HEADER} does")
        for text in said - {texts.get(number) for number in SAID_BY_NIGHT}:
            self.findings.fail(REPORT, 1, f"says `{text}`, which {HEADER} says of no such stop")

    def check_version(self):
        """The header's version is that of the newest entry of CHANGELOG.md."""
        version = re.search(r'^#define SLASH_VERSION "(.*)"', self.repo.text(HEADER), re.M)
        newest = re.search(r"^## ([\d.]+),", self.repo.text(CHANGELOG), re.M)
        if not version or not newest or version[1] != newest[1]:
            self.findings.fail(CHANGELOG, 1, f"its newest entry isn't of the version in {HEADER}")

    def check_arrays(self):
        """The partial quotients go into the caller's list, and stand in no array besides it."""
        for path in sorted(path for path in self.repo.files if path.startswith(WITHOUT_ARRAYS)):
            for number, line in self.repo.lines(path):
                if has_array(line):
                    self.findings.fail(path, number, "has an array, and there is to be none")


def has_array(line):
    """Whether a line of code has brackets that are neither an index's, an attribute's nor a slice's."""
    code = line.partition("//")[0]
    if re.match(r"\s*(?:ghost|ensures|requires) ", code):
        return False
    for bracket in re.finditer(r"\[", code):
        before, behind = code[: bracket.start()].rstrip(), code[bracket.end() :]
        index = re.search(r"[\w)\]]$", before) and not re.search(r"\b(?:mut|return|in)$", before)
        slice_type = re.match(r"(?:u8|u32|u64)\]", behind)
        if not (index or before.endswith(("#", "#!")) or slice_type):
            return True
    return False


def main():
    """Prints the failures, or how much was found good."""
    root = sys.argv[1] if len(sys.argv) > 1 else Path(__file__).resolve().parents[2]
    check = Check(root)
    failures = check.run()
    for path, line, what in failures:
        print(f"{path}:{line}: {what}")
    if failures:
        sys.exit(1)
    kinds = ("definition", "function", "clause", "law", "edit", "run", "decision", "name", "module")
    counts = ", ".join(f"{check.findings.counts[kind]} {kind}s" for kind in kinds)
    print(f"the documents cite what is there: {counts}")


if __name__ == "__main__":
    main()
