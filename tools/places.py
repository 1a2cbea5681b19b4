#!/usr/bin/env python3
"""Counts the places of the eight points of docs/DESIGN-PASS.md, in crates/*/src and, for point 8, in crates/*/proofs.

    python3 tools/places.py [-v] [COMMIT]

COMMIT is one of this repository's; without it the files are counted as they stand. -v lists each place. The counts go by the text
alone: a place that a rule finds may stand as it is for a reason, and the page says which.
"""
import collections
import re
import subprocess
import sys
from pathlib import Path


def files(commit, pattern):
    """The path and text of each file whose path the pattern matches, at a commit or as it stands."""
    if commit is None:
        for path in sorted(Path("crates").rglob("*")):
            if path.is_file() and re.fullmatch(pattern, str(path)):
                yield str(path), path.read_text()
        return
    names = subprocess.run(["git", "ls-tree", "-r", "--name-only", commit, "crates"], check=True, capture_output=True, text=True)
    for name in names.stdout.split("\n"):
        if re.fullmatch(pattern, name):
            shown = subprocess.run(["git", "show", f"{commit}:{name}"], check=True, capture_output=True, text=True)
            yield name, shown.stdout


def code_of(text):
    """The text with comments and contracts blanked, lines kept."""
    lines = []
    for line in text.split("\n"):
        kept = re.sub(r"//.*", "", line)
        if re.match(r"\s*(requires|ensures)\b|ghost use", kept):
            kept = ""
        lines.append(kept)
    return "\n".join(lines)


def line_at(text, place):
    return text.count("\n", 0, place) + 1


FUNCTION = re.compile(r"^( *)(?:pub(?:\(crate\))? )?(?:extern \"C\" )?fn (\w+)(?:<[^>]*>)?\((.*?)\)", re.M | re.S)


def functions(text):
    """Each function's name, the place where it begins, its parameters, its contract and its body."""
    for found in FUNCTION.finditer(text):
        indent = found.group(1)
        head = text.find("\n" + indent + "{\n", found.end())
        inline = text.find("{\n", found.end())
        if head == -1 or "\nfn " in text[found.end() : head]:
            head = inline
        end = text.find("\n" + indent + "}", head)
        if head == -1 or end == -1:
            continue
        yield found.group(2), found.start(), found.group(3), text[found.end() : head], text[head:end]


def lines_that(says, pattern, in_code=True, group=0):
    """A rule: each place that the pattern finds, in the code alone or in the whole text. `says` tells what it finds."""
    sought = re.compile(pattern, re.M)

    def rule(name, text):
        searched = code_of(text) if in_code else text
        for found in sought.finditer(searched):
            yield line_at(searched, found.start()), found.group(group).strip()

    rule.__doc__ = says
    return rule


# ---- 1


def own_results(name, text):
    """Enums of the shape of Option or Result."""
    for found in re.finditer(r"^(?:pub(?:\(crate\))? )?enum (\w+)[^{]*\{(.*?)^\}", text, re.M | re.S):
        variants = re.findall(r"^\s+(\w+)(\([^)]*\))?,", re.sub(r"//.*", "", found.group(2)), re.M)
        names = {v for v, _ in variants}
        held = [p for _, p in variants if p]
        option = len(variants) == 2 and len(held) == 1
        result = names & {"Stopped", "Refused", "Full", "Wrong"}
        if option or result:
            yield line_at(text, found.start()), "enum " + found.group(1)


uses_of_results = lines_that(
    "Uses of the variants that such enums have here.",
    r"\b[A-Z]\w+::(?:Done|Stopped|Good|Full|Wrong|Other|Told|Read|Refused)\b",
)
sentinels = lines_that(
    "A number that stands for none, by the comment that says so, and a flag beside a value.",
    r"//[^\n]*\b(?:or|else|and|answers) (?:0|16)\b[^\n]*|^\s+(?:pub\(crate\) )?ok: bool,",
    in_code=False,
)
codes = lines_that(
    "Numbers for kinds and refusals.",
    r"^\s*(?:pub(?:\(crate\))? )?const ([A-Z_0-9]+): u(?:8|32|64) = (?:\d{1,2}|b'.');",
    in_code=False,
    group=1,
)


# ---- 2


def skeleton(body):
    """A body with its names, numbers and texts taken out."""
    words = re.findall(r"b?\"[^\"]*\"|b'.'|\w+|[^\s\w]", code_of(body))
    kept = {"let", "mut", "if", "else", "match", "while", "for", "in", "loop", "return", "break", "continue", "as", "true", "false"}
    return tuple(w if w in kept or not re.match(r"\w|b?\"|b'", w) else "n" for w in words)


def twins(all_files):
    """Functions whose bodies differ in names, numbers and texts alone."""
    groups = collections.defaultdict(list)
    for name, text in all_files:
        for function, start, _, _, body in functions(text):
            shape = skeleton(body)
            if len(shape) > 16:
                groups[shape].append((name, line_at(text, start), function))
    for group in groups.values():
        for name, line, function in group[1:]:
            yield name, line, f"{function} beside {group[0][2]}"


# ---- 3


def counted(name, text):
    """Loops that count by hand."""
    code = code_of(text)
    for found in re.finditer(r"^( *)(?:while ([^\n]*)|loop) \{\n(.*?)^\1\}", code, re.M | re.S):
        steps = re.findall(r"\b(\w+) [+-]= 1;", found.group(3))
        test = found.group(2) or ""
        if any(re.search(rf"\b{s}\b", test) for s in steps):
            yield line_at(code, found.start()), "while " + test


# ---- 4


def by_hand(name, text):
    """Fields said twice, a bool as a number, a match that only tells a variant."""
    code = code_of(text)
    for found in re.finditer(r"^\s+(\w+): \1,|\b\w+ \{ \w+: \w+, \w+: \w+ \}|if \w+ \{ 1 \} else \{ 0 \}", code, re.M):
        text_of = found.group(0).strip()
        pair = re.fullmatch(r"\w+ \{ (\w+): (\w+), (\w+): (\w+) \}", text_of)
        if pair and (pair.group(1) != pair.group(2) or pair.group(3) != pair.group(4)):
            continue
        yield line_at(code, found.start()), text_of
    for found in re.finditer(r"match \w+ \{(?:\s*\w+::\w+(?:\(_\))? => (?:true|false),)+\s*\}", code):
        yield line_at(code, found.start()), "match to a bool"


# ---- 5


def facts(all_files):
    """Facts that three contracts or more of a crate require, and parameters that four functions or more of it take together."""
    required = collections.defaultdict(set)
    together = collections.defaultdict(set)
    for name, text in all_files:
        crate = name.split("/")[1]
        for function, start, parameters, contract, _ in functions(text):
            for clause in re.findall(r"requires \{ (.*) \}", contract):
                for fact in re.split(r" × ", clause):
                    required[crate, fact.strip("() ")].add((name, function))
            taken = [p.strip() for p in re.split(r",\s*", parameters) if ":" in p]
            for first, second in zip(taken, taken[1:]):
                together[crate, first, second].add((name, function))
    for (crate, fact), where in sorted(required.items()):
        if len(where) >= 3:
            yield f"crates/{crate}", len(where), "requires " + fact
    for (crate, first, second), where in sorted(together.items()):
        if len(where) >= 4:
            yield f"crates/{crate}", len(where), f"({first}, {second})"


# ---- 6


buffers = lines_that(
    "Arrays of a fixed length that are made to be filled in part, and functions that only make one.",
    r"\[0(?:u\d+)?; \d+\]|\bfn \w+_buffer\(",
)


# ---- 7


switches = lines_that(
    "A number or a letter that says which step to run.",
    r"\b(?:way|code|stage|asked|class) == \w[\w:]*|match letter|-> fn\(|\bdyn\b",
)


# ---- 8


answers = lines_that("Answers.", r"^pub ([\w-]+) : goal\.", in_code=False, group=1)


def repeated(all_files):
    """Answers that three or more places give word for word."""
    groups = collections.defaultdict(list)
    for name, text in all_files:
        for found in re.finditer(r"^pub ([\w-]+) : goal\.[\w-]+\n(?:unfolding [^\n]*\n)?\1 c =(.*?)(?=\n\n|\Z)", text, re.M | re.S):
            said = " ".join(found.group(2).split())
            if len(said) > 60:
                groups[name.split("/")[1], said].append((name, line_at(text, found.start())))
    for (_, said), places in groups.items():
        if len(places) >= 3:
            yield places[0][0], len(places), said[:90]


def main():
    arguments = [a for a in sys.argv[1:] if a != "-v"]
    listed = "-v" in sys.argv
    commit = arguments[0] if arguments else None
    sources = list(files(commit, r"crates/[^/]+/src/.*\.rt"))
    proofs = list(files(commit, r"crates/[^/]+/proofs/.*\.antt"))
    rules = [
        ("1", "own enums of the shape of Option or Result", own_results, sources),
        ("1", "uses of their variants", uses_of_results, sources),
        ("1", "a number for none, or a flag beside a value", sentinels, sources),
        ("1", "numbers for kinds and refusals", codes, sources),
        ("2", "bodies alike but for names and numbers", twins, sources),
        ("3", "loops that count by hand", counted, sources),
        ("4", "fields, numbers of a bool, matches to a bool by hand", by_hand, sources),
        ("5", "facts in three contracts, parameters together in four", facts, sources),
        ("6", "arrays to be filled in part, functions that make one", buffers, sources),
        ("7", "numbers and letters that say which step", switches, sources),
        ("8", "answers", answers, proofs),
        ("8", "answers given in three places or more", repeated, proofs),
    ]
    for point, words, rule, texts in rules:
        if rule in (twins, facts, repeated):
            found = list(rule(texts))
        else:
            found = [(name, line, what) for name, text in texts for line, what in rule(name, text)]
        print(f"{point}  {len(found):5}  {words}")
        if listed and rule is not answers:
            for name, line, what in found:
                print(f"            {name}:{line}: {what}")


if __name__ == "__main__":
    main()
