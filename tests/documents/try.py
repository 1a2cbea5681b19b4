"""Tries the check of the documents: breaks one thing of each kind in a scratch copy, and expects a
failure that names it. Each break is made of what the documents cite today: no name stands here.

    python3 tests/documents/try.py
"""

import re
import shutil
import sys
import tempfile
from pathlib import Path

sys.dont_write_bytecode = True

from check import ARCHITECTURE, CHANGELOG, HEADER, README, REPORT, SAID_BY_NIGHT, WITHOUT_ARRAYS, Check
from tables import CLAIMS, WRONG
from trusted import INTERNAL, THEOREM

ROOT = Path(__file__).resolve().parents[2]

# Large, and nothing in them is cited.
LEFT_OUT = shutil.ignore_patterns(".git", "target", "out", "__pycache__", "stdin", "stdout")

# A name that nothing has.
NOTHING = "nothing_has_this_name"


class Scratch:
    """A copy of the repository in which things are broken and put back."""

    def __init__(self, root):
        self.root = root
        self.before = {}

    def write(self, path, text):
        """Writes a file anew; no text takes it away."""
        file = self.root / path
        old = file.read_text(encoding="utf-8") if file.exists() else None
        self.before.setdefault(path, old)
        if text is None:
            file.unlink()
        else:
            file.parent.mkdir(parents=True, exist_ok=True)
            file.write_text(text, encoding="utf-8")

    def replace(self, path, line, old, new):
        """The first `old` of a line becomes `new`."""
        lines = (self.root / path).read_text(encoding="utf-8").split("\n")
        assert old in lines[line - 1], f"{path}:{line} has no {old!r}"
        lines[line - 1] = lines[line - 1].replace(old, new, 1)
        self.write(path, "\n".join(lines))

    def put_back(self):
        """Everything as it was; a directory that was made for a file goes with it."""
        for path, text in self.before.items():
            file = self.root / path
            if text is not None:
                file.write_text(text, encoding="utf-8")
                continue
            file.unlink()
            for above in file.parents:
                if any(above.iterdir()):
                    break
                above.rmdir()
        self.before = {}


# ---- the breaks: each breaks something in the scratch copy, and gives what a failure must name


def cited(good, kind, path=CLAIMS):
    """The citations of a kind in a document, first one first."""
    return [c for c in good.tables.citations if c.kind == kind and c.path == path]


def line_with(good, path, pattern):
    """The first line of a file that has a pattern, and what it matched."""
    for number, line in good.repo.lines(path):
        match = re.search(pattern, line)
        if match:
            return number, match
    raise LookupError(f"{path} has no {pattern}")


def misspelt(kind, path=CLAIMS):
    """The first name of a kind that a document cites becomes one that nothing has."""

    def make(scratch, good):
        citation = cited(good, kind, path)[0]
        mark = "*" if kind == "decision" else "`"
        old, new = mark + citation.name + mark, mark + NOTHING + mark
        scratch.replace(path, citation.line, old, new)
        return NOTHING

    return make


def definition_of_another_crate(scratch, good):
    """A right name and module under another crate."""
    citation = cited(good, "definition")[0]
    old = f"{citation.crate} {citation.module} `{citation.name}`"
    crates = [c for c, modules in good.repo.definitions.items() if citation.module not in modules]
    scratch.replace(CLAIMS, citation.line, old, old.replace(citation.crate, crates[0], 1))
    return citation.name


def definition_of_another_module(scratch, good):
    """A right name under another module of its crate."""
    for citation in cited(good, "definition"):
        modules = good.repo.definitions[citation.crate]
        others = [m for m, names in modules.items() if citation.name not in names]
        if others:
            scratch.replace(CLAIMS, citation.line, f"{citation.module} `", f"{others[0]} `")
            return citation.name
    raise LookupError("no definition to break")


def edit_of_another_crate(scratch, good):
    """A right edit under another crate."""
    for citation in cited(good, "edit"):
        old = f"{citation.crate} `{citation.name}`"
        if old in good.repo.text(CLAIMS).split("\n")[citation.line - 1]:
            edits = good.repo.edits.items()
            crates = [c for c, names in edits if citation.name not in names]
            scratch.replace(CLAIMS, citation.line, old, f"{crates[0]} `{citation.name}`")
            return citation.name
    raise LookupError("no edit to break")


def clause_of_other_functions(scratch, good):
    """A clause that there is, but not of the functions that are named with it."""
    clauses = set().union(*(f.clauses for f in good.repo.public_functions()))
    for citation in cited(good, "clause"):
        old = f"clause `{citation.name}`"
        near = [c for c in cited(good, "function") if c.line == citation.line]
        theirs = [f.clauses for c in near for f in good.repo.functions_named(c.name)]
        others = sorted(clauses.difference(*theirs)) if theirs else []
        if others and old in good.repo.text(CLAIMS).split("\n")[citation.line - 1]:
            scratch.replace(CLAIMS, citation.line, old, f"clause `{others[0]}`")
            return others[0]
    raise LookupError("no clause to break")


def equation_of_another_function(scratch, good):
    """A function whose clauses have names is said to have an equation."""
    public = good.repo.public_functions()
    function = next(f for f in public if f.clauses and not f.has_equation)
    equation = cited(good, "equation")[0]
    here = (equation.line, equation.statement)
    near = next(c for c in cited(good, "function") if (c.line, c.statement) == here)
    scratch.replace(CLAIMS, near.line, f"`{near.name}`", f"`{function.title}`")
    return function.title


def edit_not_cited(scratch, good):
    """An edit more, which no document cites."""
    edit = cited(good, "edit")[0]
    scratch.write(f"crates/{edit.crate}/must-fail/{NOTHING}.edit", "")
    return NOTHING


def edit_gone(scratch, good):
    """An edit that is cited is taken away."""
    edit = cited(good, "edit")[0]
    scratch.write(f"crates/{edit.crate}/must-fail/{edit.name}.edit", None)
    return edit.name


def function_without_row(scratch, good):
    """A public function's row has no name any more."""
    function = next(f for f in good.repo.public_functions() if f.owner)
    line, _ = line_with(good, WRONG, rf"^\| `{function.title}` \|")
    scratch.replace(WRONG, line, f"`{function.title}`", "")
    return function.title


def function_with_one_wrong_program(scratch, good):
    """A public function's second wrong program is another's."""
    function = next(f for f in good.repo.public_functions() if f.owner)
    line, _ = line_with(good, WRONG, rf"^\| `{function.title}` \|")
    scratch.replace(WRONG, line + 1, "| |", f"| `{NOTHING}` |")
    return function.title


def function_not_claimed(scratch, good):
    """A public function more, in the code alone."""
    libraries = [f.crate for f in good.repo.public_functions() if f.crate != "lekhnaom"]
    path = f"crates/{libraries[0]}/src/lib.rt"
    scratch.write(path, good.repo.text(path) + f"\npub fn {NOTHING}() -> u64\n{{\n}}\n")
    return NOTHING


def function_of_a_group_not_claimed(scratch, good):
    """A public function more, which a `pub use` exports beside others."""
    lib = next(p for p in sorted(good.repo.files) if p.endswith("/src/lib.rt") and "::{" in good.repo.text(p))
    line, match = line_with(good, lib, r"^pub use (\w+)::\{")
    scratch.replace(lib, line, match[0], f"{match[0]}{NOTHING}, ")
    source = lib.replace("lib.rt", f"{match[1]}.rt")
    scratch.write(source, good.repo.text(source) + f"\npub fn {NOTHING}() -> u64 {{\n    0\n}}\n")
    return NOTHING


def crate_not_described(scratch, good):
    """A crate more, which no document describes."""
    scratch.write(f"crates/{NOTHING}/src/lib.rt", "")
    return NOTHING


def decision_by_number(scratch, good):
    """A decision cited as it was before."""
    scratch.replace(CLAIMS, cited(good, "decision")[0].line, "DECISIONS, ", "DECISIONS 7, ")
    return "DECISIONS 7"


def decision_of_a_decision(scratch, good):
    """A decision that another one cites by a wrong name."""
    line, match = line_with(good, "docs/DECISIONS.md", r"see \*([^*]+)\*")
    scratch.replace("docs/DECISIONS.md", line, match[0], f"see *{NOTHING}*")
    return NOTHING


def header_without_a_function(scratch, good):
    """The header declares another function in the place of one."""
    line, match = line_with(good, HEADER, r"^\w+ (slash_\w+)\(")
    scratch.replace(HEADER, line, match[1], f"slash_{NOTHING}")
    return match[1]


def number_of_the_header(scratch, good):
    """The header has another number than the code."""
    line, match = line_with(good, HEADER, r"^#define SLASH_ZERO (\d+)")
    scratch.replace(HEADER, line, match[0], f"{match[0]}0")
    return "SLASH_ZERO"


def struct_with_a_number_more(scratch, good):
    """A struct of the header has a number more than the code."""
    line, match = line_with(good, HEADER, r"^    uint64_t used;")
    scratch.replace(HEADER, line, match[0], f"{match[0]}\n    uint64_t more;")
    return "slash_piece"


def stop_in_other_words(scratch, good):
    """The header says a stop of a recording in other words than `night` does."""
    line, match = line_with(good, HEADER, rf'case {SAID_BY_NIGHT[0]}: return "(.*)";')
    scratch.replace(HEADER, line, match[1], NOTHING)
    return f"stop {SAID_BY_NIGHT[0]} as"


def stop_that_night_says_of_none(scratch, good):
    """`night` says what the header says of no stop of a recording."""
    line, match = line_with(good, REPORT, r'b"([^":]+)\\n"')
    scratch.replace(REPORT, line, match[1], NOTHING)
    return f"says `{NOTHING}`"


def version_of_another_entry(scratch, good):
    """The newest entry of the changes is of another version."""
    line, match = line_with(good, CHANGELOG, r"^## ([\d.]+),")
    scratch.replace(CHANGELOG, line, match[1], f"{match[1]}.1")
    return CHANGELOG


def name_of_another_crate(scratch, good):
    """In a document a name behind the name of another crate."""
    line, match = line_with(good, ARCHITECTURE, good.words.of_crate.pattern)
    crate = next(c for c in good.repo.crates if not good.repo.definitions[c])
    scratch.replace(ARCHITECTURE, line, f"`{match[1]}` `", f"`{crate}` `")
    return f"nothing of the crate {crate}"


def word_of_readme(scratch, good):
    """In a document a name that nothing has."""
    line, match = line_with(good, README, r"`docs/\w+\.md`")
    scratch.replace(README, line, match[0], f"{match[0]} `{NOTHING}`")
    return NOTHING


def call_of_nothing(scratch, good):
    """In a document's code a call of nothing."""
    line, match = line_with(good, ARCHITECTURE, r"^    (\w+)\(")
    scratch.replace(ARCHITECTURE, line, match[1], NOTHING)
    return NOTHING


def module_not_listed(scratch, good):
    """A module of definitions that the page on the theorem doesn't list."""
    crate = next(c for c, modules in good.repo.definitions.items() if len(modules) > 1)
    path = f"crates/{crate}/specs/Lib.antt"
    scratch.write(f"crates/{crate}/specs/{NOTHING.title()}.antt", "-- Nothing.\n")
    scratch.write(path, f"pub mod {NOTHING.title()}\n" + good.repo.text(path))
    return NOTHING.title()


def module_listed_that_is_internal(scratch, good):
    """A module for the proofs alone among those to trust."""
    number, match = line_with(good, THEOREM, r"slash Answers")
    scratch.replace(THEOREM, number, match[0], f"slash Answers, {INTERNAL}")
    return f"slash {INTERNAL}"


def definition_that_uses_a_step(scratch, good):
    """A definition to trust that rests on one for the proofs alone."""
    path = "crates/slash/specs/Numbers.antt"
    name = min(good.repo.definitions["slash"][INTERNAL])
    use = f"use Rattle.slash.specs.{INTERNAL}.{{{name}}}\n"
    scratch.write(path, use + good.repo.text(path))
    return f"`{name}` of slash {INTERNAL}"


def contract_that_uses_a_step(scratch, good):
    """A public contract in the terms of the proofs."""
    function = next(f for f in good.repo.public_functions() if f.crate == "unary" and f.clauses)
    use = f"ghost use Rattle.slash.specs.{INTERNAL}.{{{NOTHING}}};\n"
    text = good.repo.text(function.path)
    lines = text.split("\n")
    at = next(i for i in range(function.line, len(lines)) if "ensures" in lines[i])
    lines[at] = lines[at].replace("{", f"{{ {NOTHING}", 1)
    scratch.write(function.path, use + "\n".join(lines))
    return f"a public contract uses `{NOTHING}`"


def array_where_there_is_none(written, place=0):
    """An array, so written, in a source that is to have none."""

    def make(scratch, good):
        path = min(path for path in good.repo.files if path.startswith(WITHOUT_ARRAYS[place]))
        text = good.repo.text(path)
        scratch.write(path, f"{text}\nfn {NOTHING}() {{\n    {written}\n}}\n")
        return "has an array"

    return make


BREAKS = {
    "a definition misspelt": misspelt("definition"),
    "a definition under the wrong crate": definition_of_another_crate,
    "a definition under the wrong module": definition_of_another_module,
    "a definition of a wrong program misspelt": misspelt("definition", WRONG),
    "a theorem that isn't there": misspelt("law"),
    "a function that isn't there": misspelt("function"),
    "a type that isn't there": misspelt("type"),
    "a constant that isn't there": misspelt("constant"),
    "a file that isn't there": misspelt("path"),
    "a clause that the function doesn't have": clause_of_other_functions,
    "an equation that the function doesn't have": equation_of_another_function,
    "an edit misspelt": misspelt("edit"),
    "an edit of a wrong program misspelt": misspelt("edit", WRONG),
    "an edit under the wrong crate": edit_of_another_crate,
    "an edit that isn't cited": edit_not_cited,
    "an edit that is cited and isn't there": edit_gone,
    "a public function without its row": function_without_row,
    "a public function with one wrong program": function_with_one_wrong_program,
    "a public function that no claim has": function_not_claimed,
    "one of several in a `pub use` that no claim has": function_of_a_group_not_claimed,
    "a crate that no document describes": crate_not_described,
    "a decision misspelt": misspelt("decision"),
    "a decision by its number": decision_by_number,
    "a decision misspelt by another": decision_of_a_decision,
    "a header without a function": header_without_a_function,
    "a number of the header that isn't the code's": number_of_the_header,
    "a struct of the header with a number more": struct_with_a_number_more,
    "a stop in other words than the header's": stop_in_other_words,
    "words of `night` that the header hasn't": stop_that_night_says_of_none,
    "a version that isn't the newest entry's": version_of_another_entry,
    "a run misspelt": misspelt("run"),
    "a name of another crate": name_of_another_crate,
    "a word that nothing has": word_of_readme,
    "a call of nothing": call_of_nothing,
    "a module of definitions that isn't listed": module_not_listed,
    "an internal module that is listed": module_listed_that_is_internal,
    "a definition that uses an internal one": definition_that_uses_a_step,
    "a public contract that uses an internal definition": contract_that_uses_a_step,
    "an array by its length": array_where_there_is_none("let found = [0u32; 64];"),
    "an array by its elements": array_where_there_is_none("fill(&mut [0, 0]);"),
    "an array that begins a line": array_where_there_is_none("["),
    "an array on the way to C": array_where_there_is_none("let found: [u32; 64];", 1),
}


def is_reported(scratch, good, make):
    """Whether a break is told by a failure that names it, and that wasn't there before."""
    named = make(scratch, good)
    new = set(Check(scratch.root).run()) - good.findings.failures
    scratch.put_back()
    return any(named in path or named in what for path, _, what in new)


def main():
    """Tries every break."""
    with tempfile.TemporaryDirectory() as place:
        scratch = Scratch(Path(place) / "copy")
        shutil.copytree(ROOT, scratch.root, ignore=LEFT_OUT)
        good = Check(scratch.root)
        good.run()
        missed = [name for name, make in BREAKS.items() if not is_reported(scratch, good, make)]
    for name in missed:
        print(f"not reported: {name}")
    print(f"{len(BREAKS)} breaks, {len(BREAKS) - len(missed)} reported")
    sys.exit(bool(missed))


if __name__ == "__main__":
    main()
