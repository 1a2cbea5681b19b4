"""The tables of CLAIMS.md and WRONG_PROGRAMS.md: each citation of each cell is there."""

from collections import defaultdict

from citations import Cells, Citation, names_in, rows

CLAIMS, WRONG = "docs/CLAIMS.md", "docs/WRONG_PROGRAMS.md"


class Tables:
    """Checks the tables; notes which edits and functions they have."""

    def __init__(self, repo, words, findings):
        self.repo, self.words, self.findings = repo, words, findings
        self.cells = Cells(repo.crates)
        self.edits_cited, self.claimed = set(), set()
        self.programs = defaultdict(int)
        self.citations = []

    def fail(self, citation, what):
        """Notes a failure where something is cited."""
        self.findings.fail(citation.path, citation.line, what)

    # ---- the two documents

    def check_claims(self):
        """Rows of five: sentence, definition, function and clause, theorem or test, edit."""
        for line, _, cells in rows(self.repo.text(CLAIMS)):
            if len(cells) != 5:
                self.findings.fail(CLAIMS, line, f"a row has {len(cells)} cells, not 5")
                continue
            self.words.check_names(CLAIMS, line, cells[0])
            self.check_cell(self.cells.read(CLAIMS, line, cells[1], "definition"))
            functions = self.check_cell(self.cells.read(CLAIMS, line, cells[2], "function"))
            self.claimed.update((f.crate, f.title) for f in functions)
            laws = self.cells.read(CLAIMS, line, cells[3], "law")
            self.check_cell(laws)
            self.check_edits(line, cells[4], functions, any(c.kind == "law" for c in laws))

    def check_edits(self, line, cell, functions, has_law):
        """The last cell: edits; after a dash the clause, equation or theorem that refuses one."""
        edits, _, instead = cell.partition("—")
        self.check_cell(self.cells.read(CLAIMS, line, edits, "edit"))
        for citation in self.cells.read(CLAIMS, line, instead, "function"):
            if citation.kind in ("clause", "equation"):
                self.check_promise(citation, functions, any)
        if "theorem" in instead and not has_law:
            self.findings.fail(CLAIMS, line, "after the dash stands a theorem; the row cites none")

    def check_wrong_programs(self):
        """Rows of three, under a crate's name: function (or empty: the same), program, refusal."""
        functions = []
        for line, crate, cells in rows(self.repo.text(WRONG)):
            if len(cells) != 3 or crate not in self.repo.crates:
                self.findings.fail(WRONG, line, f"a row of {len(cells)} cells under {crate!r}")
                continue
            if cells[0]:
                cited = [Citation(WRONG, line, "function", n, crate) for n in names_in(cells[0])]
                functions = [f for citation in cited for f in self.named_functions(citation)]
            for function in functions:
                self.programs[function.crate, function.title] += 1
            self.words.check_names(WRONG, line, cells[1])
            self.check_cell(self.cells.read(WRONG, line, cells[2], "refusal", crate), functions)

    # ---- a cell

    def check_cell(self, citations, functions=()):
        """The citations of a cell; gives its public functions, after those that it is about."""
        self.citations += citations
        named, all_named = defaultdict(list), list(functions)
        for citation in citations:
            self.findings.counts[citation.kind] += 1
            if citation.kind == "function":
                found = self.named_functions(citation)
                named[citation.statement] += found
                all_named += [f for f in found if f.public]
            elif citation.kind not in ("clause", "equation"):
                getattr(self, "check_" + citation.kind)(citation)
        for citation in citations:
            if citation.kind in ("clause", "equation"):
                here = named[citation.statement]
                self.check_promise(citation, here or all_named, all if here else any)
        return all_named

    def check_promise(self, citation, functions, wanted):
        """A clause, or an equation (one without a name), of all or any of some functions; where
        none is named, of any."""
        if not functions and citation.kind == "clause":
            functions, wanted = self.repo.public_functions(), any
        if citation.kind == "equation":
            has, what = [f.has_equation for f in functions], "an equation"
        else:
            has = [citation.name in f.clauses for f in functions]
            what = f"a clause `{citation.name}`"
        if not functions or not wanted(has):
            lacking = [f"`{f.title}`" for f, good in zip(functions, has) if not good]
            self.fail(citation, f"{', '.join(lacking) or 'no function here'} hasn't {what}")

    def named_functions(self, citation):
        """The functions that a name means; in a source file private ones too."""
        name, crate = citation.name, citation.crate
        if citation.file:
            found = self.repo.functions_in(citation.file, name)
        else:
            found = self.repo.functions_named(name, crate)
        if not found and not (name in self.repo.crates and not crate):
            place = citation.file or crate
            self.fail(citation, f"`{name}` is no public function" + f" of {place}" * bool(place))
        if len({f.crate for f in found}) > 1:
            crates = " and of ".join(f.crate for f in found)
            self.fail(citation, f"`{name}` is a function of {crates}: name the crate")
        return found

    # ---- a name of each kind

    def check_definition(self, citation):
        """A definition stands in the module of specs that is named."""
        if citation.crate and not citation.module:
            self.fail(citation, f"`{citation.name}` is cited without its module")
        else:
            self.check_place(citation, self.repo.definitions, "specs", "definition")

    def check_law(self, citation):
        """A law is public in the crate's proofs. (Without a crate a program may be named.)"""
        if citation.crate or citation.name not in self.repo.crates:
            self.check_place(citation, self.repo.laws, "proofs", "public law")

    def check_place(self, citation, places, part, what):
        """A name in a module of a crate; where it isn't, says where it is."""
        name, crate, module = citation.name, citation.crate, citation.module
        modules = places.get(crate, {})
        if not crate:
            wrong = f"`{name}` is cited without its crate"
        elif module and module not in modules:
            wrong = f"{crate} has no module {module} in {part} (for `{name}`)"
        elif any(name in names for m, names in modules.items() if module in ("", m)):
            return
        else:
            wrong = f"`{name}` is no {what} of {crate} {module}".rstrip()
        there = [f"{c} {m}" for c in places for m, names in places[c].items() if name in names]
        self.fail(citation, wrong + (f"; it is one of {', '.join(there)}" if there else ""))

    def check_edit(self, citation):
        """A must-fail edit is a file of the crate's."""
        if citation.name in self.repo.edits.get(citation.crate, ()):
            self.edits_cited.add((citation.crate, citation.name))
        else:
            crate = citation.crate or "any crate (none is named before it)"
            self.fail(citation, f"`{citation.name}` is no must-fail edit of {crate}")

    def check_run(self, citation):
        """A case, a table, a program or a stored recording."""
        if citation.name not in self.repo.runs:
            self.fail(citation, f"run: `{citation.name}` is nothing of tests/second or a program")

    def check_decision(self, citation):
        """A decision is a heading of DECISIONS.md."""
        self.words.check_decision(citation.path, citation.line, citation.name)

    def check_type(self, citation):
        """A type is public in some crate's code."""
        if citation.name not in self.repo.types:
            self.fail(citation, f"`{citation.name}` is no public type of any crate")

    def check_constant(self, citation):
        """A constant stands in some crate's code."""
        if citation.name not in self.repo.constants:
            self.fail(citation, f"`{citation.name}` is no constant of any crate")

    def check_path(self, citation):
        """A file or directory is there."""
        if not self.words.is_there(citation.name):
            self.fail(citation, f"there is no file `{citation.name}`")
