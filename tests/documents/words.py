"""Names in backticks anywhere in a document: each is that of something in the repository."""

import fnmatch
import re
from pathlib import Path

from citations import is_path, names_in

DECISIONS = "docs/DECISIONS.md"
COMMENTED = (".rt", ".antt", ".h", ".py", ".rs", ".c", ".md")

# Names in backticks that are nothing of the repository's, and why they are good.
ALLOWED = {
    "all": "a word of the papers' listing",
    "refused": "a word of the papers' listing",
    "rt": "the toolchain's command",
    "cat": "the floor of the speed of `night`",
    "io": "a crate of the toolchain",
    "requires": "a word of the language",
    "use": "a word of the language",
    "pub": "a word of the language",
    "unfoldable": "a word of the language",
    "abbrev": "a word of the language",
    "Bool": "a type of the language",
    "Unit": "a type of the language",
    "infix": "a word of the language",
    "zero": "a number of the language",
    "tt": "a value of the language",
    "Option": "a type of the language",
    "Some": "a value of the language",
    "None": "a value of the language",
    "Ok": "a value of the language",
    "Ok(())": "a value of the language",
    "Err": "a value of the language",
    "reverse_bits": "a function of the library",
    "declared": "a word of paths of the language",
    "steps": "an argument of definitions",
}


class Words:
    """Checks names wherever they stand."""

    def __init__(self, repo, findings):
        self.repo, self.findings = repo, findings
        crate = "|".join(repo.crates)
        name = rf"`(?!(?:{crate})`)[^`]+`"
        self.of_crate = re.compile(rf"`({crate})` ({name}(?:, {name})*)")
        wrapper = [file for file in repo.files if re.match(r"wrapper/src/\w+\.rs$", file)]
        functions = r"^ *pub (?:const )?fn (\w+)"
        self.wrapped = {name for file in wrapper for name in re.findall(functions, repo.text(file), re.M)}
        self.known = self.all_names() | self.wrapped | set(ALLOWED)

    def all_names(self):
        """Every name that a document may put in backticks."""
        repo = self.repo
        found = set().union(repo.crates, repo.members, repo.runs, *repo.code.values())
        for modules in (*repo.definitions.values(), *repo.laws.values()):
            found.update(modules, *modules.values())
        found.update(*(f.clauses for f in repo.functions), *repo.edits.values())
        header = repo.text("include/slash.h")
        found.update(re.findall(r"^#define (\w+)", header, re.M))
        found.update(re.findall(r"^} (slash_\w+);", header, re.M))
        found.update(re.findall(r"^    uint64_t (\w+);", header, re.M))
        found.update(re.findall(r"^static inline [\w *]+?(slash_\w+)\(", header, re.M))
        for file in repo.files:
            found.update({Path(file).name, Path(file).stem})
            if file.endswith(".antt"):
                found.update(re.findall(r"^ *pub (\S+) :", repo.text(file), re.M))
        return found

    def check_document(self, path, tables=True):
        """The names of a document's lines, and the calls in its lines of code. A block between fences is of
        another language, and is copied, not cited."""
        fenced = False
        for line, words in self.repo.lines(path):
            if words.startswith("```"):
                fenced = not fenced
            if fenced:
                continue
            if tables or not words.startswith("|"):
                self.check_names(path, line, words)
            if words.startswith("    "):
                self.check_calls(path, line, words)

    def check_names(self, path, line, words):
        """Each name is something; behind a crate's name it is something of that crate."""
        for name in names_in(words):
            self.findings.counts["name"] += 1
            if not self.is_known(name):
                self.findings.fail(path, line, f"nothing is named `{name}`")
        for crate, names in self.of_crate.findall(words):
            for name in names_in(names):
                if not self.is_of_crate(crate, name):
                    self.findings.fail(path, line, f"`{name}` is nothing of the crate {crate}")

    def check_calls(self, path, line, words):
        """Each call is that of a function, or makes a case of an enum."""
        for name in re.findall(r"(?:\b[a-z]\w*\.)?\b([A-Za-z_][\w:]*)\(", words):
            self.findings.counts["name"] += 1
            if not self.is_known(name):
                self.findings.fail(path, line, f"nothing is named `{name}`")

    def is_known(self, name):
        """Whether something has this name; what doesn't look like a name is good."""
        if " " in name and not name.endswith(")"):
            return all(self.is_there(word) for word in name.split() if is_path(word))
        if is_path(name):
            return self.is_there(name)
        call = re.fullmatch(r"(?:[a-z]\w*\.)?([\w:]+)\(.*\)", name)
        if call:
            return self.is_known(call[1])
        if "::" in name:
            return self.is_qualified(name)
        return name in self.known or not re.fullmatch(r"[A-Za-z_][\w'′-]*", name)

    def is_qualified(self, name):
        """Whether `a::b` is a function of a crate, a type or a module, or a case of a type."""
        owner, _, last = name.rpartition("::")
        members = self.repo.members | self.repo.constants | self.wrapped
        if owner in self.repo.types and last in members:
            return True
        # A caller in Rust knows the wrapper by the name of the crate `slash`.
        if owner == "slash" and last in self.wrapped:
            return True
        of = [f for f in self.repo.functions if f.name == last]
        return any(owner in (f.crate, f.owner, f.file.removesuffix(".rt")) for f in of)

    def is_of_crate(self, crate, name):
        """Whether a name is that of a definition, a law, a function or a type of a crate."""
        modules = [self.repo.definitions[crate], self.repo.laws[crate]]
        names = [names for of in modules for names in of.values()]
        known = set().union(self.repo.edits[crate], self.repo.code[crate], *modules, *names)
        return is_path(name) or name.rpartition("::")[2] in known

    def is_there(self, name):
        """Whether a file or directory is there: by its path or the end of it, or by a pattern."""
        name, files = name.rstrip("/"), self.repo.files
        if name.startswith("target/"):
            return True  # what a command builds
        built = re.match(r"crates/(\w+)/out/", name)
        if built:
            return built[1] in self.repo.crates  # what rt builds of a crate
        if "*" in name:
            return any(fnmatch.fnmatch(file, name) for file in files)
        return name in files or any(file.endswith("/" + name) for file in files)

    # ---- decisions

    def check_decision(self, path, line, name):
        """A decision is a heading of DECISIONS.md."""
        if name not in self.repo.decisions:
            self.findings.fail(path, line, f"{DECISIONS} has no *{name}*")

    def check_decisions(self):
        """No two decisions have one name; those cited there, and in comments, are there."""
        for name in {n for n in self.repo.decisions if self.repo.decisions.count(n) > 1}:
            self.findings.fail(DECISIONS, 1, f"*{name}* is the name of several decisions")
        for line, words in self.repo.lines(DECISIONS):
            for name in re.findall(r"(?<!\*)\*([^*]+)\*(?!\*)", words):
                self.check_decision(DECISIONS, line, name)
        for path in sorted(self.repo.files):
            if path.endswith(COMMENTED) and not path.startswith("tests/documents/"):
                for line, words in self.repo.lines(path):
                    if "DECISIONS" in words:
                        self.check_cited(path, line, words)

    def check_cited(self, path, line, words):
        """The decisions that some words cite; none by a number, which they had before."""
        for names in re.findall(r"DECISIONS((?:, \*[^*]+\*)+)", words):
            for name in re.findall(r"\*([^*]+)\*", names):
                self.check_decision(path, line, name)
        for number in re.findall(r"DECISIONS (\d+)", words):
            self.findings.fail(path, line, f"DECISIONS {number}: a decision is cited by its name")
