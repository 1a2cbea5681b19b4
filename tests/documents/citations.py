"""What a cell of the tables cites. The forms, which CLAIMS.md and WRONG_PROGRAMS.md keep to:

    slash Formats `known`, `make_format`; convergents Rounding `held`  definitions
    slash `read_written`, RoundTrip `nan_says`                         laws (or without a module)
    slash `write_drops_the_mark`                                       must-fail edits
    `Format::make`, `slash::check`, equations; `round`, clause `best`  functions, what they promise
    in `signed.rt` `floor`                                             private functions of a file
    the types `Value`, `Parts`; the constant `LEAST_K`                 types and constants
    run: `every_word`                                                  cases, tables, programs
    DECISIONS, *Writing rounds*, *An empty line*                       decisions

A crate stays in force until the next one in the cell, a module until the next module or crate. A
semicolon parts statements: each clause, or the equation, is promised by every function of its own
statement. In WRONG_PROGRAMS.md "edit" and "theorem" tell what follows, and without a crate's name
it is of the crate in the heading.
"""

import re
from dataclasses import dataclass

LIST = r"`[^`]+`(?:(?:, | and )`[^`]+`)*"


@dataclass
class Citation:
    """A name that a document cites, and where; `statement` numbers the statements of a cell."""

    path: str
    line: int
    kind: str
    name: str
    crate: str = ""
    module: str = ""
    file: str = ""
    statement: int = 0


def names_in(text):
    """The names in backticks."""
    return re.findall(r"`([^`]+)`", text)


def is_path(name):
    """Whether a name is that of a file or a directory. (0/1 and n/d are none.)"""
    if re.match(r"\d", name):
        return False
    return bool(re.search(r"\w\w.*/|/\w\w|\.(md|rt|antt|py|txt|h|edit|rs|c|toml)$", name))


class Cells:
    """Reads cells; the crates' names tell where a place is named."""

    def __init__(self, crates):
        crate = "|".join(sorted(crates, key=len, reverse=True))
        self.token = re.compile(
            rf"(?P<run>\b[Rr]un:)|DECISIONS(?P<decision>(?:, \*[^*]+\*)+)"
            rf"|\bclauses? (?P<clause>{LIST})|\bthe types? (?P<type>{LIST})"
            rf"|\bthe constants? (?P<constant>{LIST})|(?P<equation>\bequations?\b)"
            rf"|\b(?P<mode>edit|theorem)s?\b(?= )"
            rf"|\b(?P<crate>{crate})(?: (?P<inner>[A-Z]\w*))?(?= `)|\b(?P<module>[A-Z]\w*)(?= `)"
            rf"|`(?P<name>[^`]+)`|(?P<end>;)"
        )

    def read(self, path, line, cell, default, crate=""):
        """The citations of a cell. Its plain names are of the kind `default`: a definition, a
        function, a law or an edit; or a refusal, the last column of WRONG_PROGRAMS.md."""
        found, mode, module, file, statement, heading = [], default, "", "", 0, crate
        for match in self.token.finditer(cell):
            kind, text = match.lastgroup, match.group()
            here = {"path": path, "line": line, "statement": statement}
            if kind == "end":
                statement, mode, file = statement + 1, default, ""
                crate = heading or crate
            elif kind == "run":
                mode = "run"
            elif kind == "mode" and default == "refusal":
                mode = {"edit": "edit", "theorem": "law"}[match["mode"]]
            elif kind in ("clause", "type", "constant"):
                found += [Citation(kind=kind, name=name, **here) for name in names_in(text)]
            elif kind == "decision":
                names = re.findall(r"\*([^*]+)\*", text)
                found += [Citation(kind=kind, name=name, **here) for name in names]
            elif kind == "equation" and default in ("function", "refusal"):
                found.append(Citation(kind=kind, name=text, **here))
            elif kind in ("crate", "inner"):
                crate, module = match["crate"], match["inner"] or ""
            elif kind == "module" and default != "function":
                module = match["module"]
            elif kind == "name" and is_path(match["name"]):
                found.append(Citation(kind="path", name=match["name"], **here))
                file = match["name"] if match["name"].endswith(".rt") else ""
            elif kind == "name":
                of = "definition" if mode == "refusal" else mode
                place = {"crate": crate, "module": module, "file": file}
                found.append(Citation(kind=of, name=match["name"], **place, **here))
        return found


def rows(text):
    """The rows of a document's tables, as (line, heading above, cells); headers left out."""
    heading, inside = "", False
    for number, line in enumerate(text.split("\n"), 1):
        if line.startswith("## "):
            heading = line[3:]
        if not line.startswith("|"):
            inside = False
        elif re.match(r"\|[-:| ]+\|$", line):
            inside = True
        elif inside:
            yield number, heading, [cell.strip() for cell in line.split("|")[1:-1]]
