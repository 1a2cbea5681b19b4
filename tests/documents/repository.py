"""What there is in the repository that a document can cite: definitions, laws, functions and their
clauses, types, constants, must-fail edits, cases of the second program, decisions, C functions."""

import os
import re
from collections import defaultdict
from dataclasses import dataclass, field
from pathlib import Path

# Directories that hold nothing of ours.
SKIPPED = {".git", "target", "out", "__pycache__"}

TYPE = re.compile(r"^(?:pub |pub\(crate\) )?(?:struct|enum) (\w+)", re.M)
CONSTANT = re.compile(r"^\s*(?:pub |pub\(crate\) )?const (\w+):", re.M)
MEMBER = re.compile(r"^    (?:pub |pub\(crate\) )?(\w+)(?:: .*|\(.*\))?,$", re.M)
FUNCTION = re.compile(r'( *)(pub |pub\(crate\) )?(?:extern "C" )?fn (\w+)')


@dataclass
class Function:
    """A function of a crate: `owner` is the type of a method."""

    crate: str
    file: str
    line: int
    owner: str
    name: str
    declared_public: bool
    public: bool = False
    clauses: set = field(default_factory=set)
    has_equation: bool = False

    @property
    def title(self):
        """As a document names it: `Format::make`, or `round`."""
        return f"{self.owner}::{self.name}" if self.owner else self.name

    @property
    def path(self):
        """Its source file."""
        return f"crates/{self.crate}/src/{self.file}"


class Repository:
    """The names of a repository, each in its place."""

    def __init__(self, root):
        self.root = Path(root)
        self.files = self.list_files()
        self.crates = sorted(path.name for path in self.root.glob("crates/*") if path.is_dir())
        self.definitions = self.by_module("specs", read_definitions)
        self.laws = self.by_module("proofs", read_laws)
        self.functions, self.types, self.constants = [], set(), set()
        self.members, self.code = set(), defaultdict(set)
        for crate in self.crates:
            self.read_code(crate)
        self.edits = {c: self.stems(f"crates/{c}/must-fail/*.edit") for c in self.crates}
        self.programs = {c for c in self.crates if f"crates/{c}/src/main.rt" in self.files}
        self.runs = self.read_runs()
        self.decisions = re.findall(r"^### (.+)$", self.text("docs/DECISIONS.md"), re.M)
        self.header = set(re.findall(r"^\w+ (slash_\w+)\(", self.text("include/slash.h"), re.M))

    def text(self, path):
        """A file's text; none where there is no such file."""
        path = self.root / path
        return path.read_text(encoding="utf-8") if path.is_file() else ""

    def lines(self, path):
        """A file's lines with their numbers."""
        return enumerate(self.text(path).split("\n"), 1)

    def stems(self, pattern):
        """The names of files, without what stands behind the point."""
        return {path.stem for path in self.root.glob(pattern)}

    def list_files(self):
        """Every file and directory, by its path from the root."""
        found = set()
        for directory, inner, files in os.walk(self.root):
            inner[:] = [name for name in inner if name not in SKIPPED]
            above = Path(directory).relative_to(self.root)
            found.update((above / name).as_posix() for name in inner + files)
        return found

    def by_module(self, part, read):
        """The names of each module of each crate's specs or proofs."""
        found = defaultdict(dict)
        for crate in self.crates:
            for path in sorted((self.root / "crates" / crate / part).glob("*.antt")):
                if path.stem != "Lib":
                    found[crate][path.stem] = read(path.read_text(encoding="utf-8"))
        return found

    def read_code(self, crate):
        """A crate's functions, types and constants."""
        lib = self.text(f"crates/{crate}/src/lib.rt")
        exported = set()
        for one, several in re.findall(r"^pub use \w+::(?:(\w+)|\{([^}]*)\});", lib, re.M):
            exported.update(re.findall(r"\w+", one or several))
        exported.update(re.findall(r"^pub (?:struct|enum) (\w+)", lib, re.M))
        for path in sorted((self.root / "crates" / crate / "src").glob("*.rt")):
            text = path.read_text(encoding="utf-8")
            self.types.update(re.findall(r"^pub (?:struct|enum) (\w+)", text, re.M))
            self.constants.update(CONSTANT.findall(text))
            self.members.update(MEMBER.findall(text))
            functions = read_functions(crate, path.name, text)
            for function in functions:
                function.public = is_public(function, exported)
            self.functions += functions
            names = [path.stem, *TYPE.findall(text), *CONSTANT.findall(text), *MEMBER.findall(text)]
            self.code[crate].update(names, (f.name for f in functions))

    def read_runs(self):
        """What a "run:" may name: a function or a table of the second program, a program, a
        stored recording."""
        found = self.programs | {path.name for path in self.root.glob("crates/night_files/data/*")}
        for path in self.root.glob("tests/second/*.py"):
            text = path.read_text(encoding="utf-8")
            found.update(re.findall(r"^def (\w+)\(", text, re.M))
            found.update(re.findall(r"^([A-Z_]+) = ", text, re.M))
        return found

    def public_functions(self):
        """The functions that callers reach."""
        return [f for f in self.functions if f.public]

    def functions_named(self, name, crate=""):
        """The public functions that a document means by a name: `Type::f`, `crate::f` or `f`."""
        owner, _, last = name.rpartition("::")
        public = [f for f in self.public_functions() if f.name == last]
        if owner in self.crates:
            return [f for f in public if f.crate == owner and not f.owner]
        return [f for f in public if f.owner == owner and crate in ("", f.crate)]

    def functions_in(self, file, name):
        """The functions of a source file, private ones too."""
        file = file.rpartition("/")[2]
        return [f for f in self.functions if f.file == file and f.name == name]


def read_definitions(text):
    """What a module of specs defines: definitions, records and their fields, data and its cases."""
    found, block = set(), None
    for line in text.split("\n"):
        head = re.match(r"(?:unfoldable |abbrev )?pub (record |data )?(\S+)", line)
        inside = re.match(r"  (pub )?(\S+) :", line)
        if head:
            found.add(head[2])
            block = head[1]
        elif inside and (block == "data " or block == "record " and inside[1]):
            found.add(inside[2])
    return found


def read_laws(text):
    """What a module of proofs makes public: laws and records; not a record's fields."""
    found, record = set(), None
    for line in text.split("\n"):
        indent = len(line) - len(line.lstrip())
        if line.strip() and record is not None and indent <= record:
            record = None
        head = re.match(r" *(?:unfoldable |abbrev )?pub (record |data )?([^\s:]+)", line)
        if head and record is None:
            found.add(head[2])
            record = indent if head[1] else None
    return found


def read_functions(crate, file, text):
    """The functions of a source file, with their clauses."""
    found, owner = [], ""
    for number, line in enumerate(text.split("\n"), 1):
        block = re.match(r"impl (?:\w+ for )?(\w+)", line)
        head = FUNCTION.match(line)
        clause = re.match(r" *ensures (\w+ )?\{", line)
        if block or line == "}":
            owner = block[1] if block else ""
        elif head:
            of = owner if head[1] else ""
            found.append(Function(crate, file, number, of, head[3], head[2] == "pub "))
        elif clause and clause[1]:
            found[-1].clauses.add(clause[1].strip())
        elif clause:
            found[-1].has_equation = True
    return found


def is_public(function, exported):
    """Whether callers reach it: a C function, or by a `pub use`, or what lib.rt has itself."""
    if not function.declared_public or function.file == "main.rt":
        return False
    if function.crate == "lekhnaom" or function.owner in exported:
        return True
    return not function.owner and (function.name in exported or function.file == "lib.rt")
