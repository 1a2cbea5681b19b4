"""What must be trusted stands apart: `Steps`, in each crate's specs, serves the code and the proofs
alone; docs/THEOREM.md lists every other module of definitions, once; and nothing that is promised
rests on a `Steps`: neither a definition nor the contract of a public function uses one."""

import re
from collections import Counter

THEOREM = "docs/THEOREM.md"
INTERNAL = "Steps"
GROUP = "\n-- For the code and the proofs alone.\npub mod Steps\n"
USE = re.compile(r"^ *(?:ghost )?use Rattle\.(\w+)\.specs\.(\w+)\.\{([^}]*)\}", re.M)


class Trusted:
    """Checks which definitions a reader has to trust."""

    def __init__(self, repo, findings):
        self.repo, self.findings = repo, findings

    def check(self):
        """Every check."""
        for crate, modules in self.repo.definitions.items():
            self.check_groups(crate, modules)
            for module in set(modules) - {INTERNAL}:
                self.check_definitions(f"crates/{crate}/specs/{module}.antt")
        self.check_list()
        for path in sorted({f.path for f in self.repo.public_functions()}):
            self.check_contracts(path)

    def check_groups(self, crate, modules):
        """Lib.antt has the internal module in a group of its own."""
        path = f"crates/{crate}/specs/Lib.antt"
        text = self.repo.text(path)
        listed = re.findall(r"^pub mod (\w+)$", text, re.M)
        if sorted(listed) != sorted(modules):
            self.findings.fail(path, 1, "doesn't list the modules of specs")
        if (INTERNAL in listed) != text.endswith(GROUP):
            self.findings.fail(path, 1, f"{INTERNAL} is in no group of its own at the end")

    def check_definitions(self, path):
        """No definition uses an internal one."""
        for crate, module, names in USE.findall(self.repo.text(path)):
            if module == INTERNAL:
                self.findings.fail(path, 1, f"uses `{names}` of {crate} {INTERNAL}")

    def check_list(self):
        """The page lists every module but the internal ones, each once."""
        listed = Counter()
        for _, words in self.repo.lines(THEOREM):
            for part in re.split(r"; |\| ", words) if words.startswith("|") else ():
                found = re.fullmatch(r"(\w+) ([A-Z]\w+(?:, [A-Z]\w+)*)(?: \|)?", part.strip())
                if found and found[1] in self.repo.crates:
                    listed.update(f"{found[1]} {module}" for module in found[2].split(", "))
        trusted = {
            f"{crate} {module}"
            for crate, modules in self.repo.definitions.items()
            for module in modules
            if module != INTERNAL
        }
        self.findings.counts["module"] = len(trusted)
        for name in sorted(trusted - set(listed)):
            self.findings.fail(THEOREM, 1, f"doesn't list {name}")
        for name in sorted(set(listed) - trusted):
            self.findings.fail(THEOREM, 1, f"lists {name}, which is no module of definitions to trust")
        for name in sorted(name for name, times in listed.items() if times > 1):
            self.findings.fail(THEOREM, 1, f"lists {name} twice")

    def check_contracts(self, path):
        """No contract of a public function uses an internal definition."""
        text = self.repo.text(path)
        names = [n.strip() for _, m, ns in USE.findall(text) if m == INTERNAL for n in ns.split(",")]
        public = {f.line for f in self.repo.public_functions() if f.path == path}
        inside = False
        for number, line in enumerate(text.split("\n"), 1):
            if re.match(r" *(?:pub |pub\(crate\) )?(?:extern \"C\" )?fn ", line):
                inside = number in public
            if inside and re.match(r" *(?:ensures|requires) ", line):
                for name in names:
                    if re.search(rf"\b{name}\b", line):
                        what = f"a public contract uses `{name}` of {INTERNAL}"
                        self.findings.fail(path, number, what)
