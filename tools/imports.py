"""What the crates of this repository import: their lines of crates.txt, their files, and for each import the module that it leads to.

A file `specs/Passed.antt` or `proofs/Passed.antt` hands modules of lower crates on: each of its lines gives one of them a name. An import of
such a name is resolved here to the module itself.
"""
import pathlib
import re

ROOT = pathlib.Path(__file__).resolve().parent.parent
KINDS = ("specs", "proofs")
HANDED = re.compile(r"^pub use (Rattle\.\S+) as (\w+)$", re.M)
IMPORT = re.compile(r"\bRattle\.(\w+)\.(specs|proofs)\.([\w.+-]*[\w+-])")
COMMENT = re.compile(r"//.*")
STATEMENT = re.compile(r"^(\s*(?:pub )?(?:ghost )?use )(Rattle\.[\w.+-]*[\w+-])(?=\.\{| as |;|$)", re.M)


def lines_of_crates():
    return (ROOT / "crates.txt").read_text(encoding="utf-8").split("\n")


def head_and_names(line):
    """The part of a line before its colon, and the names after it; None for a comment or an empty line."""
    head, colon, rest = line.split("#")[0].partition(":")
    return (head, rest.split()) if colon and head.strip() else None


class Crates:
    """The crates in the order of crates.txt, the names of each line, and the texts of their files."""

    def __init__(self):
        rows = [row for row in map(head_and_names, lines_of_crates()) if row]
        self.line = {head.split()[0]: names for head, names in rows}
        self.names = [*self.line]
        self.texts = {name: dict(self.files(name)) for name in self.names}
        self.handed = {
            f"Rattle.{name}.{path.parent.name}.Passed.{alias}": module
            for name in self.names
            for path, text in self.texts[name].items()
            if path.name == "Passed.antt"
            for module, alias in HANDED.findall(text)
        }

    @staticmethod
    def files(name):
        for part in ("src", *KINDS):
            for path in sorted((ROOT / "crates" / name / part).rglob("*")):
                if path.suffix in (".rt", ".antt"):
                    yield path, path.read_text(encoding="utf-8")

    def resolved(self, path):
        """The module that a path leads to, through all files that hand it on."""
        while True:
            parts = path.split(".")
            module = self.handed.get(".".join(parts[:5]))
            if module is None:
                return path
            path = ".".join([module, *parts[5:]])

    def uses(self, name):
        """The crates that a crate uses, each with how: in `code`, by imports of `specs` or of `proofs`, or `whole` if a name is written out inside of a
        definition. What it hands on for others does not count."""
        found = {}
        for path, text in self.texts[name].items():
            if path.name == "Passed.antt":
                continue
            for match in IMPORT.finditer(text):
                below, kind = self.resolved(match[0]).split(".")[1:3]
                found.setdefault(below, set()).add(kind)
            for match in IMPORT.finditer(STATEMENT.sub("", text)):
                found.setdefault(match[1], set()).add("whole")
            if path.suffix == ".rt":
                for below in set(re.findall(r"(?<![\w:.`])([a-z]\w*)::[\w{*]", COMMENT.sub("", text))):
                    found.setdefault(below, set()).add("code")
        return {below: kinds for below, kinds in found.items() if below in self.line and below != name}
