"""The repository: its crates, and the types and signatures that are declared in them."""

import re
from functools import cache
from pathlib import Path

from .tables import TOPS

ROOT = Path(__file__).resolve().parent.parent.parent

STRUCT = re.compile(r"^(?:pub )?struct (\w+)(?: \{\n(.*?)^\}|\((.*)\);)", re.M | re.S)
ENUM = re.compile(r"^(?:pub )?enum (\w+) \{\n(.*?)^\}", re.M | re.S)
DATA = re.compile(r"^ *pub data (\w+)[^\n]*where\n((?: +[^\n]*\n)*)", re.M)
RECORD = re.compile(r"^ *pub record (\w+) : Type 0 where\n((?: +[^\n]*\n)*)", re.M)
SIGNATURE = re.compile(r"^ *(?:(?:abbrev|unfoldable) )?pub ([^\s:]+) : (.*)$", re.M)
BOUND = re.compile(r"\(([^():]+) : ([^()]+)\)")


class Missing(Exception):
    """Something that the tree should have."""


def crates(root=ROOT):
    """The crates in the order of crates.txt, each with what it is built on."""
    found = {}
    for line in (root / "crates.txt").read_text().splitlines():
        name, colon, below = line.split("#")[0].partition(":")
        if colon:
            found[name.strip()] = below.split()
    return found


def sources(crate):
    """The source files of a crate."""
    return sorted((ROOT / "crates" / crate / "src").rglob("*.rt"))


def specs(crate):
    """The files of a crate's definitions, in the order in which specs/Lib.antt names them."""
    directory = ROOT / "crates" / crate / "specs"
    if not directory.is_dir():
        return []
    return [directory / f"{name}.antt" for name in re.findall(r"\bmod (\w+)", (directory / "Lib.antt").read_text())]


def laws(crate):
    """The files of proofs/ that are no function's proof."""
    return sorted((ROOT / "crates" / crate / "proofs").glob("*.antt"))


def _has_types(crate):
    return any(STRUCT.search(text) or ENUM.search(text) for text in (path.read_text() for path in sources(crate)))


@cache
def theory_crates():
    """The crates of a theory: those of TOPS and below that have definitions or types, with what each of them is built on."""
    known = crates()
    below = {name for top in TOPS for name in [top, *known[top]]}
    kept = [name for name in known if name in below and (specs(name) or _has_types(name))]
    return {name: [other for other in known[name] if other in kept] for name in kept}


@cache
def cites(crate, other, file):
    """Whether a file of a crate cites a file of another crate's definitions. A law unfolds by name alone, so it sees no other."""
    word = f"use Rattle.{other}.specs.{file}."
    return any(word in path.read_text() for path in [*specs(crate), *laws(crate)])


def split(text, mark):
    """The parts of a text between marks that stand in no bracket."""
    parts, depth, start = [], 0, 0
    for at, letter in enumerate(text):
        depth += (letter in "({[") - (letter in ")}]")
        if depth == 0 and text.startswith(mark, at):
            parts.append(text[start:at])
            start = at + len(mark)
    return [part for part in [*parts, text[start:]] if part.strip()]


def of_code(kind):
    """The name that a type of code has in definitions."""
    array = re.fullmatch(r"\[(.*); \w+\]", kind)
    if array:
        element = of_code(array[1])
        return "Bytes" if element == "ℕ" else f"List {element}"
    return {"bool": "Bool"}.get(kind, "ℕ" if re.fullmatch(r"u\d+|usize", kind) else kind)


def alias(kind):
    """A type of a definition, with one name for lists of numbers."""
    return {"List ℕ": "Bytes"}.get(kind.strip(), kind.strip())


class Types:
    """What is declared in a crate and in those below: the fields of records, what constructors bind, and the types of definitions."""

    def __init__(self, crate, below):
        self.records, self.families, self.signatures = {}, [], {}
        self.constructors = {"suc": ["ℕ"]}
        for name in [*below, crate]:
            for path in sources(name):
                self._code(path.read_text())
            for path in specs(name):
                self._definitions(path.read_text())

    def _code(self, text):
        text = re.sub(r"^ *//[^\n]*\n", "", text, flags=re.M)
        for name, fields, tuple_of in STRUCT.findall(text):
            pairs = re.findall(r"(\w+): ([^\n]+),\n", fields) or [(str(n), kind) for n, kind in enumerate(re.findall(r"pub (\w+)", tuple_of))]
            self.records[name] = {field: of_code(kind) for field, kind in pairs}
        for name, body in ENUM.findall(text):
            self._family({each: [of_code(kind) for kind in split(kinds, ", ")] for each, kinds in re.findall(r"^    (\w+)(?:\((.*)\))?,", body, re.M)})

    def _definitions(self, text):
        for name, body in DATA.findall(text):
            self._family({each: self._bound(rest) for each, rest in re.findall(r"^ +(\w+) : (.*)$", body, re.M)})
        for name, body in RECORD.findall(text):
            self.records[name] = {field: alias(kind) for field, kind in re.findall(r"^ +pub (\S+) : (.*)$", body, re.M)}
        for name, kind in SIGNATURE.findall(text):
            self.signatures[name] = [alias(part) for part in split(kind, " → ")]

    def _family(self, constructors):
        self.constructors.update(constructors)
        self.families.append(constructors)

    @staticmethod
    def _bound(text):
        return [alias(kind) for names, kind in BOUND.findall(text) for _ in names.split()]

    def errnos(self):
        """The refusals, in the order of the enum."""
        return next((list(family) for family in self.families if "EINVAL" in family), [])

    def like_constructors(self, word):
        """The constructors that may stand where this one does: of its type, and binding the same. Refusals are a kind of change of their own."""
        for family in self.families:
            if word in family and word not in self.errnos():
                return [each for each in family if family[each] == family[word]]
        return []

    def like_fields(self, field, owner):
        """The fields that may stand where this one does: of the same record and the same type; of every record that has it, where the owner is unknown."""
        owners = [owner] if owner in self.records else [name for name in self.records if field in self.records[name]]
        alike = [[each for each, kind in self.records[name].items() if kind == self.records[name].get(field)] for name in owners]
        return [each for each in alike[0] if all(each in other for other in alike)] if alike else []
