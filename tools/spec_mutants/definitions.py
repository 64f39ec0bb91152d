"""The definitions of a file of specs/: their clauses, and the types of the variables of each."""

import re
from typing import NamedTuple

from .tables import ALIASES, LIBRARY_CONSTRUCTORS, LIBRARY_TYPES, STATEMENT_FILES, STATEMENTS
from .tree import alias, split

HEAD = re.compile(r"( *)(?:(?:abbrev|unfoldable) )?pub ([^\s:]+) : (.*)$")
RECORD = re.compile(r"( *)pub record (\S+) ")
LET = re.compile(r"\blet (\S+) (?:: (\S+) )?= (\S+)")


class Clause(NamedTuple):
    """A right-hand side: where it stands in the file's text, and the types of its variables, as far as they are seen."""

    start: int
    end: int
    variables: dict


class Definition(NamedTuple):
    """A definition of a file, with its clauses."""

    name: str
    file: str
    types: list
    clauses: list

    @property
    def states(self):
        """Whether it is a statement or a part of one: its value is a type."""
        return self.name in STATEMENTS or self.file in STATEMENT_FILES or not self.types or self.types[-1].startswith("Type ")


class Lines:
    """The lines of a text, with their spots in it."""

    def __init__(self, text):
        self.text, self.lines, self.starts = text, text.split("\n"), [0]
        for line in self.lines:
            self.starts.append(self.starts[-1] + len(line) + 1)

    def indent(self, n):
        """How far a line is indented; an empty line and a comment not at all."""
        line = self.lines[n]
        return 0 if not line.strip() or line.lstrip().startswith("--") else len(line) - len(line.lstrip())

    def end(self, n):
        """Where a line ends."""
        return self.starts[n] + len(self.lines[n])


def definitions(text, file, known):
    """The definitions of a file in their order; `known` is what Types has of the crate."""
    lines, found, n = Lines(text), [], 0
    while n < len(lines.lines):
        head, record = HEAD.match(lines.lines[n]), RECORD.match(lines.lines[n])
        if record:
            found.append(Definition(record[2], file, [], _fields(lines, n, len(record[1]))))
        elif head:
            types = [alias(part) for part in split(head[3], " → ") if not part.strip().startswith("{")]
            found.append(Definition(head[2], file, types, _clauses(lines, n, head, types, known)))
        n += 1
    return [each for each in found if each.clauses]


def _fields(lines, n, indent):
    """The types of a record's fields, as clauses without variables."""
    found, n = [], n + 1
    while n < len(lines.lines) and lines.indent(n) > indent or n < len(lines.lines) and lines.lines[n].lstrip().startswith("--"):
        at = lines.lines[n].find(" : ")
        if at >= 0 and lines.lines[n].lstrip().startswith("pub "):
            found.append(Clause(lines.starts[n] + at + 3, lines.end(n), {}))
        n += 1
    return found


def _clauses(lines, n, head, types, known):
    """The clauses that follow a signature: lines of the same indentation, each with the lines that are indented further."""
    found, name, indent, n = [], head[2], len(head[1]), n + 1
    operator = f" {name.strip('◌')} " if name.startswith("◌") else None
    while n < len(lines.lines):
        line = lines.lines[n]
        if line.strip().startswith("--"):
            n += 1
            continue
        at = (line + " ").find(" = ")
        begins = line[indent:].startswith(name + " ") or operator and operator in line[:at]
        if at < 0 or lines.indent(n) != indent or not begins:
            break
        last = n
        while last + 1 < len(lines.lines) and lines.indent(last + 1) > indent:
            last += 1
        start = min(lines.starts[n] + at + 3, lines.end(n))
        left, body = line[indent:at], lines.text[start:lines.end(last)]
        found.append(Clause(start, lines.end(last), _variables(_patterns(name, left), types, body, known)))
        n = last + 1
    return found


def _patterns(name, left):
    """The patterns on the left of a clause, of a prefix name or of an operator."""
    if left.startswith(name + " ") or left == name:
        return split(left[len(name):].strip(), " ")
    return [part for part in split(left, " ") if part != name.strip("◌")]


def _variables(patterns, types, body, known):
    """The types of the variables that a clause binds, by its patterns and by `let`."""
    found = {}
    for pattern, kind in zip(patterns, types):
        _bind(pattern, kind, known, found)
    for name, kind, function in LET.findall(body):
        signature = known.signatures.get(function)
        if kind or signature:
            found[name] = alias(kind) if kind else signature[-1]
    return {name: kind for name, kind in found.items() if name != "_"}


def _bind(pattern, kind, known, found):
    """Adds the variables of a pattern of this type."""
    if not pattern.startswith("("):
        if pattern not in known.constructors and pattern not in LIBRARY_CONSTRUCTORS:
            found[pattern] = kind
        return
    inner = pattern[1:-1]
    cells = split(inner, " ∷ ")
    if len(cells) > 1:
        element = {"Bytes": "ℕ"}.get(kind, kind.removeprefix("List "))
        for cell in cells[:-1]:
            _bind(cell, element, known, found)
        _bind(cells[-1], kind, known, found)
        return
    word, *rest = split(inner, " ")
    for part, each in zip(rest, known.constructors.get(word) or _of_library(word, kind)):
        _bind(part, each, known, found)


def _of_library(word, kind):
    """What a constructor of a library's type binds."""
    name, *parameters = split(ALIASES.get(kind, kind), " ")
    return [parameters[at] for at in LIBRARY_TYPES.get(name, {}).get(word, []) if at < len(parameters)]
