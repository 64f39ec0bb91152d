"""Mutants of a crate's definitions: their text, how they are printed, and how they are made."""

import re
from typing import NamedTuple

from .changes import changes
from .definitions import definitions
from .tables import LIBRARY, PRELUDE
from .tree import Types, specs

BEFORE, AFTER = 34, 24  # how many letters around a change are printed


class Mutant(NamedTuple):
    """One change of one definition. `what` is the change as it is printed, `path` the file below the repository."""

    crate: str
    definition: str
    path: str
    kind: str
    line: int
    start: int
    end: int
    new: str
    what: str
    key: str

    def applied(self, text):
        """The file's text with the change made, and what it needs brought in."""
        return _brought_in(text[:self.start] + self.new + text[self.end:], text[self.start:self.end], self.new, self.kind)


def mutants(crate, below, wanted=()):
    """The mutants of a crate's definitions, of all but statements, or of those that are wanted."""
    known, found = Types(crate, below), []
    for path in specs(crate):
        text = path.read_text()
        for definition in definitions(text, path.stem, known):
            if definition.name in wanted or not wanted and not definition.states:
                found += _of_definition(crate, definition, text, known)
    return found


def _of_definition(crate, definition, text, known):
    """The mutants of a definition, no two with the same text; a change that is printed as an earlier one is has its number after it."""
    found, made, printed = [], set(), {}
    first = definition.clauses[0].start
    for clause in definition.clauses:
        for kind, start, end, new in changes(text, clause, definition.clauses, known):
            if (result := text[:start] + new + text[end:]) in made:
                continue
            made.add(result)
            key = f"{crate}/{definition.file}/{definition.name}:{start - first}:{text[start:end]}→{new}"
            what = shown(text, start, end, new)
            printed[what] = printed.get(what, 0) + 1
            if printed[what] > 1:
                what += f" ({printed[what]})"
            path = f"crates/{crate}/specs/{definition.file}.antt"
            found.append(Mutant(crate, definition.name, path, kind, text.count("\n", 0, start) + 1, start, end, new, what, key))
    return found


def shown(text, start, end, new):
    """A change as it is printed: the line before and after, cut to what is near the change; of several lines all."""
    first, last = text.rfind("\n", 0, start) + 1, text.find("\n", end)
    old_lines, new_lines = text[first:last], text[first:start] + new + text[end:last]
    if "\n" in text[start:end]:
        return "`%s` → `%s`" % tuple(" ⏎ ".join(line.strip() for line in lines.strip().split("\n")) for lines in (old_lines, new_lines))
    one, other = old_lines.strip(), new_lines.strip()
    least, low, high = min(len(one), len(other)), 0, 0
    while low < least and one[low] == other[low]:
        low += 1
    low = max(0, low - BEFORE)
    while high < least - low and one[-1 - high] == other[-1 - high]:
        high += 1
    high = max(0, high - AFTER)
    return "`%s` → `%s`" % tuple("…" * bool(low) + line[low:len(line) - high] + "…" * bool(high) for line in (one, other))


def _brought_in(text, old, new, kind):
    """The text with the names that a change needs: a library's, or a constructor beside the one that it stands for."""
    for word in re.findall(r"[A-Za-z]\w*|&&|\|\||[-+*/%]", new):
        if word in old.split():
            continue
        if word in LIBRARY:
            text = _use(text, LIBRARY[word], PRELUDE)
        elif kind in ("alike", "errno") and old.isidentifier() and not re.search(rf"^use [^\n]*[{{ ]{word}[,}}]", text, re.M):
            beside = re.search(rf"^use (\S+)\.\{{(?:[^}}]* )?{old}[,}}]", text, re.M)
            text = _use(text, word, beside[1]) if beside else text
    return text


def _use(text, name, module):
    """The text with a name of a module in its `use` lines."""
    line = re.search(rf"^use {re.escape(module)}\.\{{([^}}]*)\}}", text, re.M)
    if not line:
        at = text.index("\nuse ") + 1
        return f"{text[:at]}use {module}.{{{name}}}\n{text[at:]}"
    if name in (each.strip() for each in line[1].split(",")):
        return text
    return f"{text[:line.end(1)]}, {name}{text[line.end(1):]}"
