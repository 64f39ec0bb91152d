"""The changes of a clause, by kind. Each is a kind, a start, an end and the text that is put there."""

import re

from .tables import EXCHANGES, MOST_ALIKE, PASSED

NUMBER = re.compile(r"(?<![\w.'₁₂-])(0x[0-9a-f]+|\d+)(?![\w])")
FIELD = re.compile(r"(?<=[\w')])\.([a-zA-Z]\w*)")
ENDS = "\n⇒;="  # what ends a term that stands in no bracket of its own
CONSTRUCTOR = re.compile(r"(?<![\w.'-])[A-Za-z]\w*(?![\w'₁₂-])")


class Spot:
    """A clause in its file: the text, and the code alone, with spaces for comments; and all clauses of the definition."""

    def __init__(self, text, clause, clauses, known):
        self.text, self.clause, self.clauses, self.known = text, clause, clauses, known
        self.code = re.sub(r"--[^\n]*", lambda found: " " * len(found[0]), text[:clause.end])

    def find(self, pattern):
        """The matches within the clause; what stands before it can be looked at."""
        return re.compile(pattern).finditer(self.code, self.clause.start, self.clause.end)


def changes(text, clause, clauses, known):
    """All changes of one of a definition's clauses, without those that change nothing."""
    spot = Spot(text, clause, clauses, known)
    for kind in (numbers, exchanges, operands, negations, branches, refusals, constructors, fields, variables, other_clause, table_lines):
        for name, start, end, new in kind(spot):
            if text[start:end] != new:
                yield name, start, end, new


def numbers(spot):
    """A number one higher or lower; not the number by which a field is named."""
    for found in spot.find(NUMBER):
        named = re.match(r"\s*=[^=]", spot.code[found.end():]) and re.search(r"[{;]\s*$", spot.code[:found.start()])
        if not named:
            value = int(found[0], 0)
            yield from (("number", *found.span(), str(other)) for other in (value + 1, value - 1) if other >= 0)


def exchanges(spot):
    """Words and operators for their like."""
    for kind, pairs in EXCHANGES.items():
        for old, new in pairs:
            word = rf"(?<![\w.-]){old}(?![\w-])" if old.isalpha() else rf"(?<= ){re.escape(old)}(?= )"
            yield from ((kind, *found.span(), new) for found in spot.find(word))


def operands(spot):
    """What stands left or right of `&&` or `||`, within its bracket, alone."""
    for found in spot.find(r"(?<= )(&&|\|\|)(?= )"):
        start, end = bracket(spot.text, found.start(), spot.clause)
        yield "operand", start, end, spot.text[start:found.start()].strip()
        yield "operand", start, end, spot.text[found.end():end].strip()


def bracket(text, at, clause):
    """The inside of the innermost bracket around a position; in a table's line the test, in a record's field the value."""
    start, end = at, at
    while start > clause.start and text[start - 1] not in "({" + ENDS:
        start = _over(text, start - 1, ")}", "({", -1)
    while end < clause.end and text[end] not in ")}" + ENDS:
        end = _over(text, end, "({", ")}", 1)
    inside = text[start:end]
    return start + len(inside) - len(inside.lstrip()), end - len(inside) + len(inside.rstrip())


def _over(text, at, opening, closing, step):
    """The position after a letter, or after the whole bracket that it opens; in the direction of step."""
    depth = 0
    while True:
        depth += (text[at] in opening) - (text[at] in closing)
        if depth == 0:
            return at + (step if step > 0 else 0)
        at += step


def negations(spot):
    """A test without its `not`."""
    yield from (("not", *found.span(), "") for found in spot.find(r"(?<![\w.-])not (?=\()"))


def branches(spot):
    """The two branches of a `cond` exchanged."""
    for found in spot.find(r"(?<![\w.-])cond "):
        at, arguments = found.end(), []
        while len(arguments) < 3 and at < spot.clause.end:
            end = argument(spot.text, at)
            arguments.append((at, end))
            at = end + len(spot.code[end:]) - len(spot.code[end:].lstrip())
        if len(arguments) == 3:
            (_, _), (a, b), (c, d) = arguments
            yield "branches", a, d, spot.text[c:d] + spot.text[b:c] + spot.text[a:b]


def argument(text, at):
    """The end of the argument that starts at a position."""
    if text[at] == "(":
        return _over(text, at, "(", ")", 1)
    return re.compile(r"[^\s();{}]+").match(text, at).end()


def refusals(spot):
    """A refusal for the next one of the enum."""
    every = spot.known.errnos()
    for found in spot.find(r"\b[A-Z]+\b"):
        if found[0] in every:
            yield "errno", *found.span(), every[(every.index(found[0]) + 1) % len(every)]


def constructors(spot):
    """A constructor for another of its type that binds the same."""
    for found in spot.find(CONSTRUCTOR):
        if found[0] not in spot.clause.variables:
            yield from (("alike", *found.span(), other) for other in others(found[0], spot.known.like_constructors(found[0])))


def others(word, alike):
    """What a word is exchanged for: all that are alike, or the next of many."""
    if word not in alike:
        return []
    if len(alike) > MOST_ALIKE:
        return [alike[(alike.index(word) + 1) % len(alike)]]
    return [other for other in alike if other != word]


def fields(spot):
    """A field for another of the same record and type."""
    for found in spot.find(FIELD):
        for other in others(found[1], spot.known.like_fields(found[1], owner(spot, found.start()))):
            yield "alike", *found.span(), "." + other


def owner(spot, at):
    """The type of what a field is taken of, where it is a variable, or a field of one; else nothing."""
    chain = re.search(r"(?:^|[\s(])([^\s().]+)((?:\.\w+)*)$", spot.code[:at])
    if not chain:
        return None
    kind = spot.clause.variables.get(chain[1])
    for field in re.findall(r"\.(\w+)", chain[2]):
        kind = spot.known.records.get(kind, {}).get(field)
    return kind


def variables(spot):
    """A variable for another of the same type; not the name of a field that is given a value."""
    known = spot.clause.variables
    for old, new in ((old, new) for old in known for new in known if old != new and known[old] == known[new]):
        for found in spot.find(rf"(?<![\w.'-]){re.escape(old)}(?![\w'₁₂-])"):
            bound = re.match(r"\s*(:|=[^=])", spot.code[found.end():])
            if not bound:
                yield "variable", *found.span(), new


def other_clause(spot):
    """The right-hand side of the next clause whose variables this one has too."""
    here = spot.clauses.index(spot.clause)
    own = spot.text[spot.clause.start:spot.clause.end]
    for other in [*spot.clauses[here + 1:], *spot.clauses[:here]]:
        body = spot.text[other.start:other.end]
        used = [(name, kind) for name, kind in other.variables.items() if re.search(rf"(?<![\w.'-]){re.escape(name)}(?![\w'₁₂-])", body)]
        if body.strip() != own.strip() and all(spot.clause.variables.get(name) == kind for name, kind in used):
            space = " " * (own.startswith("\n") and not body.startswith("\n"))
            yield "clause", spot.clause.start, spot.clause.end, space + body
            return


def table_lines(spot):
    """Two lines of a table exchanged, and one line left out."""
    table = next(spot.find(r"\bdo *\n"), None)
    if not table:
        return
    rows, at = [], table.end()
    for line in spot.text[at:spot.clause.end].split("\n"):
        rows.append((at, at + len(line)))
        at += len(line) + 1
    for (a, b), (c, d) in zip(rows, rows[1:]):
        if spot.text[c:d].strip() != PASSED:
            yield "swap-lines", a, d, spot.text[c:d] + "\n" + spot.text[a:b]
        yield "delete-line", a, c, ""
    a, b = rows[-1]
    if spot.text[a:b].strip() != PASSED:
        indent = len(spot.text[a:b]) - len(spot.text[a:b].lstrip())
        yield "delete-line", a, b, " " * indent + PASSED
