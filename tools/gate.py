#!/usr/bin/env python3
"""Writes the table of docs/GATE.md from what the gate printed, where each must-fail edit was first refused.

    .ci/run > LOG; tools/gate.py LOG    replaces the page from its table on

What `rt must-fail` printed serves as well; LOG may be several files, of which the last line on an edit counts. It is run in the tree that the gate ran on.

The gate prints of an edit the first thing that refused it: a file, a line, and the goal or the law there. Of a function without a proof file it is the line of
its source, and the table has the function; an edit puts one line for one line, so that line is found in the file as it stands.

It stops where an edit is missing from the log, was not refused, or shows nothing: where only the names that a proof cites are gone, or where the changed
definition does not read. The head of the page is written by hand.

It needs Debian's python3, 3.11.
"""
import argparse
import re
import sys
from pathlib import Path
from typing import NamedTuple

ROOT = Path(__file__).resolve().parent.parent
PAGE = ROOT / "docs" / "GATE.md"
START = "| Edit | What it does | First at |"

TRIED = re.compile(r"^(?:rt: )?must-fail (\w+)/([\w.-]+)\.edit: (.*)", re.M)
REFUSED = "refused, as it must be"
AT_LIMIT = "(only by a limit of the prover"
# what the gate says of it: a file, a line and a column; of an error then the goal or law
FIRST = re.compile(r"(?:note: )?(?:\./)?((?:src|specs|proofs)/\S+?):(\d+):\d+: (?:error(?:\[[\w-]+\])?: (?:`([^`]+)`)?)?")
FUNCTION = re.compile(r'(\s*)(?:pub(?:\(\w+\))? )?(?:extern "C" )?fn (\w+)')
IMPL = re.compile(r"impl\b(?:<[^>]*>)? (?:.* for )?(.+?) \{")

# said of a text that is wrong by itself, so that nothing was asked of the proof
UNFIT = ("only because a proof file names", "is not in scope", "that can be named from here", "has no field", "BAD EDIT")


class Edit(NamedTuple):
    """A must-fail edit of the gate's log, and what is said of it."""

    crate: str
    name: str
    said: str

    @property
    def first(self):
        """The file, line and name of what refused it first."""
        found = FIRST.search(self.said)
        return (found[1], int(found[2]), found[3]) if found else None

    @property
    def aim(self):
        """What the edit does, by its own first line."""
        return (ROOT / "crates" / self.crate / "must-fail" / f"{self.name}.edit").read_text().splitlines()[0].lstrip("# ")

    @property
    def wrong(self):
        """Why it shows nothing, where it does not."""
        if not self.said.startswith(REFUSED):
            return self.said
        if word := next((word for word in UNFIT if word in self.said), ""):
            return word
        if not self.first:
            return "the gate does not say what refused it"
        return "the changed definition does not read" if self.first[0].startswith("specs/") else ""

    @property
    def place(self):
        """What refused it first, as it stands in the table."""
        file, line, name = self.first
        limit = ", only by a limit of the prover" if AT_LIMIT in self.said else ""
        return f"`{file}`: `{name if file.endswith('.antt') and name else declared(ROOT / 'crates' / self.crate / file, line)}`{limit}"


def declared(path, line):
    """The function that a line of a source file belongs to, a method after its type. An attribute belongs to the function below it."""
    lines = path.read_text().splitlines()
    while line < len(lines) and lines[line - 1].lstrip().startswith("#["):
        line += 1
    lines = lines[:line]
    found = [match for match in map(FUNCTION.match, lines) if match]
    if not found:
        return "?"
    types = [match[1] for match in map(IMPL.match, lines) if match]
    return f"{types[-1]}::{found[-1][2]}" if found[-1][1] and types else found[-1][2]


def edits(log):
    """All edits of the tree, by crate in the order of crates.txt. Stops where one is missing, or shows nothing."""
    crates = re.findall(r"^(\w+)[^#\n:]*:", (ROOT / "crates.txt").read_text(), re.M)
    written = [(crate, path.stem) for crate in crates for path in sorted(ROOT.glob(f"crates/{crate}/must-fail/*.edit"))]
    said = {(crate, name): said for crate, name, said in TRIED.findall(log)}
    if missing := ["/".join(each) for each in written if each not in said]:
        sys.exit(f"the log is not of a gate on this tree: it has nothing of {', '.join(missing)}")
    tried = [Edit(*each, said[each]) for each in written]
    if wrong := [f"{edit.crate}/{edit.name} shows nothing: {edit.wrong}" for edit in tried if edit.wrong]:
        sys.exit("\n".join(wrong))
    return tried


def table(tried):
    """The lines of the page's table: what each edit does, and what refused it."""
    yield from (START, "|---|---|---|")
    for edit in tried:
        aim = edit.aim.replace("|", "\\|")
        yield f"| `{edit.crate}/{edit.name}` | {aim} | {edit.place} |"


def main():
    parser = argparse.ArgumentParser(description=__doc__, formatter_class=argparse.RawDescriptionHelpFormatter)
    parser.add_argument("logs", type=Path, nargs="+", metavar="LOG", help="what the gate printed")
    asked = parser.parse_args()
    try:
        log = "\n".join(path.read_text() for path in asked.logs)
    except OSError as wrong:
        parser.error(str(wrong))
    head = re.split(r"^\| Edit \| ", PAGE.read_text(), maxsplit=1, flags=re.M)[0]
    PAGE.write_text(head + "\n".join(table(edits(log))) + "\n")


if __name__ == "__main__":
    main()
