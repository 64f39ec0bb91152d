"""docs/EQUIVALENT.md: mutants that nothing notices and that are no error.

A section has a reason, in words, and below it the mutants that it holds of, each as the tool prints it: "- CRATE `DEFINITION`: `old` → `new`".
"""

import re

from .tree import ROOT, Missing

PAGE = ROOT / "docs" / "EQUIVALENT.md"
ENTRY = re.compile(r"- (\w+) `([^`]+)`: (`.*)")


def line(row):
    """A mutant as it stands in the list."""
    return f"- {row['crate']} `{row['definition']}`: {row['what']}"


def entries():
    """The lines of the list."""
    found, reason = [], False
    for text in PAGE.read_text().splitlines() if PAGE.exists() else []:
        if text.startswith("#"):
            reason = False
        elif ENTRY.fullmatch(text):
            if not reason:
                raise Missing(f"docs/EQUIVALENT.md: no reason stands above {text}")
            found.append(text)
        elif text.startswith("- "):
            raise Missing(f"docs/EQUIVALENT.md: no entry: {text}")
        elif text.strip():
            reason = True
    return found
