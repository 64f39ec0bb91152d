#!/usr/bin/env python3
"""Says which files, definitions, functions, edits and pages that README.md and docs/ cite are not in the tree, and exits 1 where one is not.

Read are links, and spans in backquotes: `FILE: NAME, NAME` (or `FILE`: `NAME`), where FILE may lack its first directories; `CRATE::MODULE::NAME`; a path; an edit as
`CRATE/EDIT`; a word, which has to occur somewhere. Of a path NAME and the like stand for anything, and what is built, in out/, need not be there. The notes of
docs/changes, docs/PORT.md, docs/DESIGN-PASS.md and docs/LOOK-BACK.md speak of names of their day, and are not read. It needs Debian's python3, 3.11.
"""
import re
import sys
from functools import cache
from pathlib import Path

ROOT = Path(__file__).resolve().parent.parent
PAGES = [path for path in (ROOT / "README.md", *ROOT.glob("docs/*.md"), *ROOT.glob("docs/*/README.md")) if path.name not in ("PORT.md", "DESIGN-PASS.md", "LOOK-BACK.md")]
TREE = [path for top in ("*.*", ".ci/*", "bench/*", "crates/**/*", "docs/**/*", "tools/**/*") for path in ROOT.glob(top)
        if not {"__pycache__", "out"} & set(path.relative_to(ROOT).parts)]
TEXTS = [path for path in TREE if path.is_file() and path.suffix != ".md"]
PATHS = {re.sub(r"/must-fail(/\w+)\.edit$", r"\1", str(path)): path for path in TREE}


@cache
def words(path):
    """The words of a text, those that it only imports left out."""
    return {path.stem, *re.split(r"[\s(){}\[\],;:.`\"'|&!=<>*/#]+", re.sub(r"^(ghost )?use .*", "", path.read_text(errors="replace"), flags=re.M))}


@cache
def standing(cited):
    """What is in the tree under a path, which may lack its first directories; a word of capitals and * stand for any name."""
    shape = re.compile("/" + re.sub(r"\b[A-Z]{2,}\b(?!\\?\.)|\\\*", "[^/]*", re.escape(cited)) + "$")
    return [path for name, path in PATHS.items() if shape.search(name)]


def missing(span):
    """What a span cites and the tree has not."""
    if in_file := re.fullmatch(r"([\w./-]+\.(?:antt|rt|py)): (.+)", span):
        return [name for name in re.findall(r"[\w′⊕-]{2,}", in_file[2]) if not any(name in words(path) for path in standing(in_file[1]))]
    if re.fullmatch(r"[\w.*-]*/[\w./*-]*\w|[\w-]+\.(antt|rt|py|md|txt)", span):
        return [] if standing(span) or "out" in span.split("/") else [span]
    if re.fullmatch(r"[A-Za-z]\w*(::\w+)+", span):
        crate, *_, name = span.split("::")
        return [] if any(name in words(path) for path in standing(f"{crate}/src/*.rt") or TEXTS) else [span]
    return [span] if re.fullmatch(r"[A-Za-z][\w′-]+", span) and not any(span in words(path) for path in TEXTS) else []


wrong = []
for page in sorted(PAGES):
    text = re.sub(r"```.*?```", "", page.read_text(), flags=re.S)
    for part in re.split(r"\n(?=\s*\n|\||\s*- )", text):  # a paragraph, a row or an item of a list, on one line
        line = re.sub(r"\s*\n\s*", " ", part).replace("`: `", ": ")
        wrong += [f"{page.relative_to(ROOT)}: `{span}`: {name} is not there" for span in re.findall(r"`([^`]+)`", line) for name in missing(span)]
    wrong += [f"{page.relative_to(ROOT)}: link to {to}" for to in re.findall(r"\]\(([^)#]+)", text) if not (page.parent / to).exists()]
sys.exit("\n".join(wrong) or 0)
