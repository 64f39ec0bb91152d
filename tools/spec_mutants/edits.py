"""Edits by hand, in the form of must-fail/*.edit: `file:` below the crate, `old:` and `new:`. Each may come again, so that an edit can adapt a proof
too, in this crate or, as ../volume/proofs/F.antt, in another; ` ⏎ ` stands for the end of a line. The line that begins with `#` says what is wrong."""

import json
import posixpath
from typing import NamedTuple

from .tree import Missing


class Edit(NamedTuple):
    """The texts that an edit leaves, by their paths, and what is recorded of it."""

    changed: dict
    row: dict


def read_edit(crate, path, files):
    """An edit, made on the files of a theory."""
    title, parts = _parts(path)
    changed, definitions = {}, None
    for file, old, new in parts:
        name = posixpath.normpath(f"crates/{crate}/{file}")
        text = changed.get(name, files.get(name))
        if text is None:
            raise Missing(f"{path}: no file of the theory: {name}")
        if text.count(old) != 1:
            raise Missing(f"{path}: not once in {name}: {old}")
        changed[name] = text.replace(old, new)
        definitions = definitions or name
    key = f"edit/{crate}:{json.dumps(parts, ensure_ascii=False)}"
    return Edit(changed, {"key": key, "crate": crate, "definition": path.stem, "path": definitions, "line": 0, "kind": "edit", "what": title or path.stem})


def _parts(path):
    """The title of an edit, and its parts: file, old text and new text."""
    title, file, old, parts = "", None, None, []
    for line in path.read_text().splitlines():
        word, _, rest = line.partition(":")
        rest = rest.removeprefix(" ").replace(" ⏎ ", "\n")
        if line.startswith("#"):
            title = title or line[1:].strip()
        elif word == "file":
            file = rest.strip()
        elif word == "old" and file:
            old = rest
        elif word == "new" and old is not None:
            parts.append([file, old, rest])
            old = None
        elif line.strip():
            raise Missing(f"{path}: a line that is no file:, old: or new: in its spot: {line}")
    if not parts or old is not None:
        raise Missing(f"{path}: it wants file:, old: and new:")
    return title, parts
