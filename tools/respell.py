#!/usr/bin/env python3
"""Brings the repository's own definitions and lemmas to snake case: run once, at the top, right after the kit's port.py.

usage: tools/respell.py [--check], and then rt fmt in each crate

A name turns if a file of specs/ or proofs/ declares it (a definition, a lemma, a field, a constructor, a local name), and if it has a dash or a capital inside
a word: `paddedLength` becomes `padded_length`, `length-padded` becomes `length_padded`. Types, modules and names that hold a type's stay. What turns: the code of
.antt files and the code spans of their comments; in .rt files the clauses, the `ghost use` items, and camel case in code spans of comments; in must-fail edits the
lines of text. Functions of src/, exported names, strings, inputs and outputs stay. A name with a dash that would fall together with a definition's ends in `_lem`.
Other names that fall together in one file are listed, and nothing is written then. --check only lists.
"""

import os
import re
import sys

TOKEN = re.compile(r'[^\s(){}.;,@"«»`]+')
DECLARED = re.compile(r"^\s*((?:(?:abbrev|unfoldable|pub|let|opaque) )*)((?:[^\s(){}.;,@\"«»`:]+ )+): ")
MADE = re.compile(r": (?:tie|goal)\.|-spec$")
CLAUSE = re.compile(r"(?:requires|ensures|ghost)\s*\*?\s*(?:\w+\s*)?(?::\s*)?\{")

# a lemma that would have the name of what it is about ends so
LEMMA = "_lem"
# names of the kit's that a lemma here bears too
KEEP = {"not-false", "eqb-true"}
# a lemma that port.py gave such a name already
FIRST = {"crates/volume/proofs/Bytewise.antt": {"no_key": "no_key" + LEMMA}}


def files(root, ends):
    for folder, dirs, names in os.walk(os.path.join(root, "crates")):
        dirs[:] = sorted(d for d in dirs if d != "out")
        for name in sorted(names):
            if name.endswith(ends):
                yield os.path.join(folder, name)


def read(path):
    with open(path, encoding="utf-8") as f:
        return f.read()


def is_turned(name):
    parts = name.split("-")
    if not all(parts) or len(name) < 3:
        return False
    if any(not re.match(r"[a-z]", p) for p in parts[:1]) or any(re.match(r"[A-Z]", p) for p in parts):
        return False
    return len(parts) > 1 or bool(re.search(r"[a-z0-9][A-Z]", name))


def snake(name):
    words = re.sub(r"(?<=[a-z0-9])(?=[A-Z])|(?<=[A-Z])(?=[A-Z][a-z])", "_", name)
    return re.sub("[A-Z]", lambda m: m.group(0).lower(), words.replace("-", "_"))


def declared(root):
    names, plain = set(), set()
    for path in files(root, ".antt"):
        own = os.path.basename(path) == "Proof.antt"
        for line in read(path).splitlines():
            if line.lstrip().startswith("--"):
                continue
            m = DECLARED.match(line)
            if m and not (own and (MADE.search(line) or re.match(r"pub \S+-spec :", line))):
                found = m.group(2).split()
                names.update(n for n in found if is_turned(n) and n not in KEEP)
                plain.update(n for n in found if not is_turned(n))
    taken = plain | {snake(n) for n in names if "-" not in n}
    return {n: snake(n) + (LEMMA if "-" in n and snake(n) in taken else "") for n in names}


def turn_code(text, table, steps=False):
    """With `steps`, a name with a dash behind a dot is a step of a function's, and ends as its source's does."""

    def turn(m):
        name = m.group(0)
        if name not in table:
            return name
        return snake(name) if steps and "-" in name and m.start() and text[m.start() - 1] == "." else table[name]

    return TOKEN.sub(turn, text)


def turn_spans(text, table):
    return re.sub(r"`[^`\n]*`", lambda m: turn_code(m.group(0), table), text)


def turn_antt(text, table, steps=False):
    out = []
    for line in text.split("\n"):
        code, dashes, comment = line, "", ""
        m = re.search(r"(?:^|(?<=\s))--(?=\s|$)", line)
        if m:
            code, dashes, comment = line[: m.start()], "--", line[m.end() :]
        out.append(turn_code(code, table, steps) + dashes + turn_spans(comment, table))
    return "\n".join(out)


def clauses(text):
    """The spans of a .rt file that are clauses or `ghost use` items."""
    for m in re.finditer(r"(?m)^\s*ghost use [^;]*;", text):
        yield m.start(), m.end()
    for m in CLAUSE.finditer(text):
        depth, i = 1, m.end()
        while i < len(text) and depth:
            depth += {"{": 1, "}": -1}.get(text[i], 0)
            i += 1
        yield m.start(), i


def turn_rt(text, table):
    camel = {k: v for k, v in table.items() if "-" not in k}
    spans, out, at = sorted(clauses(text)), [], 0
    for a, b in spans:
        if a < at:
            continue
        out += [text[at:a], turn_code(text[a:b], table)]
        at = b
    out.append(text[at:])
    return re.sub(r"(?m)//.*$", lambda m: turn_spans(m.group(0), camel), "".join(out))


def turn_edit(text, table):
    camel = {k: v for k, v in table.items() if "-" not in k}
    antt, out = True, []
    for line in text.split("\n"):
        if line.startswith("file: "):
            antt = line.rstrip().endswith(".antt")
        if line.startswith(("old: ", "new: ")):
            line = line[:5] + turn_code(line[5:], table if antt else camel)
        out.append(line)
    return "\n".join(out)


def together(path, text, table):
    """Names of a file that are two before and one after."""
    if path.endswith(".rt"):
        text = "\n".join(text[a:b] for a, b in clauses(text))
    else:
        text = re.sub(r"(?m)(?:^|(?<=\s))--(?=\s|$).*$", "", text)
    seen = {}
    for name in set(TOKEN.findall(text)):
        seen.setdefault(table.get(name, name), set()).add(name)
    return [sorted(names) for new, names in sorted(seen.items()) if len(names) > 1]


def main(argv):
    for path, names in FIRST.items():
        text = turn_code(read(path), names)
        with open(path, "w", encoding="utf-8") as f:
            f.write(text)
    table = declared(".")
    fallen = 0
    for path in files(".", (".antt", ".rt")):
        if os.path.basename(path) == "Proof.antt":
            continue
        for names in together(path, read(path), table):
            print(f"together: {path}: {' '.join(names)}")
            fallen += 1
    print(f"{len(table)} names turn, {fallen} fall together")
    if fallen or argv:
        return fallen > 0
    for path in files(".", (".antt", ".rt", ".edit")):
        text = read(path)
        if path.endswith(".antt"):
            new = turn_antt(text, table, os.path.basename(path) == "Proof.antt")
        else:
            new = (turn_rt if path.endswith(".rt") else turn_edit)(text, table)
        if new != text:
            with open(path, "w", encoding="utf-8") as f:
                f.write(new)
    return 0


if __name__ == "__main__":
    raise SystemExit(main(sys.argv[1:]))
