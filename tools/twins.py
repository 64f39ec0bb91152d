#!/usr/bin/env python3
"""Functions of crates/*/src whose bodies are the same but for names, types, sizes and constants: twins to look at.

    tools/twins.py [COMMIT] [--least N]     of a commit, or of the files as they stand; bodies of N tokens or more (default 14)
"""
import re, subprocess, sys, pathlib

def sources(commit):
    if commit:
        names = subprocess.run(["git", "ls-tree", "-r", "--name-only", commit, "crates"], capture_output=True, text=True, check=True).stdout.split()
        for name in names:
            if "/src/" in name and name.endswith(".rt"):
                yield name, subprocess.run(["git", "show", f"{commit}:{name}"], capture_output=True, text=True, check=True).stdout
    else:
        for path in sorted(pathlib.Path("crates").glob("*/src/**/*.rt")):
            yield str(path), path.read_text()

HEAD = re.compile(r"^( *)(?:pub(?:\(crate\))? )?(?:const |final )*fn (\w+)", re.M)

def functions(text):
    """Each function's name, and its text from the opening brace of its body to the closing one."""
    text = re.sub(r"//.*", "", text)
    for head in HEAD.finditer(text):
        indent = head.group(1)
        body = re.compile(rf"(?:^{indent}\{{| \{{)\n(.*?)^{indent}\}}", re.M | re.S).search(text, head.end())
        next_head = HEAD.search(text, head.end())
        if body and not (next_head and next_head.start() < body.start()):
            yield head.group(2), body.group(1)

def skeleton(body):
    """The body with its names numbered by first use, and its literals made one."""
    seen, out = {}, []
    for token in re.findall(r'b?"(?:[^"\\]|\\.)*"|b\'(?:[^\'\\]|\\.)+\'|\w+|[^\s\w]', body):
        if token in ("let", "mut", "if", "else", "while", "return", "match", "loop", "for", "in", "as", "break"):
            out.append(token)
        elif re.match(r"b?[\"']|\d", token):
            out.append("#")
        elif re.match(r"\w", token):
            out.append(str(seen.setdefault(token, len(seen))))
        elif token not in ",":
            out.append(token)
    return out

def main():
    least, commit = 14, None
    args = sys.argv[1:]
    if "--least" in args:
        at = args.index("--least"); least = int(args[at + 1]); del args[at:at + 2]
    if args:
        commit = args[0]
    groups = {}
    for name, text in sources(commit):
        for function, body in functions(text):
            form = skeleton(body)
            if len(form) >= least:
                groups.setdefault(" ".join(form), []).append(f"{name.split('/')[1]}::{name.split('/src/')[1][:-3]}::{function}")
    twins = sorted((g for g in groups.values() if len(g) > 1), key=lambda g: g[0])
    for group in twins:
        print(len(group), " ".join(group))
    print(f"{sum(len(g) for g in twins)} functions in {len(twins)} groups")

main()
