#!/usr/bin/env python3
"""Counts the places in crates/*/src that docs/DESIGN-PASS.md is about, of a commit or of the files as they stand.

    tools/forms.py [COMMIT] [--list]    one line a pattern: its point, how many places, what they are; --list prints the places too
"""
import re
import subprocess
import sys

# point, what, pattern over the lines of crates/*/src (comments are left out, but where the pattern is of a comment)
PATTERNS = [
    (1, "own enums shaped as Option or Result, by a variant", r"^    (Fine|Refused\(Errno\)|Not|Unknown|Nothing|Nowhere),"),
    (1, "a flag with values beside it", r"^    (pub )?(checked|good|ended|fits|encrypted|done): "),
    (1, "a search that answers the number of slots", r"// .*or the number of slots"),
    (1, "numbers for kinds and refusals", r"kind: u(8|64)|errno: u8|^pub const (FREE|DIRECTORY|REGULAR|SYMLINK|SPECIAL)|fn number_of"),
    (1, "a refusal handed on by a match", r"(Checked::Refused\(e\)|Err\(e\)) => (\{|return|Changed|[A-Z]\w+::Refused|Err|[A-Z]\w+ \{)"),
    (3, "loops that are no for", r"^ *(let \w+ = )?(while|loop)\b"),
    (4, "equality, order, copying, conversion and printing by hand", r"fn (same_bytes|same_name|same_policy|copy_to|copy_name|clear|number_of|wide|count|least|at_least_16|byte|hex_digit|high_digit|low_digit|hex_value|hex_byte|is_digit|is_within|low_word|zero_word|zero_block|zeros\d+|no_policy|no_context|no_entry|no_inode|no_key|no_args|read_policy|read_context|policy_bytes|context_bytes|descriptor_at|nonce_at|descriptor_in|nonce_in|policy_at|put_fields|add_word|add_round_key|master_key|\w*room)\b"),
    (4, "numbers of inodes and entries compared by their field", r"\.0 [=!]= "),
    (6, "a length beside a buffer", r"^    (pub )?(len|used): "),
    (7, "an enum that says which function to call", r"enum (TextCall|BlockCall|PolicyCall|NameCall|Request|Verb|Sort)\b"),
]


def git(*args):
    return subprocess.run(["git", *args], capture_output=True, text=True, check=False).stdout


def lines(commit):
    names = git("ls-tree", "-r", "--name-only", commit, "crates") if commit else git("ls-files", "--cached", "--others", "--exclude-standard", "crates")
    for name in names.split():
        if "/src/" in name and name.endswith(".rt"):
            text = git("show", f"{commit}:{name}") if commit else open(name).read()
            for number, line in enumerate(text.split("\n"), 1):
                yield name, number, line


def clauses(all_lines):
    """How often each single fact stands in a `requires`."""
    counts = {}
    for _, _, line in all_lines:
        found = re.match(r"\s+requires\s+\w*\s*\{ (.*) \}$", line)
        for fact in re.split(" × ", found.group(1)) if found else []:
            fact = fact.strip()
            while fact.startswith("(") and fact.endswith(")"):
                fact = fact[1:-1]
            counts[fact] = counts.get(fact, 0) + 1
    return sorted(((n, fact) for fact, n in counts.items() if n >= 3), reverse=True)


def main():
    args = [a for a in sys.argv[1:] if a != "--list"]
    commit = args[0] if args else None
    everything = list(lines(commit))
    for point, what, pattern in PATTERNS:
        hits = [h for h in everything if re.search(pattern, h[2]) and (pattern.startswith("//") or not h[2].lstrip().startswith("//"))]
        print(f"{point}  {len(hits):3}  {what}")
        if "--list" in sys.argv:
            for name, number, line in hits:
                print(f"          {name.removeprefix('crates/')}:{number}: {line.strip()}")
    repeated = clauses(everything)
    print(f"5  {len(repeated):3}  facts that stand in the `requires` of three functions or more, {sum(n for n, _ in repeated)} times in all")
    if "--list" in sys.argv:
        for n, fact in repeated:
            print(f"          {n:3} {fact}")


main()
