"""Counts by crate, and what is not noticed."""

from . import results
from .equivalent import entries, line
from .theory import digest, texts

COLUMNS = ("mutants", "not run", "type-checked", "by an example", "by a law", "unnoticed", "equivalent")
NOTICED = ("example", "law", "unnoticed")


def report(chosen, keep, laws):
    """Prints the table and what is wrong; the number of things that are."""
    done, listed = results.known(digest(texts()), keep), set(entries())
    rows = [(mutant, done.get(mutant.key)) for mutant in chosen]
    run = [row for _, row in rows if row]
    print(table(rows, listed))
    if laws:
        _section("Noticed by laws alone", [f"{line(row)}: {', '.join(row['laws'])}" for row in run if row["verdict"] == "law"])
    unnoticed = {line(row) for row in run if row["verdict"] == "unnoticed"}
    noticed = {line(row) for row in run} - unnoticed
    known = {line(mutant._asdict()) for mutant in chosen}
    crates = {mutant.crate for mutant in chosen}
    ours = [entry for entry in sorted(listed) if entry.split()[1] in crates]
    wrong = [
        ("Unnoticed, and not in docs/EQUIVALENT.md", sorted(unnoticed - listed)),
        ("In docs/EQUIVALENT.md, and no unnoticed mutant", [entry for entry in ours if entry in noticed or entry not in known]),
        ("The prover broke", [f"{line(row)}: {' '.join(row['laws'])}" for row in run if row["verdict"] == "broken"]),
    ]
    for title, lines in wrong:
        _section(title, lines)
    return sum(len(lines) for _, lines in wrong)


def table(rows, listed):
    """The counts by crate, in Markdown."""
    lines = [f"| Crate | {' | '.join(COLUMNS)} |", "|---" * (len(COLUMNS) + 1) + "|"]
    crates = list(dict.fromkeys(mutant.crate for mutant, _ in rows))
    for name, own in [*((crate, [pair for pair in rows if pair[0].crate == crate]) for crate in crates), ("all", rows)]:
        lines.append(f"| {name} | {' | '.join(map(str, _counts(own, listed)))} |")
    return "\n".join(lines)


def _counts(rows, listed):
    """The counts of some mutants, in the order of COLUMNS."""
    run = [row for _, row in rows if row]
    of = {verdict: [row for row in run if row["verdict"] == verdict] for verdict in NOTICED}
    equivalent = [row for row in of["unnoticed"] if line(row) in listed]
    return len(rows), len(rows) - len(run), sum(map(len, of.values())), *(len(of[verdict]) for verdict in NOTICED), len(equivalent)


def _section(title, lines):
    if lines:
        print(f"\n## {title}\n\n" + "\n".join(lines))
