#!/usr/bin/env python3
"""Wrong definitions, one change each, and which of them a law, a theorem or a computed example notices.

    tools/mutants.py theory                      make or renew the theories, and prove them
    tools/mutants.py list CRATE..                the mutants of the crates' definitions, one to a line
    tools/mutants.py run CRATE..                 check them; verdicts that are known are not asked for again
    tools/mutants.py edit CRATE FILE.edit..      the same for edits by hand, in the form of must-fail/*.edit
    tools/mutants.py report [CRATE..]            counts by crate, and what nothing notices

A theory is a copy of the repository without functions: types, definitions and
the laws of proofs/, up to the crates volume and names. So what fails is a law,
a theorem or an example, and never the proof that code does what is defined.
Theories stand in the folder that the environment variable THEORY names, or in one
of the system's temporary directory, as 1, 2 and so on, one for each of --jobs;
verdicts beside them in results.jsonl, a line of JSON for each. A verdict counts as
known while no definition, type or law of the theory changes; with --keep, whatever
has changed.

Verdicts: `ill-typed`, the text is refused, so it is no mutant; `example`, a
computed example or a refuted volume fails; `law`, only laws fail, which are
named: such a law may fail for its proof's text alone, which is for a reader to
judge (report --laws lists them); `unnoticed`, nothing fails.

Unnoticed mutants that are no error stand in docs/EQUIVALENT.md with the reason.
Report exits with 1 where one does not, or where an entry is of no unnoticed
mutant. All commands exit with 2 on a wrong usage, or where a theory is not
proved. The environment variable RT may name another command than `rt`.

It needs Debian's python3, 3.11.
"""

import argparse
import sys
from pathlib import Path

sys.dont_write_bytecode = True

from spec_mutants import checking, equivalent, results, runner, theory, tree  # noqa: E402
from spec_mutants.report import report  # noqa: E402


def _theory(options):
    with theory.alone():
        runner.theories(options.jobs)


def _list(options):
    for mutant in runner.selected(options.crates, options.definitions, options.kinds):
        print(f"{mutant.kind:12} {equivalent.line(mutant._asdict())}")


def _run(options):
    runner.run(runner.selected(options.crates, options.definitions, options.kinds), options.jobs, options.keep)


def _edit(options):
    if options.crate not in tree.theory_crates():
        raise tree.Missing(f"no crate of the theory: {options.crate}")
    runner.run_edits(options.crate, options.files, options.jobs, options.keep)


def _report(options):
    crates = options.crates or [crate for crate in tree.theory_crates() if crate in {row["crate"] for row in results.known("", True).values()}]
    return report(runner.selected(crates, []), options.keep, options.laws)


def _words(text):
    return [word for word in text.split(",") if word]


def _options():
    parser = argparse.ArgumentParser(description=__doc__, formatter_class=argparse.RawDescriptionHelpFormatter)
    commands = parser.add_subparsers(required=True, metavar="COMMAND")
    added = {}
    for name, text, action in (("theory", "make or renew the theories, and prove them", _theory), ("list", "print mutants", _list),
                               ("run", "check mutants", _run), ("edit", "check edits by hand", _edit), ("report", "counts, and what nothing notices", _report)):
        added[name] = commands.add_parser(name, help=text)
        added[name].set_defaults(action=action)
    for name in ("list", "run", "report"):
        added[name].add_argument("crates", nargs="*" if name == "report" else "+", metavar="CRATE")
    added["edit"].add_argument("crate", metavar="CRATE")
    added["edit"].add_argument("files", nargs="+", type=Path, metavar="FILE.edit")
    for name in ("list", "run"):
        added[name].add_argument("-d", "--definitions", type=_words, default=[], metavar="NAME,..", help="of these definitions, which may be statements too")
        added[name].add_argument("-k", "--kinds", type=_words, default=[], metavar="KIND,..", help="changes of these kinds, as list prints them")
    for name in ("theory", "run", "edit"):
        added[name].add_argument("-j", "--jobs", type=int, default=2, help="how many theories, worked in at once (default: 2)")
    for name in ("run", "edit", "report"):
        added[name].add_argument("--keep", action="store_true", help="take verdicts of the theory as it was earlier")
    added["report"].add_argument("--laws", action="store_true", help="list what laws alone notice, with these laws")
    return parser.parse_args()


def main():
    options = _options()
    try:
        return 1 if options.action(options) else 0
    except (tree.Missing, theory.NotProved, OSError) as wrong:
        print(f"mutants.py: {wrong}", file=sys.stderr)
        return 2
    except (KeyboardInterrupt, checking.Ended):
        return 130


if __name__ == "__main__":
    sys.exit(main())
