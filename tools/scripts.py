#!/usr/bin/env python3
"""Scripts of requests: the stored set, its coverage, and comparisons with the model.

    tools/scripts.py generate             write the stored set in crates/replay
    tools/scripts.py generate --check     see whether it is as it would be written
    tools/scripts.py coverage             what the stored set covers
    tools/scripts.py coverage --write     the same, written to docs/COVERAGE.md
    tools/scripts.py coverage --check     see whether that page is as it would be written
    tools/scripts.py compare 100          100 random scripts, program and model
    tools/scripts.py compare --bytes 100  the same with garbage, to compare the parsers
    tools/scripts.py tworuns 100          100 pairs of scripts that differ in key bytes only
    tools/scripts.py kernel FILE          the model and what a Linux kernel wrote, and answered
    tools/scripts.py selftest             checks of the model, without the program

Compare and tworuns need the program, which `rt run` in crates/bulwarkle builds
as out/bulwarkle there, or as --program says, and save a script that shows a
difference in out/ below the repository, which git ignores, or as --save says. All commands exit with 1 where something differs,
disagrees, is missing or can't be judged, and with 2 on a wrong usage or where a
file or the program can't be had.

It needs Debian's python3, 3.11, and python3-cryptography.
"""

import argparse
import shlex
import sys
from pathlib import Path

sys.dont_write_bytecode = True

from replay_scripts import compare, coverage, kernel, selftest, stored, tworuns  # noqa: E402
from replay_scripts.written import CaseError  # noqa: E402

ROOT = Path(__file__).resolve().parent.parent


def _generate(options):
    if not options.check:
        stored.write(options.directory)
        return 0
    wrong = stored.differences(options.directory)
    for name in wrong:
        print(f"{name}: missing, not as generate writes it, or not of the set")
    return len(wrong)


def _coverage(options):
    page = ROOT / "docs" / "COVERAGE.md"
    text, gaps = coverage.measured(options.directory)
    if not options.check:
        print(text)
    for gap in gaps:
        print(f"NOT COVERED {gap}")
    if options.write and not gaps:
        page.write_text(text, encoding="utf-8")
    if options.check and page.read_text(encoding="utf-8") != text:
        print("docs/COVERAGE.md: not as coverage --write writes it")
        return 1
    return len(gaps)


def _compare(options):
    return compare.compare(options.program, options.count, options.seed, options.length,
                           options.bytes, options.save)


def _tworuns(options):
    return tworuns.tworuns(options.program, options.count, options.seed, options.length,
                           options.save)


def _command(text):
    """A command and its arguments, as words."""
    words = shlex.split(text)
    if not words:
        raise argparse.ArgumentTypeError("no command is given")
    return words


def _add_runner(commands, name, text, action):
    """The options that compare and tworuns have in common."""
    command = commands.add_parser(name, help=text)
    command.set_defaults(action=action)
    command.add_argument("count", type=int, nargs="?", default=50, metavar="COUNT")
    command.add_argument("--program", type=_command,
                         default=[str(ROOT / "crates" / "bulwarkle" / "out" / "bulwarkle")],
                         help="the command to run; it may have arguments")
    command.add_argument("--seed", default="1", help="any text; another seed, other scripts")
    command.add_argument("--length", type=int, default=300, help="requests in a script, about")
    command.add_argument("--save", type=Path, default=ROOT / "out" / f"{name}-difference.script",
                         help="where to save a script that shows a difference")
    return command


def _options():
    parser = argparse.ArgumentParser(
        description=__doc__, formatter_class=argparse.RawDescriptionHelpFormatter)
    commands = parser.add_subparsers(required=True, metavar="COMMAND")
    for name, text, action in (("generate", "write the stored set", _generate),
                               ("coverage", "what the stored set covers", _coverage)):
        command = commands.add_parser(name, help=text)
        command.set_defaults(action=action)
        command.add_argument("--directory", type=Path, default=ROOT / "crates" / "replay")
        only = command.add_mutually_exclusive_group()
        only.add_argument("--check", action="store_true", help="compare, write nothing")
        if name == "coverage":
            only.add_argument("--write", action="store_true", help="write docs/COVERAGE.md")
    command = _add_runner(commands, "compare", "program and model on random scripts", _compare)
    command.add_argument("--bytes", action="store_true", help="garbage instead of requests")
    _add_runner(commands, "tworuns", "document 01's two runs", _tworuns)
    command = commands.add_parser("kernel",
                                  help="the model and what a Linux kernel wrote, and answered")
    command.add_argument("file", type=Path, metavar="FILE")
    command.set_defaults(action=lambda options: kernel.check(options.file))
    command = commands.add_parser("selftest", help="checks of the model, without the program")
    command.set_defaults(action=lambda _options: selftest.selftest())
    return parser.parse_args()


def main():
    options = _options()
    try:
        return 1 if options.action(options) else 0
    except CaseError as wrong:
        print(f"scripts.py: {wrong}", file=sys.stderr)
        return 1
    except (OSError, kernel.NotValues) as wrong:
        print(f"scripts.py: {wrong}", file=sys.stderr)
        return 2


if __name__ == "__main__":
    sys.exit(main())
