"""The stored set: scripts under data/, their names in order in args, their answers in stdout."""

from bulwarkle_model.script import answers

from . import cases_built, cases_entries, cases_kernel, cases_keys, cases_moves, cases_names
from . import cases_text, cases_wrong_key
from .corners import order_of_checks
from .dice import Dice
from .garbage import garbage_script
from .random_scripts import random_requests
from .spelling import any_spelling, usual
from .written import Case


def _written():
    for module in (cases_keys, cases_entries, cases_moves, cases_names):
        for title, text in module.SCRIPTS.items():
            yield title, Case().text(text).script()


def _built():
    yield "full-of-inodes", cases_built.full_of_inodes().script()
    yield "full-of-entries", cases_built.full_of_entries().script()
    yield "full-of-encrypted", cases_built.full_of_encrypted().script()
    yield "deep-directories", cases_built.deep_directories().script()
    for flags in range(4):
        yield f"name-lengths-flags-{flags}", cases_built.name_lengths(flags).script()
    yield "contents", cases_built.contents().script()
    yield "weak-keys", cases_built.weak_keys().script()
    yield "names-not-decrypting", cases_wrong_key.names_not_decrypting().script()
    yield "same-name-under-two-keys", cases_wrong_key.same_name_twice().script()
    yield "zero-bytes-as-letters", cases_wrong_key.zero_letters().script()
    roomy, full = order_of_checks()
    yield "order-of-checks", roomy.script()
    yield "order-of-checks-when-full", full.script()


def _texts():
    yield "text-lines-and-words", cases_text.build(cases_text.LINES).script()
    yield "text-numbers", cases_text.build(cases_text.NUMBERS).script()
    yield "text-byte-strings", cases_text.build(cases_text.STRINGS).script()
    yield "text-malformed-requests", cases_text.malformed_requests().script()
    yield "text-carriage-returns", cases_text.carriage_returns()
    yield "text-no-last-newline", cases_text.no_last_newline()
    yield "text-line-limit", cases_text.long_lines_at_the_limit().script()
    yield "text-long-comment", cases_text.long_lines_skipped().script()
    yield "text-long-blanks", cases_text.long_lines_blank()
    yield "text-long-blanks-and-return", cases_text.long_lines_return()


def _random():
    """Titles, profiles and lengths of the stored random scripts; the title is the seed."""
    for title, profile, length, blocks in (
            ("random-mixed", "mixed", 300, False), ("random-moves", "moves", 300, False),
            ("random-more-moves", "moves", 300, False), ("random-keys", "keys", 250, False),
            ("random-links", "many-links", 250, False),
            ("random-inodes", "many-inodes", 200, False),
            ("random-wrong-keys", "wrong-keys", 300, False),
            ("random-more-wrong-keys", "wrong-keys", 300, False),
            ("random-contents", "mixed", 60, True)):
        requests = random_requests(Dice(title), profile, length, blocks)
        yield title, b"".join(usual(request) + b"\n" for request in requests)
    dice = Dice("random-spellings")
    requests = random_requests(dice, "mixed", 300)
    yield "random-spellings", b"".join(any_spelling(dice, request) + b"\n" for request in requests)
    for title in ("random-garbage", "random-more-garbage"):
        yield title, garbage_script(Dice(title), 250, long_lines=False)


def _kernel():
    for title, replay in cases_kernel.replays().items():
        yield title, replay.script()


def stored_set():
    """All scripts in order: pairs of a file name and the script."""
    scripts = [*_written(), *_built(), *_texts(), *_random(), *_kernel()]
    return [(f"{number:02}-{title}.script", script)
            for number, (title, script) in enumerate(scripts, 1)]


def stored_files():
    """The files of the stored set: path below the replay directory, and content."""
    scripts = stored_set()
    files = {f"data/{name}": script for name, script in scripts}
    files["args"] = b"".join(b"%s\n" % name.encode("ascii") for name, _ in scripts)
    files["stdout"] = b"".join(b"# %s\n%s" % (name.encode("ascii"), answers(script))
                               for name, script in scripts)
    return files


def _others(directory, files):
    """Scripts in a directory that are not of the set."""
    return [path for path in sorted((directory / "data").glob("*.script"))
            if f"data/{path.name}" not in files]


def write(directory):
    """Write the stored set; scripts there that are not of the set are removed."""
    files = stored_files()
    (directory / "data").mkdir(parents=True, exist_ok=True)
    for other in _others(directory, files):
        other.unlink()
    for name, content in files.items():
        (directory / name).write_bytes(content)
    total = sum(len(content) for content in files.values())
    print(f"{len(files) - 2} scripts, {total} bytes with their answers")


def differences(directory):
    """Files that are missing, not as `write` would write them, or not of the stored set."""
    files = stored_files()
    wrong = [name for name, content in files.items()
             if not (directory / name).is_file() or (directory / name).read_bytes() != content]
    return wrong + [f"data/{other.name}" for other in _others(directory, files)]


def read(directory):
    """The stored scripts in order: pairs of a file name and the script."""
    names = (directory / "args").read_text(encoding="ascii").split()
    return [(name, (directory / "data" / name).read_bytes()) for name in names]
