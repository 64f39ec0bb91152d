"""What the prover says of a theory, and the verdict on a change."""

import os
import re
import shlex
import signal
import subprocess
import threading
import time
from pathlib import Path
from typing import NamedTuple

from .tables import EXAMPLES

ERROR = re.compile(r"(?:\./)?(\S+?):\d+:\d+: error: (.*)")
CRATE = re.compile(r"crate (\w+): modules loaded=")  # said of a crate after its errors, those of a library below it first
NOT_ITS_OWN = ("was not admitted", "was rejected", "were not checked", "so this cannot be checked")  # what is cited is refused, and so this was not looked at

_running, _lock, _ended = set(), threading.Lock(), threading.Event()


class Ended(Exception):
    """The run was ended."""


class Error(NamedTuple):
    """An error of its own, not one of what is cited: the crate, the file below it, the law and the text."""

    crate: str
    file: str
    law: str
    text: str


def prove(directory, crate):
    """The prover's exit status and words of one crate of a theory. RT may name another command than `rt`."""
    command = [*shlex.split(os.environ.get("RT", "rt")), "check", "--jobs", "1"]
    with _lock:
        if _ended.is_set():
            raise Ended
        process = subprocess.Popen(command, cwd=directory / "crates" / crate, stdout=subprocess.PIPE, stderr=subprocess.STDOUT, start_new_session=True)
        _running.add(process)
    said = process.communicate()[0].decode("utf-8", "replace")
    _running.discard(process)
    if _ended.is_set():
        raise Ended
    return process.returncode, said


def end():
    """Ends the provers that are running, each with the processes that it started."""
    with _lock:
        _ended.set()
        for process in list(_running):
            try:
                os.killpg(process.pid, signal.SIGTERM)
            except ProcessLookupError:
                pass


def errors(crate, said):
    """The errors that are a file's own, in what the prover said of a crate and of those below it."""
    found, of = [], []
    for line in said.split("\n"):
        if error := ERROR.match(line):
            of.append(error.groups())
        elif (named := CRATE.match(line)) or line.startswith("logic="):
            found += [(named[1] if named else crate, *each) for each in of]
            of = []
    found += [(crate, *each) for each in of]
    own = [each for each in found if not any(word in each[2] for word in NOT_ITS_OWN)]
    return [Error(name, file, law[1] if (law := re.match(r"`([^`]+)`: ", text)) else "?", text[:160]) for name, file, text in own]


def judged(directory, chain):
    """The verdict on a changed theory: its crates are proved one after the other, up to the first that is refused."""
    began, checked = time.monotonic(), []
    for crate in chain:
        status, said = prove(directory, crate)
        checked.append(crate)
        if status:
            verdict, laws = _verdict(errors(crate, said), said)
            break
    else:
        verdict, laws = "unnoticed", []
    return {"verdict": verdict, "laws": laws, "checked": checked, "seconds": round(time.monotonic() - began, 1)}


def _verdict(found, said):
    """What the errors show, and the laws that have them (of a text that is refused, what is said)."""
    laws = sorted({f"{error.crate}/{Path(error.file).stem}:{error.law}" for error in found})
    if not found:
        return "broken", said.strip().split("\n")[-3:]
    if any(error.file.startswith(("specs/", "src/")) for error in found):
        return "ill-typed", [found[0].text]
    if any(Path(error.file).stem in EXAMPLES for error in found):
        return "example", laws
    return "law", laws
