"""Running the program and the model on the same random scripts."""

import subprocess
import time

from bulwarkle_model.script import Malformed, answers, parse

from .dice import Dice
from .garbage import garbage_script
from .random_scripts import PROFILES, random_requests
from .spelling import any_spelling, usual

TIME_LIMIT = 60       # for one run of the program, in seconds
MINIMIZE_LIMIT = 30   # for shortening a script that shows a difference


def run(program, script):
    """The program's answers to a script; a failure of its own is told in the last line.

    `program` is a command and its arguments.
    """
    try:
        done = subprocess.run(program, input=script, stdout=subprocess.PIPE,
                              timeout=TIME_LIMIT, check=False)
    except FileNotFoundError:
        raise FileNotFoundError(
            f"no program at {program[0]}: build it by `rt run` in crates/bulwarkle, with any input") from None
    except subprocess.TimeoutExpired as late:
        return (late.stdout or b"") + b"\n(the program did not end)\n"
    if done.returncode:
        return done.stdout + b"(the program's exit status was %d)\n" % done.returncode
    return done.stdout


def save(path, script):
    """Write a script that shows a difference, and say where."""
    path.parent.mkdir(parents=True, exist_ok=True)
    path.write_bytes(script)
    print(f"saved as {path}")


def random_script(seed, length, garbage):
    """A script for comparing; each has another subject and another way of spelling."""
    dice = Dice(seed)
    if garbage:
        return garbage_script(dice, length)
    profile = dice.choice(list(PROFILES))
    requests = random_requests(dice, profile, length, blocks=dice.chance(0.5))
    if dice.chance(0.5):
        return b"".join(usual(request) + b"\n" for request in requests)
    return b"".join(any_spelling(dice, request) + b"\n" for request in requests)


def _has_answer(line):
    try:
        return parse(line) is not None
    except Malformed:
        return True


def first_difference(one, two):
    """The number of the first answer that differs, and that answer of both."""
    one, two = one.split(b"\n"), two.split(b"\n")
    for number, pair in enumerate(zip(one, two)):
        if pair[0] != pair[1]:
            return number, *pair
    shorter = min(len(one), len(two))
    return shorter, b"\n".join(one[shorter:]), b"\n".join(two[shorter:])


def _cut_after_answer(lines, number):
    """The lines up to the one that has this answer."""
    for at, line in enumerate(lines):
        if _has_answer(line):
            number -= 1
        if number < 0:
            return lines[:at + 1]
    return lines


def shorten(differs, lines):
    """Drop lines, many at once and then fewer, as long as a difference is left."""
    until, size = time.monotonic() + MINIMIZE_LIMIT, len(lines) // 2
    while size:
        at, before = 0, len(lines)
        while at < len(lines) and time.monotonic() < until:
            fewer = lines[:at] + lines[at + size:]
            if fewer and differs(fewer):
                lines = fewer
            else:
                at += size
        if size > 1 or len(lines) == before:
            size //= 2
    return lines


def shortest(program, script):
    """The shortest script found that shows a difference as well."""
    def differs(lines):
        text = b"\n".join(lines) + end
        return run(program, text) != answers(text)
    end = b"\n" if script.endswith(b"\n") else b""
    lines = script.removesuffix(b"\n").split(b"\n")
    prefix = _cut_after_answer(lines, first_difference(run(program, script), answers(script))[0])
    if len(prefix) < len(lines):
        # Only a difference in the last line can need a missing last newline.
        lines, end = prefix, b"\n"
    return b"\n".join(shorten(differs, lines)) + end


def compare(program, count, seed, length, garbage, save_to):
    """Compare on `count` scripts; returns the number of scripts that differ, 0 or 1."""
    requests = 0
    for turn in range(count):
        script = random_script(f"compare {seed} {turn}", length, garbage)
        expected = answers(script)
        requests += expected.count(b"\n")
        if run(program, script) != expected:
            report(program, script, f"script {turn} of seed {seed}", save_to)
            return 1
    print(f"{count} scripts, {requests} answers: no difference")
    return 0


def _visible(line):
    """A line's beginning with all bytes but the printable ones written out."""
    return "".join(chr(byte) if 32 <= byte <= 126 else f"\\x{byte:02x}" for byte in line[:200])


def report(program, script, title, save_to):
    """Print and save the shortest script that shows a difference."""
    short = shortest(program, script)
    _, got, expected = first_difference(run(program, short), answers(short))
    print(f"{title}: the program and the model differ")
    for line in short.removesuffix(b"\n").split(b"\n"):
        print(f"    {_visible(line)}")
    print(f"the program answers {_visible(got)}")
    print(f"the model answers   {_visible(expected)}")
    save(save_to, short)
