"""Turning hand-written cases into scripts, with their answers checked.

A case is text: request lines, each with the answer it must get.

    create 0 2 =a -      -> ok 1 0
    create 0 2 =a -      -> name-taken
    seal 1 0 <block:1>   -> ok *

After `->` stands an answer line, `ok *` for any success, `malformed`, or the
reason of a refusal (bulwarkle_model/reasons.py). Comments and empty lines are
kept. In angle brackets:

    <A>        the descriptor of the maker A
    <A3>       the policy with that descriptor and flags 3
    <A.64>     the first 64 bytes of the maker's key; <A.64b> of another key
    <n:flow>   a nonce, one for each word
    <x*255>    255 times the letter x
    <block:7>  4,096 bytes in hex, one block for each number
"""

import hashlib
import re

from bulwarkle_model.script import Malformed, ask, parse
from bulwarkle_model.volume import Volume


class CaseError(Exception):
    """A case that is not written right, or does not get the answer that it must."""


def descriptor(maker):
    return hashlib.sha256(b"descriptor " + maker.encode()).digest()[:8]


def policy(maker, flags):
    return bytes([0, 1, 4, flags]) + descriptor(maker)


def key(maker, variant="", length=64):
    return hashlib.sha512(b"key " + (maker + variant).encode()).digest()[:length]


def nonce(word):
    return hashlib.sha256(b"nonce " + word.encode()).digest()[:16]


def block(number):
    return hashlib.shake_256(b"block %d" % number).digest(4096)


_NOTATIONS = [
    (re.compile(r"([A-Z])"), lambda m: descriptor(m[1]).hex()),
    (re.compile(r"([A-Z])([0-9])"), lambda m: policy(m[1], int(m[2])).hex()),
    (re.compile(r"([A-Z])\.(\d+)([a-z]?)"), lambda m: key(m[1], m[3], int(m[2])).hex()),
    (re.compile(r"n:(\S+)"), lambda m: nonce(m[1]).hex()),
    (re.compile(r"(.)\*(\d+)"), lambda m: m[1] * int(m[2])),
    (re.compile(r"block:(\d+)"), lambda m: block(int(m[1])).hex()),
]


def _expand_one(match):
    for pattern, meaning in _NOTATIONS:
        found = pattern.fullmatch(match[1])
        if found:
            return meaning(found)
    raise CaseError(f"unknown notation {match[0]}")


def expand(text):
    return re.sub(r"<([^<> ]+)>", _expand_one, text)


class Case:
    """A script being written, with a volume that follows it."""

    def __init__(self):
        self.volume = Volume()
        self.lines = []

    def line(self, line, expected=None):
        """Add one line; returns its answer. `expected` is as after `->` in a case."""
        self.lines.append(line)
        try:
            request = parse(line)
        except Malformed:
            answer, reason = b"malformed", None
        else:
            if request is None:
                return None
            answer, reason = ask(self.volume, request)
        got = reason or answer.decode("ascii")
        if expected == "ok *" and got.startswith("ok"):
            return answer
        if expected not in (None, got):
            raise CaseError(f"{line[:200]!r}: expected {expected!r}, got {got!r}")
        return answer

    def text(self, text):
        """Add the lines of a case."""
        for line in text.strip("\n").split("\n"):
            request, arrow, expected = line.partition("->")
            if request.strip() and not request.startswith("#") and not arrow:
                raise CaseError(f"{line!r}: no answer written")
            self.line(expand(request.rstrip()).encode("latin-1"),
                      expand(expected.strip()) or None)
        return self

    def audit(self):
        """Ask for all that can be seen of the volume."""
        self.line(b"# all that can be seen of the volume")
        for number, entry in enumerate(self.volume.entries):
            if entry:
                self.line(b"show %d" % number)
        for number, inode in enumerate(self.volume.inodes):
            if inode:
                self.line(b"get-policy %d" % number)
        return self

    def script(self):
        return b"".join(line + b"\n" for line in self.lines)
