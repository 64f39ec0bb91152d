"""The text interface: a script of request lines in, one answer line for each request out."""

from typing import NamedTuple

from .reasons import Refused
from .volume import NAME_BUFFER, Volume

LINE_MAX = 131072           # without the newline and one carriage return before it
NUMBER_MAX = 2 ** 64 - 1
BUFFER_MAX = 4096           # the largest name buffer that show may be given
MALFORMED = b"malformed"

_DIGITS = frozenset(b"0123456789")
_HEX_DIGITS = frozenset(b"0123456789abcdefABCDEF")


class Malformed(Exception):
    """A line that makes no request."""


class Request(NamedTuple):
    """A request's word and its arguments: numbers and byte strings."""

    word: str
    arguments: tuple

    @property
    def method(self):
        """The name of the request's method of `Volume`."""
        return self.word.replace("-", "_")


# ---- Words.

def number(word):
    """Decimal digits, leading zeros allowed, at most 2^64 - 1."""
    digits = word.lstrip(b"0")
    if not _DIGITS.issuperset(word) or len(digits) > len(str(NUMBER_MAX)):
        raise Malformed
    value = int(digits or b"0")
    if value > NUMBER_MAX:
        raise Malformed
    return value


def byte_string(word):
    """`=` and the bytes themselves, or `-` for none, or an even count of hex digits."""
    if word.startswith(b"="):
        return word[1:]
    if word == b"-":
        return b""
    if len(word) % 2 or not _HEX_DIGITS.issuperset(word):
        raise Malformed
    return bytes.fromhex(word.decode("ascii"))


def _string_of(length, word):
    value = byte_string(word)
    if len(value) != length:
        raise Malformed
    return value


def descriptor(word):
    return _string_of(8, word)


def nonce(word):
    return bytes(16) if word == b"-" else _string_of(16, word)


def buffer_size(word):
    value = number(word)
    if value > BUFFER_MAX:
        raise Malformed
    return value


# The words after each request's own. Show has one more, which may be left out.
SHAPES = {
    "add-key": (descriptor, byte_string),
    "remove-key": (descriptor,),
    "set-policy": (number, byte_string, nonce),
    "get-policy": (number,),
    "create": (number, number, byte_string, nonce),
    "link": (number, number, byte_string),
    "rename": (number, number, byte_string),
    "exchange": (number, number),
    "remove": (number,),
    "find": (number, byte_string),
    "show": (number, buffer_size),
    "seal": (number, number, byte_string),
    "open": (number, number, byte_string),
}
_BY_WORD = {word.encode("ascii"): word for word in SHAPES}


# ---- Lines.

def parse(line):
    """The request in a line (without its newline), or None where the line is skipped.

    The whole line is parsed before anything is asked. Raises Malformed.
    """
    if line.endswith(b"\r"):
        line = line[:-1]
    words = [word for word in line.replace(b"\t", b" ").split(b" ") if word]
    if not words or words[0].startswith(b"#"):
        return None
    word = _BY_WORD.get(words[0])
    if len(line) > LINE_MAX or word is None:
        raise Malformed
    given, shape = words[1:], SHAPES[word]
    if word == "show" and len(given) == 1:
        given.append(b"%d" % NAME_BUFFER)
    if len(given) != len(shape):
        raise Malformed
    return Request(word, tuple(read(text) for read, text in zip(shape, given)))


# ---- Answers.

def printed_name(name):
    """`=` and the name where every byte is printable and no blank, else hex."""
    if all(33 <= byte <= 126 for byte in name):
        return b"=" + name
    return name.hex().encode("ascii")


def _done(word, answer):
    """The answer line of a request that was done."""
    if answer is None:
        return b"ok"
    if word in ("get-policy", "seal", "open"):
        return b"ok " + answer.hex().encode("ascii")
    if word == "show":
        return b"ok %d %d %d %s %d %s" % (
            answer.parent, answer.inode, answer.kind, answer.form.encode("ascii"),
            len(answer.name), printed_name(answer.name))
    if word == "create":
        return b"ok %d %d" % answer
    return b"ok %d" % answer


def ask(volume, request):
    """Make one request of a volume: the answer line and the reason, None where it was done."""
    try:
        answer = getattr(volume, request.method)(*request.arguments)
    except Refused as refused:
        line = b"error %d %s" % (refused.errno, refused.name.encode("ascii"))
        return line, refused.reason
    return _done(request.word, answer), None


def answer(volume, line):
    """The answer to one line, without a newline, or None where the line is skipped."""
    try:
        request = parse(line)
    except Malformed:
        return MALFORMED
    return request and ask(volume, request)[0]


def answers(script):
    """All answers to a script on a fresh volume."""
    volume, printed = Volume(), []
    for line in script.split(b"\n"):
        text = answer(volume, line)
        if text is not None:
            printed.append(text + b"\n")
    return b"".join(printed)
