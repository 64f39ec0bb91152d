"""Writing requests as lines: in the usual spelling, and in any spelling that means the same."""

from bulwarkle_model.script import SHAPES, nonce

_BLANKS = b" \t\n"


def _printable(data):
    return all(33 <= byte <= 126 for byte in data)


def _usual_string(data, is_nonce):
    if not data or (is_nonce and data == bytes(16)):
        return b"-"
    return b"=" + data if _printable(data) else data.hex().encode("ascii")


def usual(request):
    """A request's line in the usual spelling."""
    words = [request.word.encode("ascii")]
    for kind, value in zip(SHAPES[request.word], request.arguments):
        is_string = isinstance(value, bytes)
        words.append(_usual_string(value, kind is nonce) if is_string else b"%d" % value)
    return b" ".join(words)


def _any_case(dice, text):
    return bytes(dice.choice((byte, ord(chr(byte).upper()))) for byte in text)


def _any_string(dice, data, is_nonce):
    if is_nonce and data == bytes(16) and dice.chance(0.5):
        return b"-"
    if not data:
        return dice.choice((b"-", b"="))
    if dice.chance(0.5) and not any(byte in _BLANKS for byte in data):
        return b"=" + data
    digits = data.hex().encode("ascii")
    return digits if len(data) > 300 or dice.chance(0.5) else _any_case(dice, digits)


def _any_number(dice, value):
    return b"0" * dice.below(30) + b"%d" % value if dice.chance(0.1) else b"%d" % value


def _any_blank(dice):
    return b"".join(dice.choice((b" ", b"\t")) for _ in range(1 + dice.below(3)))


def any_spelling(dice, request):
    """A request's line in any spelling; it parses to the same request."""
    words = [request.word.encode("ascii")]
    for kind, value in zip(SHAPES[request.word], request.arguments):
        is_string = isinstance(value, bytes)
        words.append(_any_string(dice, value, kind is nonce) if is_string
                     else _any_number(dice, value))
    if request.word == "show" and request.arguments[1] == 255 and dice.chance(0.5):
        words.pop()
    line = _any_blank(dice).join(words) if dice.chance(0.5) else b" ".join(words)
    if dice.chance(0.1):
        line = _any_blank(dice) + line
    if dice.chance(0.1):
        line += _any_blank(dice)
    # One carriage return at the end is dropped, so a line that ends with one gets another.
    return line + b"\r" if line.endswith(b"\r") or dice.chance(0.1) else line
