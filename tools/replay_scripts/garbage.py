"""Scripts that are no scripts: valid lines with bytes changed, odd words, and noise."""

from bulwarkle_model.script import LINE_MAX

from .random_scripts import random_requests
from .spelling import any_spelling, usual

WORDS = [b"", b"-", b"=", b"--", b"#", b"=#", b"0", b"00", b"1", b"4", b"255", b"254", b"4096",
         b"4097", b"18446744073709551615", b"18446744073709551616", b"018446744073709551615",
         b"00000000000000000000000000000000", b"0011223344556677", b"=\x00", b"=a\rb", b"\r",
         b"0x10", b"+1", b"-1", b"1_0", b"=/", b"=..", b"abc", b"ABCD", b"\xff", b"show", b"find",
         b"create", b"\x0b", b"\x0c", b"\xc2\xa0"]
NUMBERS = [b"0", b"1", b"63", b"64", b"254", b"255", b"256", b"4095", b"4096", b"4097", b"65536",
           b"4294967296", b"9223372036854775808", b"18446744073709551615", b"18446744073709551616",
           b"0018446744073709551616", b"99999999999999999999", b"000000000000000000000000000001"]
SPECIAL_BYTES = b"\x00\t\n\r =#-0189aAfFgGzZ_\x7f\x80\xff"


def _change_bytes(dice, line):
    """A byte removed, inserted or changed, once or a few times."""
    line = bytearray(line)
    for _ in range(1 + dice.below(3)):
        at = dice.below(len(line) + 1)
        new = dice.choice(SPECIAL_BYTES) if dice.chance(0.7) else dice.below(256)
        how = dice.below(3)
        line[at:at + (how != 1)] = b"" if how == 0 else bytes([new])
    return bytes(line)


def _change_words(dice, line):
    """A word removed, repeated, exchanged for an odd one, or moved."""
    words = line.split(b" ")
    at = dice.below(len(words))
    how = dice.below(4)
    if how == 0:
        del words[at]
    elif how == 1:
        words.insert(at, words[at])
    elif how == 2:
        words[at] = dice.choice(WORDS)
    else:
        words.insert(dice.below(len(words)), words.pop(at))
    return b" ".join(words)


def _change_number(dice, line):
    """A number exchanged for one at a limit, or a size given to show."""
    words = line.split(b" ")
    if words[0] == b"show" and len(words) == 2:
        words.append(b"")
    at = 1 + dice.below(len(words) - 1) if len(words) > 1 else 0
    if words[0] == b"show" or words[at].isdigit():
        words[at] = dice.choice(NUMBERS)
    return b" ".join(words)


def _noise(dice, _line):
    alphabet = SPECIAL_BYTES if dice.chance(0.5) else bytes(range(256))
    return bytes(dice.choice(alphabet) for _ in range(dice.below(40)))


def _blanks(dice, line):
    """Carriage returns and blanks at both ends."""
    ends = [b"", b"\r", b" ", b"\t", b"\r\r", b" \r", b"\r ", b"\0"]
    return dice.choice(ends) + line + dice.choice(ends)


def _long(dice, line):
    """A line near the limit, or far above it."""
    length = LINE_MAX + dice.choice((-1, 0, 0, 1, 1, 2, 70000))
    start = dice.choice((line + b" ", b"#", b"", line.split(b" ")[0] + b" ", b"find 0 =", b"show "))
    filler = dice.choice((b"0", b" ", b"\t", b"a", b"#", b"\0"))
    if dice.chance(0.3):
        return (b" " + line).rjust(length, filler) + dice.choice((b"", b"\r"))
    return start.ljust(length, filler) + dice.choice((b"", b"\r", b"\r\r"))


def garbage_script(dice, length, long_lines=True):
    """Random requests with about every second line spoilt."""
    lines = []
    for request in random_requests(dice, "mixed", length):
        line = usual(request) if dice.chance(0.5) else any_spelling(dice, request)
        if dice.chance(0.6):
            spoil = dice.choice((_change_bytes, _change_words, _change_words, _change_number,
                                 _noise, _blanks))
            line = spoil(dice, line)
        elif long_lines and dice.chance(0.01):
            line = _long(dice, line)
        lines.append(line)
    script = b"\n".join(lines)
    return script + dice.choice((b"", b"\n", b"\r", b"\r\n", b"\n\n"))
