"""The groups of stored names that are EUCLEAN, or may be: under wrong keys, damaged, and of chosen bytes."""

from .ciphers import cts_encrypt
from .errors import EUCLEAN
from .lines import Lines
from .material import made, made_context, made_name, with_byte
from .rules import name_key, read_context, store_name


def counted_group(lines, heading, requests):
    """A group of stored names to read, whose heading says how many of them are EUCLEAN."""
    gathered = Lines()
    for context, master, stored in requests:
        gathered.tell("read-name", context, master, stored)
    unclean = gathered.stdout.count(str(EUCLEAN))
    lines.group(f"{heading}: {unclean} are EUCLEAN, and {len(requests) - unclean} are read as a name")
    for line in gathered.stdin:
        lines.take(line)


def wrong_keys(lines):
    names = [(flags, length) for flags in range(4) for length in (1, 7, 16, 17, 31, 33, 48, 64, 100, 160, 200, 225, 250, 255)]
    masters, nonces, other_flags = [], [], []
    for flags, length in names:
        label = f"wrong {flags} {length}"
        context, master = made_context(label, flags), made(f"master {label}", 64)
        stored = store_name(read_context(context), master, made_name(label, length))
        masters.append((context, made(f"other master {label}", 64), stored))
        nonces.append((context[:12] + made(f"other nonce {label}", 16), master, stored))
        other_flags += [(with_byte(context, 3, other), master, stored) for other in range(4) if other != flags]
    counted_group(lines, "Stored names, read under another master key", masters)
    counted_group(lines, "Stored names, read under the key of another nonce", nonces)
    counted_group(lines, "Stored names, read with other flags, which may ask for another padded length", other_flags)


def bit_flipped(data, at):
    return with_byte(data, at, data[at] ^ 1 << at % 8)


def damaged_names(lines):
    flipped, cut, swapped = [], [], []
    for flags in range(4):
        for length in (1, 16, 17, 32, 33, 48, 63, 100, 224, 240, 252, 255):
            label = f"damaged {flags} {length}"
            context, master = made_context(label, flags), made(f"master {label}", 64)
            stored = store_name(read_context(context), master, made_name(label, length))
            flipped += [(context, master, bit_flipped(stored, at)) for at in sorted({0, len(stored) // 2, len(stored) - 1})]
            cut += [(context, master, part) for part in (stored[:-1], stored[1:], stored + b"\0", stored[:16], stored[:15], stored[:1]) if 1 <= len(part) <= 255]
            if len(stored) % 16 == 0 and len(stored) > 16:
                swapped.append((context, master, stored[:-32] + stored[-16:] + stored[-32:-16]))
    counted_group(lines, "Stored names with one bit changed", flipped)
    counted_group(lines, "Stored names cut or lengthened", cut)
    counted_group(lines, "Stored names with their last two blocks in each other's place", swapped)


# Padded names that no name is padded to, by what is wrong with them: the flags, and the bytes before they are encrypted.
NOT_ALL_NUL = [
    (0, b"a\0b".ljust(16, b"\0")),
    (0, b"a".ljust(15, b"\0") + b"b"),
    (1, b"\0".ljust(16, b"a")),
    (2, b"name\0\0/".ljust(16, b"\0")),
    (3, b"a".ljust(31, b"\0") + b"\xff"),
    (0, b"a" * 17 + b"\0\0b"),
    (3, b"a" * 33 + b"\0" + b"b" * 30),
    (3, b"a" * 222 + b"\0b"),
]
NOT_PLAIN = [(flags, name.ljust(length, b"\0")) for name in (b"", b".", b"..", b"/", b"a/b", b"./") for flags, length in ((0, 16), (1, 16), (2, 16), (3, 32))] + [
    (0, b"/" * 16),
    (0, b"a" * 19 + b"/"),
    (3, b"a" * 100 + b"/" + b"a" * 27),
    (3, b"a" * 254 + b"/"),
]
NOT_PADDED = [
    (0, b"a".ljust(17, b"\0")),
    (0, b"a".ljust(20, b"\0")),
    (0, b"a".ljust(32, b"\0")),
    (0, b"a" * 17),
    (0, b"a" * 18),
    (0, (b"a" * 17).ljust(24, b"\0")),
    (0, (b"a" * 251).ljust(255, b"\0")),
    (0, (b"a" * 253).ljust(255, b"\0")),
    (1, b"a".ljust(24, b"\0")),
    (1, b"a" * 20),
    (2, (b"a" * 16).ljust(32, b"\0")),
    (2, b"a" * 24),
    (2, (b"a" * 241).ljust(255, b"\0")),
    (3, b"a".ljust(16, b"\0")),
    (3, b"a" * 16),
    (3, b"a".ljust(64, b"\0")),
    (3, (b"a" * 32).ljust(64, b"\0")),
    (3, b"a" * 223),
    (3, (b"a" * 225).ljust(255, b"\0")),
    (3, (b"a" * 224).ljust(225, b"\0")),
]
PADDED = [
    (0, b"a".ljust(16, b"\0")),
    (0, b"a" * 16),
    (0, (b"a" * 17).ljust(20, b"\0")),
    (0, b"...".ljust(16, b"\0")),
    (0, b"a" * 253),
    (1, (b"a" * 17).ljust(24, b"\0")),
    (2, (b"a" * 17).ljust(32, b"\0")),
    (2, b"a" * 241),
    (3, b"a".ljust(32, b"\0")),
    (3, (b"a" * 33).ljust(64, b"\0")),
    (3, (b"a" * 223).ljust(224, b"\0")),
    (3, b"a" * 225),
    (3, b"\xff" * 255),
]


def unclean_names(lines):
    def read_chosen(flags, padded, answer):
        context, master = made_context(f"chosen {flags}", flags), made(f"chosen master {flags}", 64)
        lines.tell("read-name", context, master, cts_encrypt(name_key(read_context(context), master), padded), answer=answer)

    for heading, cases in (
        ("after the first NUL not all is NUL", NOT_ALL_NUL),
        ("what is before the first NUL is no plain name", NOT_PLAIN),
        ("the name's padded length is another than the stored length", NOT_PADDED),
    ):
        lines.group(f"Chosen bytes, encrypted: {heading}: EUCLEAN")
        for flags, padded in cases:
            read_chosen(flags, padded, str(EUCLEAN))
    lines.group("Chosen bytes, encrypted: names and their padding")
    for flags, padded in PADDED:
        read_chosen(flags, padded, "0 " + padded.rstrip(b"\0").hex())
    lines.group("Stored names of less than 16 bytes, the least padded length: EUCLEAN")
    for length in range(1, 16):
        for stored in (made(f"short stored {length}", length), b"a".ljust(length, b"\0"), bytes(length)):
            lines.tell("read-name", made_context("short", length % 4), made("short master", 64), stored, answer=str(EUCLEAN))
