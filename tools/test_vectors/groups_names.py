"""The groups of names: worked cases of document 01, plain names, stored names, refused names, and names shown without the key."""

import base64

from .errors import stop
from .material import made, made_context, made_name, with_byte
from .published import PADDING_CASES
from .rules import ALPHABET, padded_length

# Name lengths about which something changes: the least padded length, whole blocks, whole multiples, and where the rounding passes 255.
NAME_LENGTHS = [1, 2, 3, 15, 16, 17, 20, 31, 32, 33, 47, 48, 49, 64, 65, 160, 161, 223, 224, 225, 239, 240, 241, 247, 248, 249, 251, 252, 253, 254, 255]
STORED_LENGTHS = [1, 2, 3, 4, 5, 6, 16, 48, 158, 159, 160, 161, 162, 163, 255]
ENTRY_NUMBERS = [0, 5, 63, 255, 256, 2**64 - 1]


def worked_padding(lines):
    lines.group("Document 01, worked cases: the padding of a name, by its length and the policy's flags; stored, and read back")
    for length, flags, wanted in PADDING_CASES:
        name = made_name(f"worked name {length} {flags}", length)
        stored = lines.stored_and_read(made_context(f"worked {length} {flags}", flags), made(f"worked master {length}", 64), name)
        if len(stored) != wanted:
            stop(f"a name of {length} bytes with flags {flags} is not stored in {wanted}")


def worked_letters(lines):
    lines.group("Document 01, worked cases: names shown without the key. Sixteen zero bytes are `A` 22 times; 160 bytes give 214 letters, and 161 give 217")
    lines.ask("encode-name", 0, bytes(16), published=b"A" * 22)
    for length, wanted in ((160, 214), (161, 217)):
        if len(lines.ask("encode-name", 0, made(f"worked stored {length}", length))) != wanted:
            stop(f"a stored name of {length} bytes is not shown in {wanted}")


def plain_names(lines):
    lines.group("Names that are plain: of 1 to 255 bytes, with dots, with any byte but NUL and `/`")
    for name in (b"a", b"...", b"....", b".a", b"a.", b"..a", b"a..", b". ", b" ", b"-", b"\\", b"\n", b"\xff" * 255, bytes(range(1, 47)), bytes(range(48, 256))):
        lines.tell("check-name", name, answer="0")
    for length in NAME_LENGTHS:
        lines.tell("check-name", made_name(f"plain name {length}", length), answer="0")
    lines.group("Names of one byte, from 00 to ff: NUL, `.` and `/` are EINVAL")
    for b in range(256):
        lines.tell("check-name", bytes([b]), answer="22" if b in b"\0./" else "0")
    lines.group("The empty name: ENOENT. Names of more than 255 bytes, whatever is in them: ENAMETOOLONG")
    lines.tell("check-name", b"", answer="2")
    for length in (256, 257, 260, 511, 512, 4096, 4200):
        for byte in b"a\0/.":
            lines.tell("check-name", bytes([byte]) * length, answer="36")
    lines.group("`.`, `..`, and names with a NUL or a `/` at the start, in the middle and at the end: EINVAL")
    for name in (b".", b"..", b"\0", b"/", b"\0\0", b"//", b"/.", b"./", b"../", b".\0", b"..\0", b"\0/"):
        lines.tell("check-name", name, answer="22")
    for length in (2, 3, 16, 17, 254, 255):
        for at in (0, length // 2, length - 1):
            for byte in b"\0/":
                lines.tell("check-name", with_byte(made_name("spoiled name", length), at, byte), answer="22")


def stored_names(lines):
    for flags in range(4):
        lengths = sorted(set(range(1 + flags, 256, 4)) | set(NAME_LENGTHS))
        lines.group(f"Independent implementation: {len(lengths)} names of 1 to 255 bytes, flags {flags}: stored, and read back")
        for length in lengths:
            label = f"{flags} {length}"
            context, master = made_context(f"stored {label}", flags), made(f"stored master {label}", 64)
            stored = lines.stored_and_read(context, master, made_name(f"stored name {label}", length))
            if len(stored) != padded_length(length, flags):
                stop(f"the stored name has {len(stored)} bytes")


def refused_names(lines):
    context, master = made_context("refused", 2), made("refused master", 64)
    lines.group("Names that no directory stores: ENOENT, ENAMETOOLONG, EINVAL")
    for name, errno in ((b"", 2), (b"a" * 256, 36), (b"/" * 300, 36), (b".", 22), (b"..", 22), (b"a/b", 22), (b"a\0", 22), (b"\0", 22)):
        lines.tell("store-name", context, master, name, answer=str(errno))
    lines.group("A context that is none is refused before the name: EINVAL")
    wrong_contexts = [b"", context[:27], context + b"\0", context[:12]] + [with_byte(context, *change) for change in ((0, 0), (0, 2), (1, 5), (2, 6), (3, 4))]
    for wrong in wrong_contexts:
        for name in (b"a", b"", b"a" * 256, b"/"):
            lines.tell("store-name", wrong, master, name, answer="22")
        lines.tell("read-name", wrong, master, made("refused stored", 16), answer="22")


def shown_names(lines):
    lines.group("Names shown without the key: stored lengths 1 to 6, 16, 48, 158 to 163 and 255, entries 0, 5, 63, 255, 256 and 2^64 - 1")
    for length in STORED_LENGTHS:
        for number in ENTRY_NUMBERS:
            lines.ask("encode-name", number, made(f"shown {length}", length))
    lines.group("Names shown without the key: all 64 letters in their order, and stored names of one byte over")
    lines.ask("encode-name", 0, base64.b64decode(ALPHABET, b"+,"), published=ALPHABET)
    for length in (1, 2, 3, 16, 160, 161, 255):
        for byte in (0x00, 0xFF, 0x2F, 0xFB):
            lines.ask("encode-name", 17, bytes([byte]) * length)
