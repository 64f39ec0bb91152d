"""Names: which are allowed, how they are padded, encrypted and shown without a key."""

from .ciphers import decrypt_cts, encrypt_cts

NAME_MAX = 255
LETTERS = b"ABCDEFGHIJKLMNOPQRSTUVWXYZabcdefghijklmnopqrstuvwxyz0123456789+,"
SHOWN_WHOLE = 160  # a longer stored name is cut when shown without its key


def name_faults(name):
    """What is wrong with a plain name: pairs of a reason and whether it holds, in order."""
    return [
        ("name-empty", not name),
        ("name-too-long", len(name) > NAME_MAX),
        ("name-byte", b"\0" in name or b"/" in name),
        ("name-dots", name in (b".", b"..")),
    ]


def is_plain_name(name):
    return not any(fault for _, fault in name_faults(name))


def padded_length(length, multiple):
    """The stored length of an encrypted name of `length` bytes."""
    padded = -(-max(length, 16) // multiple) * multiple
    return padded if padded <= NAME_MAX else length


def encrypt_name(key, multiple, name):
    """The stored name of a plain name; `key` is the parent directory's, of 32 bytes."""
    return encrypt_cts(key, name.ljust(padded_length(len(name), multiple), b"\0"))


def decrypt_name(key, multiple, stored):
    """The plain name, and what shows that the key is wrong (pairs as in `name_faults`)."""
    padded = decrypt_cts(key, stored)
    name, _, rest = padded.partition(b"\0")
    faults = [
        ("decrypted-rest", rest.strip(b"\0") != b""),
        ("decrypted-name", not is_plain_name(name)),
        ("decrypted-length", padded_length(len(name), multiple) != len(stored)),
    ]
    return name, faults


def to_letters(data):
    """Three bytes as four letters, high bits first; one or two left over as two or three."""
    letters = bytearray()
    for at in range(0, len(data), 3):
        group = data[at:at + 3]
        bits = int.from_bytes(group.ljust(3, b"\0"), "big")
        four = [LETTERS[bits >> shift & 63] for shift in (18, 12, 6, 0)]
        letters += bytes(four[:len(group) + 1])
    return bytes(letters)


def encode_name(stored, entry):
    """How the stored name of the directory entry numbered `entry` is shown without its key."""
    if len(stored) <= SHOWN_WHOLE:
        return to_letters(stored)
    return b"_" + to_letters(stored[:SHOWN_WHOLE]) + b"%02x" % entry
