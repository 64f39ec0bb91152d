"""The model and the other implementation in Python, that of the test vectors.

The two share no code: the model has the block cipher alone from OpenSSL, and
writes out CBC-CS3 and XTS; test_vectors has CBC and XTS from OpenSSL. Policies,
contexts and names are written from document 01 in both. Here both are asked the
same, and must answer the same.
"""

from bulwarkle_model import ciphers, names, policy
from bulwarkle_model.reasons import ERRNO, REASONS
from test_vectors import ciphers as other_ciphers
from test_vectors import rules
from test_vectors.errors import EUCLEAN, Refused

from .dice import Dice
from .must import must

NAMES = [b"", b".", b"..", b"...", b"a.", b"a/b", b"a\0b", b"x" * 255, b"x" * 256, b"/" * 256,
         *(bytes([byte]) for byte in range(256))]


def _or_errno(ask, *arguments):
    """What the other implementation answers, or the errno with which it refuses."""
    try:
        return ask(*arguments)
    except Refused as refused:
        return refused.errno


def same_ciphers():
    """Derived keys, blocks and texts, both ways."""
    dice = Dice("same ciphers")
    for number in (0, 1, 2 ** 32, 2 ** 64 - 1):
        key, nonce, data = dice.bytes(64), dice.bytes(16), dice.bytes(4096)
        stored = other_ciphers.xts(key, number, data)
        must(ciphers.encrypt_xts(key, number, data) == stored, f"XTS of block {number}")
        must(ciphers.decrypt_xts(key, number, stored) == data, f"XTS of block {number}, back")
        must(ciphers.derive_key(key, nonce) == other_ciphers.ecb_encrypt(nonce, key), "derived key")
    for length in (*range(16, 256), 4079, 4080, 4081, 4096):
        key, data = dice.bytes(32), dice.bytes(length)
        stored = other_ciphers.cts_encrypt(key, data)
        must(ciphers.encrypt_cts(key, data) == stored, f"CBC-CS3 of {length} bytes")
        must(ciphers.decrypt_cts(key, stored) == data, f"CBC-CS3 of {length} bytes, back")
        must(other_ciphers.cts_decrypt(key, stored) == data, f"the other's CBC-CS3 of {length}")


def same_names():
    """Which names are plain, how long they are stored, and how they show without their key."""
    for name in NAMES:
        found = [reason for reason, fails in names.name_faults(name) if fails]
        errno = ERRNO[REASONS[found[0]]] if found else None
        must(_or_errno(rules.check_name, name) == errno, f"the name {name!r}")
    for flags in range(4):
        for length in range(1, 256):
            padded = names.padded_length(length, 4 << flags)
            must(rules.padded_length(length, flags) == padded, f"{length} bytes with flags {flags}")
    dice = Dice("same names")
    for length in range(1, 256):
        stored, entry = dice.bytes(length), dice.below(64)
        shown = names.encode_name(stored, entry)
        must(rules.encode_name(entry, stored) == shown, f"{stored.hex()} shown as entry {entry}")


def same_stored_names():
    """Names stored, and read with the right key and a wrong one."""
    dice = Dice("same stored names")
    for turn in range(500):
        raw = bytes([1, 1, 4, turn % 4]) + dice.bytes(24)
        master, wrong, name = dice.bytes(64), dice.bytes(64), b"n" * (1 + dice.below(255))
        context, other = policy.read_context(raw), rules.read_context(raw)
        padding = context.policy.padding
        stored = names.encrypt_name(ciphers.derive_key(master, context.nonce)[:32], padding, name)
        must(rules.store_name(other, master, name) == stored, f"{len(name)} bytes stored")
        for key in (master, wrong):
            derived = ciphers.derive_key(key, context.nonce)[:32]
            read, faults = names.decrypt_name(derived, padding, stored)
            expected = EUCLEAN if any(fails for _, fails in faults) else read
            must(_or_errno(rules.read_name, other, key, stored) == expected, f"{stored.hex()} read")


def same_policies():
    """Which policies and contexts are valid, and what is read from them."""
    dice = Dice("same policies")
    for start in ((0, 1, 4, 0), (0, 1, 4, 3), (1, 1, 4, 0), (1, 1, 4, 3)):
        good = bytes(start) + dice.bytes(24)
        for length in (0, 1, 11, 12, 13, 27, 28):
            _same_reading(good[:length])
        for at in range(4):
            for byte in range(256):
                changed = good[:at] + bytes([byte]) + good[at + 1:]
                _same_reading(changed)
                _same_reading(changed[:12])


def _same_reading(raw):
    for read, other in ((policy.read_policy, rules.read_policy),
                        (policy.read_context, rules.read_context)):
        expected = read(raw) or ERRNO["EINVAL"]
        must(_or_errno(other, raw) == expected, f"{read.__name__} of {raw.hex()}")
