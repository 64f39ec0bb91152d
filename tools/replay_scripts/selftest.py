"""Checks of the model: starred cases, published vectors, the other implementation, its order."""

from bulwarkle_model import ciphers
from bulwarkle_model.names import encode_name, padded_length
from bulwarkle_model.policy import read_context, read_policy
from bulwarkle_model.script import SHAPES, answers
from bulwarkle_model.volume import DIRECTORY, ENTRIES, INODES, ROOT, SPECIAL, Volume
from test_vectors import published

from .agreement import same_ciphers, same_names, same_policies, same_stored_names
from .allowed import ORDER
from .dice import Dice
from .must import Failed, must
from .random_scripts import PROFILES, ManyKeys, Steered
from .spelling import any_spelling, usual


def starred_cases():
    """The starred rows of document 01's table."""
    for length, flags, padded in published.PADDING_CASES:
        must(padded_length(length, 4 << flags) == padded, f"{length} bytes with flags {flags}")
    must(encode_name(bytes(16), 0) == b"A" * 22, "sixteen zero bytes shown")
    must(len(encode_name(bytes(160), 0)) == 214, "160 bytes shown")
    must(encode_name(bytes(161), 63) == b"_" + b"A" * 214 + b"3f", "161 bytes shown")
    for start, errno in published.POLICY_CASES:
        taken = read_policy(bytes.fromhex(start) + bytes(8)) is not None
        must(taken == (errno == 0), f"the policy {start}")


def contexts():
    """A context is written back as it was read; a wrong one is not read."""
    raw = bytes.fromhex("01010403") + bytes(range(24))
    read = read_context(raw)
    must(read is not None and read.to_bytes() == raw, "a context written back")
    for wrong in (raw[:-1], raw + b"\0", b"\0" + raw[1:], b"\2" + raw[1:],
                  raw[:3] + b"\4" + raw[4:], raw[:1] + b"\5\6" + raw[3:], b""):
        must(read_context(wrong) is None, f"the context {wrong.hex()}")


def standard_vectors():
    """Published values: FIPS 197 for AES, RFC 3962 for CBC-CS3, IEEE 1619 for XTS."""
    plain = bytes.fromhex(published.FIPS_C_PLAIN)
    for length, stored in ((16, published.FIPS_C1_CIPHER), (32, published.FIPS_C3_CIPHER)):
        must(ciphers.encrypt_ecb(bytes(range(length)), plain).hex() == stored, "AES")
    for stored in map(bytes.fromhex, published.RFC_CIPHERS):
        key, text = published.RFC_KEY, published.RFC_TEXT[:len(stored)]
        must(ciphers.encrypt_cts(key, text) == stored, f"CBC-CS3 of {len(text)} bytes")
        must(ciphers.decrypt_cts(key, stored) == text, f"CBC-CS3 of {len(text)} bytes, back")
    key = bytes.fromhex(published.IEEE_KEY_1 + published.IEEE_KEY_2)
    for number, stored in published.IEEE_CIPHERS:
        sealed = ciphers.encrypt_xts(key, number, bytes(range(256)) * 2)
        must(sealed == bytes.fromhex(stored), f"XTS of data unit {number}")
    # Vector 1 of IEEE 1619: both halves of the key are equal, which OpenSSL refuses.
    must(ciphers.encrypt_xts(bytes(32), 0, bytes(32)).hex()
         == "917cf69ebd68b2ec9b9fe9a3eadda692cd43d2f59598ed858c02c2652fbf922e", "XTS of vector 1")


def orders():
    """The model's checks come in the order written down in allowed.py."""
    volume = Volume()
    volume.create(ROOT, SPECIAL, b"n", bytes(16))
    for word in SHAPES:
        arguments = {"add-key": (bytes(8), b""), "remove-key": (bytes(8),),
                     "set-policy": (0, b"", bytes(16)), "create": (0, 1, b"", bytes(16)),
                     "link": (0, 0, b""), "rename": (0, 0, b""), "find": (0, b""),
                     "exchange": (0, 0), "show": (0, 255), "seal": (0, 0, b""),
                     "open": (0, 0, b"")}.get(word, (0,))
        checks = getattr(volume, word.replace("-", "_") + "_checks")(*arguments)
        order = ORDER[word][:2] if word == "show" else ORDER[word]
        must(tuple(reason for reason, _ in checks) == order, word)


def sound(volume):
    """What document 01 says of every volume that was changed by requests alone."""
    root = volume.inodes[ROOT]
    must(root.kind == DIRECTORY and root.context is None, "the root is a plain directory")
    entries = [entry for entry in volume.entries if entry]
    for number, inode in enumerate(volume.inodes[1:], 1):
        count = sum(entry.inode == number for entry in entries)
        must((inode is not None) == (count > 0), f"inode {number} has {count} entries")
        must(inode is None or inode.kind != DIRECTORY or count == 1, f"directory {number} once")
    for entry in entries:
        parent, inode = volume.inodes[entry.parent], volume.inodes[entry.inode]
        must(parent.kind == DIRECTORY and 1 <= len(entry.stored) <= 255, f"{entry} has a place")
        must(inode.kind != SPECIAL or inode.context is None, f"{entry}: special without context")
        if parent.context and inode.kind != SPECIAL:
            has = inode.context and inode.context.policy
            must(has == parent.context.policy, f"{entry} has its directory's policy")
    nonces = [inode.context.nonce for inode in volume.inodes if inode and inode.context]
    must(len(nonces) == len(set(nonces)), "no nonce twice")
    names = [(entry.parent, entry.stored) for entry in entries]
    must(len(names) == len(set(names)), "no name twice in a directory")
    must(len(volume.inodes) == INODES and len(volume.entries) == ENTRIES, "tables of one size")


def random_volumes():
    """Volumes stay sound; a refused request changes nothing; spellings mean the same."""
    for profile, weights in PROFILES.items():
        dice = Dice("selftest " + profile)
        steered = Steered(dice, weights, ManyKeys(dice))
        steered.begin()
        for _ in range(250):
            before = repr(vars(steered.volume))
            steered.step()
            request = steered.requests[-1]
            sound(steered.volume)
            if steered.refused:
                must(repr(vars(steered.volume)) == before, f"{request} changed the volume")
        plain = b"".join(usual(request) + b"\n" for request in steered.requests)
        other = b"\n".join(any_spelling(dice, request) for request in steered.requests)
        must(answers(plain) == answers(other), f"{profile}: spellings mean the same")


CHECKS = (starred_cases, contexts, standard_vectors, same_ciphers, same_names,
          same_stored_names, same_policies, orders, random_volumes)


def selftest():
    """Run all checks; returns the number that fail."""
    failed = 0
    for check in CHECKS:
        try:
            check()
        except Failed as wrong:
            failed += 1
            print(f"{check.__name__}: failed: {wrong}")
        else:
            print(f"{check.__name__}: passed")
    return failed
