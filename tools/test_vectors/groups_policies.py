"""The groups of policies and contexts: worked cases of document 01, good ones, bad ones, and two compared."""

from .material import counting, made, made_context, made_policy, with_byte
from .published import POLICY_CASES

# What a format, a version or a mode may be instead of what it is to be, and the flags instead of 0 to 3.
OTHER_BYTES = [0, 1, 2, 3, 4, 5, 6, 7, 8, 9, 10, 64, 127, 128, 254, 255]
OTHER_FLAGS = [4, 5, 6, 7, 8, 12, 16, 32, 64, 128, 252, 255]


def worked_policies(lines):
    lines.group("Document 01, worked cases: policies. 00 01 04 03 is valid, 00 01 04 04 and 00 05 06 00 are EINVAL")
    descriptor = made("worked descriptor", 8)
    for start, errno in POLICY_CASES:
        policy = bytes.fromhex(start) + descriptor
        lines.tell("policy", policy, answer=str(errno) if errno else f"0 {policy.hex()}")
    lines.group("Document 01, worked cases: the same descriptor, flags 2 against 3")
    lines.tell("same-policy", made_policy("worked", 2), made_policy("worked", 3), answer="0 no")


def policies(lines):
    lines.group("Policies: each of the flags, with several descriptors, read and written back")
    for flags in (0, 1, 2, 3):
        for descriptor in (bytes(8), b"\xff" * 8, counting(8), made(f"policy descriptor {flags}", 8)):
            policy = bytes([0, 1, 4, flags]) + descriptor
            lines.ask("policy", policy, published=policy)
    lines.group("Policies with another version, another contents mode, another names mode, other modes, other flags: EINVAL")
    good = made_policy("bad policies", 2)
    for at, right in ((0, 0), (1, 1), (2, 4)):
        for value in OTHER_BYTES:
            if value != right:
                lines.tell("policy", with_byte(good, at, value), answer="22")
    for contents, names in ((4, 1), (5, 6), (9, 9), (1, 9), (0, 0), (255, 255)):
        lines.tell("policy", bytes([0, contents, names, 0]) + good[4:], answer="22")
    for flags in OTHER_FLAGS:
        lines.tell("policy", with_byte(good, 3, flags), answer="22")
    lines.group("Policies of other lengths than 12, a context among them: EINVAL")
    for length in (0, 1, 3, 4, 8, 11, 13, 16, 24, 28, 40, 255, 256, 4200):
        lines.tell("policy", (good * 350)[:length], answer="22")
    lines.tell("policy", made_context("as a policy", 0), answer="22")


def contexts(lines):
    lines.group("Contexts: each of the flags, with several nonces, read and written back")
    for flags in (0, 1, 2, 3):
        for nonce in (bytes(16), b"\xff" * 16, counting(16), made(f"context nonce {flags}", 16)):
            context = made_context(f"context {flags}", flags)[:12] + nonce
            lines.ask("context", context, published=context)
    lines.group("Contexts with another format, another contents mode, another names mode, other modes, other flags: EINVAL")
    good = made_context("bad contexts", 1)
    for at, right in ((0, 1), (1, 1), (2, 4)):
        for value in OTHER_BYTES:
            if value != right:
                lines.tell("context", with_byte(good, at, value), answer="22")
    for contents, names in ((4, 1), (5, 6), (9, 9)):
        lines.tell("context", bytes([1, contents, names, 0]) + good[4:], answer="22")
    for flags in OTHER_FLAGS:
        lines.tell("context", with_byte(good, 3, flags), answer="22")
    lines.group("Contexts of other lengths than 28, a policy among them, and Linux's contexts of version 2, which have 40 bytes: EINVAL")
    for length in (0, 1, 4, 11, 12, 16, 27, 29, 32, 40, 56, 255, 256, 4200):
        lines.tell("context", (good * 150)[:length], answer="22")
    lines.tell("context", bytes([2]) + good[1:] + bytes(12), answer="22")
    lines.tell("context", made_policy("as a context", 0), answer="22")


def same_policies(lines):
    one = made_policy("compared", 1)
    lines.group("Two policies: the same; others in the flags; others in one byte of the descriptor, or in one bit; others in all of it")
    for flags in range(4):
        for other in range(4):
            lines.tell("same-policy", with_byte(one, 3, flags), with_byte(one, 3, other), answer="0 yes" if flags == other else "0 no")
    for at in range(4, 12):
        lines.tell("same-policy", one, with_byte(one, at, one[at] ^ 1 << (at - 4)), answer="0 no")
        lines.tell("same-policy", with_byte(one, at, one[at] ^ 0xFF), one, answer="0 no")
    lines.tell("same-policy", one, made_policy("compared with", 1), answer="0 no")
    lines.group("Two policies, of which the first, the second or both are none: EINVAL")
    for wrong in (b"", one[:11], one + b"\0", with_byte(one, 0, 1), with_byte(one, 1, 5), with_byte(one, 2, 6), with_byte(one, 3, 4)):
        for pair in ((wrong, one), (one, wrong), (wrong, wrong)):
            lines.tell("same-policy", *pair, answer="22")
