"""Policies (12 bytes) and contexts (28 bytes)."""

from typing import NamedTuple

POLICY_LENGTH = 12
CONTEXT_LENGTH = 28
CONTEXT_FORMAT = 1
VALID_MODES = (1, 4)  # contents AES-256-XTS with names AES-256-CTS-CBC
KEY_LENGTH = 64       # a shorter key is held, but counts as absent


class Policy(NamedTuple):
    """What two inodes must have in common to stand in one encrypted directory."""

    version: int
    contents: int
    names: int
    flags: int
    descriptor: bytes

    def to_bytes(self):
        return bytes(self[:4]) + self.descriptor

    @property
    def padding(self):
        """Names are padded to a multiple of this: 4, 8, 16 or 32."""
        return 4 << self.flags


class Context(NamedTuple):
    """A policy and the nonce of one inode."""

    policy: Policy
    nonce: bytes

    def to_bytes(self):
        return bytes([CONTEXT_FORMAT]) + self.policy.to_bytes()[1:] + self.nonce


def policy_faults(raw):
    """What is wrong with the bytes of a policy: pairs of a reason and whether it holds."""
    whole = len(raw) == POLICY_LENGTH
    return [
        ("policy-length", not whole),
        ("policy-version", whole and raw[0] != 0),
        ("policy-modes", whole and (raw[1], raw[2]) != VALID_MODES),
        ("policy-flags", whole and raw[3] > 3),
    ]


def read_policy(raw):
    """The policy in `raw`, or None where it is not valid."""
    if any(fault for _, fault in policy_faults(raw)):
        return None
    return Policy(raw[0], raw[1], raw[2], raw[3], raw[4:])


def read_context(raw):
    """The context in `raw`, or None where it is not valid."""
    if len(raw) != CONTEXT_LENGTH or raw[0] != CONTEXT_FORMAT:
        return None
    policy = read_policy(bytes(1) + raw[1:POLICY_LENGTH])
    return policy and Context(policy, raw[POLICY_LENGTH:])
