"""Byte strings for requests, those made from a label by SHAKE-256 among them."""

import hashlib


def made(label, length):
    """A byte string that is the same at each run, and another for another label."""
    return hashlib.shake_256(f"bulwarkle cipher vectors: {label}".encode()).digest(length)


def made_name(label, length):
    """A plain name: no NUL and no `/`."""
    return made(label, length).translate(bytes(b if b not in b"\0/" else 0x61 for b in range(256)))


def made_policy(label, flags):
    return bytes([0, 1, 4, flags]) + made(f"descriptor {label}", 8)


def made_context(label, flags):
    return bytes([1, 1, 4, flags]) + made(f"descriptor {label}", 8) + made(f"nonce {label}", 16)


def with_byte(data, at, value):
    return data[:at] + bytes([value]) + data[at + 1 :]


def counting(length):
    return bytes(i % 256 for i in range(length))
