"""Policies, contexts and names, by the rules of document 01."""

import base64
import collections

from .ciphers import cts_decrypt, cts_encrypt, ecb_encrypt
from .errors import EINVAL, ENAMETOOLONG, ENOENT, EUCLEAN, Refused, stop

Policy = collections.namedtuple("Policy", "version contents names flags descriptor")
Context = collections.namedtuple("Context", "policy nonce")


def check_policy(policy):
    """Document 01: "Valid: version 0; contents 1 with names 4; flags 0 to 3. All else is EINVAL"."""
    if policy.version != 0 or (policy.contents, policy.names) != (1, 4) or policy.flags not in (0, 1, 2, 3):
        raise Refused(EINVAL)


def read_policy(data):
    if len(data) != 12:
        raise Refused(EINVAL)
    policy = Policy(data[0], data[1], data[2], data[3], data[4:12])
    check_policy(policy)
    return policy


def policy_bytes(policy):
    return bytes([policy.version, policy.contents, policy.names, policy.flags]) + policy.descriptor


def read_context(data):
    """Document 01: "format 1, the two modes, flags, descriptor, nonce of 16": it has no version of a policy, which is 0."""
    if len(data) != 28 or data[0] != 1:
        raise Refused(EINVAL)
    policy = Policy(0, data[1], data[2], data[3], data[4:12])
    check_policy(policy)
    return Context(policy, data[12:28])


def context_bytes(context):
    policy = context.policy
    return bytes([1, policy.contents, policy.names, policy.flags]) + policy.descriptor + context.nonce


def check_name(name):
    """Document 01: "Order with names: empty, too long, bad byte or dot name"."""
    if name == b"":
        raise Refused(ENOENT)
    if len(name) > 255:
        raise Refused(ENAMETOOLONG)
    if b"\0" in name or b"/" in name or name in (b".", b".."):
        raise Refused(EINVAL)


def is_plain(name):
    try:
        check_name(name)
        return True
    except Refused:
        return False


def rounded(length, flags):
    """Document 01: "the greater of the length and 16, rounded up to the policy's multiple"."""
    multiple = (4, 8, 16, 32)[flags]
    length = max(length, 16)
    while length % multiple:
        length += 1
    return length


def padded_length(length, flags):
    """Document 01: "If that passes 255, the name keeps its own length"."""
    return length if rounded(length, flags) > 255 else rounded(length, flags)


def name_key(context, master):
    """Document 01: "The derived key is the master key encrypted in blocks of 16 by AES-128 in ECB mode, the nonce being the AES key; it is cut to the first
    32 bytes for names".
    """
    return ecb_encrypt(context.nonce, master)[:32]


def store_name(context, master, name):
    check_name(name)
    return cts_encrypt(name_key(context, master), name.ljust(padded_length(len(name), context.policy.flags), b"\0"))


def read_name(context, master, stored):
    """Document 01: "Decryption takes the bytes before the first NUL." No padded length is below 16, so a shorter stored name is EUCLEAN, whatever it
    would decrypt to.
    """
    if len(stored) < 16:
        raise Refused(EUCLEAN)
    name, _, rest = cts_decrypt(name_key(context, master), stored).partition(b"\0")
    if any(rest) or not is_plain(name) or padded_length(len(name), context.policy.flags) != len(stored):
        raise Refused(EUCLEAN)
    return name


ALPHABET = b"ABCDEFGHIJKLMNOPQRSTUVWXYZabcdefghijklmnopqrstuvwxyz0123456789+,"


def letters(data):
    """Six binary digits to a letter, the last filled up with zeros."""
    digits = "".join(f"{b:08b}" for b in data)
    digits += "0" * (-len(digits) % 6)
    shown = bytes(ALPHABET[int(digits[i : i + 6], 2)] for i in range(0, len(digits), 6))
    if shown != base64.b64encode(data, b"+,").rstrip(b"="):
        stop(f"the letters of {data.hex()} are not those of base64")
    return shown


def encode_name(number, stored):
    """A stored name without its key: its letters. Of more than 160 bytes: `_`, the letters of the first 160, and the entry's number as two lower case
    hex digits; of a number above 255 the two low ones.
    """
    return letters(stored) if len(stored) <= 160 else b"_" + letters(stored[:160]) + f"{number % 256:02x}".encode()
