"""The group of lines that are no request."""

from .answers import MOST_BYTES
from .errors import stop
from .material import counting, made, made_context, made_policy


def malformed_policies():
    policy, context = made_policy("malformed", 0).hex(), made_context("malformed", 0).hex()
    return (
        "policy",
        "policy ",
        "policy " + policy[1:],
        "policy " + policy + " -",
        "Policy " + policy.upper(),
        "policy\t" + policy + "\t" + policy,
        "policies " + policy,
        "policy " + "00" * (MOST_BYTES + 1),
        "context",
        "context " + context[1:],
        "context " + context + " " + context,
        "context " + context[:-1] + "g",
        "same-policy",
        "same-policy " + policy,
        "same-policy " + policy + " ",
        "same-policy " + policy + " " + policy + " " + policy,
        "same-policy " + policy + " " + policy[1:],
        "same-policy " + policy[:-1] + " " + policy,
    )


def malformed_names():
    context, master, stored = made_context("malformed", 0).hex(), made("malformed master", 64).hex(), made("malformed stored", 16).hex()
    return (
        "check-name",
        "check-name ",
        "check-name a",
        "check-name --",
        "check-name .",
        "check-name 61 61",
        "check-name " + "61" * (MOST_BYTES + 1),
        "store-name",
        "store-name " + context,
        "store-name " + context + " " + master,
        "store-name " + context + " " + master + " ",
        "store-name " + context + " " + master + " 6",
        "store-name " + context + " " + master + " 61 61",
        *("store-name " + context + " " + wrong + " 61" for wrong in ("-", master[2:], master + "00", master[1:], "", master[:64], "=" + master)),
        "store-name - " + master[2:] + " 61",
        "store-name " + context[1:] + " " + master + " 61",
        "read-name",
        "read-name " + context + " " + master,
        *("read-name " + context + " " + master + " " + wrong for wrong in ("-", "", stored[1:], "00" * 256, "00" * 257, "00" * 4200, stored + " " + stored)),
        *("read-name " + context + " " + wrong + " " + stored for wrong in ("-", master[2:], master + "00")),
        "read-name - - " + stored,
        "encode-name",
        "encode-name 0",
        *("encode-name " + wrong + " " + stored for wrong in ("-", "-1", "0x0", "a", "18446744073709551616", "")),
        *("encode-name 0 " + wrong for wrong in ("-", "", "0", "00" * 256, "00" * 4200, stored + " 0")),
    )


def malformed(lines):
    lines.group("Lines that are no request")
    key, text = counting(16).hex(), counting(32).hex()
    for line in (
        "hello",
        " ",
        "ecb-decrypt " + key + " " + text,
        "key-expansion",
        "key-expansion " + key[2:],
        "key-expansion -",
        "ecb-encrypt",
        "ecb-encrypt " + key,
        "ecb-encrypt " + key + " ",
        " #",
        "ecb-encrypt " + key + " " + text + "\t-",
        "cts-encrypt " + key + " " + text + " " + text,
        "cts-encrypt " + key + " " + text[1:],
        "cts-decrypt " + key + text,
        "cts-decrypt " + key + " " + text[:-1] + "g",
        "cts-decrypt " + key + " --",
        "xts-encrypt " + key + " " + text,
        "xts-encrypt " + key + " 1 " + text + " 1",
        "xts-decrypt " + key + " 99999999999999999999 " + text,
        "xts-decrypt " + key + " 1",
        *malformed_policies(),
        *malformed_names(),
    ):
        lines.take(line)
        if lines.stdout[-1] != "malformed":
            stop(f"a line that is to be malformed is not: {line}")
