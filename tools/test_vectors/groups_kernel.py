"""The kernel's group: what a Linux kernel wrote to disk, and answered. It comes from a JSON file, or from the stored files."""

import json
from pathlib import Path

from .errors import stop
from .files import stored_lines
from .material import counting
from .rules import padded_length, rounded

KERNEL = "# Linux 6.1, fscrypt with version 1 policies on ext4, AES-256-XTS with AES-256-CTS (pair 1/4): what the kernel wrote to disk, and answered."


def by_context(values, context):
    """The values grouped by master key and context, in their order."""
    groups = {}
    for value in values:
        groups.setdefault((bytes.fromhex(value["master_key"]), bytes.fromhex(value[context])), []).append(value)
    return groups.items()


def kernel_names(lines, names):
    """Names by the ciphers, where the padded length is at most 255: stored is the ciphertext of the plain name, filled up with zeros. Then all by the context."""
    for (master, context), group in by_context(names, "dir_context"):
        flags = context[3]
        pairs = [(bytes.fromhex(v["plain"]), bytes.fromhex(v["cipher"])) for v in group]
        taken = [(plain, stored) for plain, stored in pairs if rounded(len(plain), flags) <= 255]
        lines.group(
            f"A directory whose names are filled up to multiples of {4 << flags}: its derived key, and {len(taken)} names under its first 32 bytes.",
            f"Left out: {len(pairs) - len(taken)} names whose padded length passes 255, which the kernel fills up to 255 and Bulwarkle leaves as long as they are.",
        )
        key = lines.ask("ecb-encrypt", context[-16:], master)
        for plain, stored in taken:
            lines.both_ways("cts", key[:32], plain.ljust(padded_length(len(plain), flags), b"\0"), published=stored)
        kernel_whole_names(lines, master, context, taken, [pair for pair in pairs if pair not in taken])


def kernel_whole_names(lines, master, context, taken, kept):
    """The same names by the context. Where the rounding passes 255 the kernel differs from document 01: it fills such a name up to 255 bytes, and document 01
    has it keep its own length. The expected values are document 01's, as this script computes them; at 255 bytes both are the same.
    """
    lines.group(f"The same directory, by its context and master key: {len(taken)} names as the kernel stored them, and read back")
    lines.ask("context", context, published=context)
    for plain, stored in taken:
        lines.stored_and_read(context, master, plain, published=stored)
    lines.group(
        f"The same directory: {len(kept)} names whose rounding passes 255. Here the kernel differs: it fills them up to 255 bytes.",
        "Document 01 has them keep their own length, and these answers are document 01's, from the independent implementation.",
    )
    for plain, kernel_stored in kept:
        stored = lines.stored_and_read(context, master, plain)
        if len(stored) != len(plain) or len(kernel_stored) != 255 or (stored == kernel_stored) != (len(plain) == 255):
            stop(f"a name of {len(plain)} bytes is not stored as document 01 and the kernel are said to")


def kernel_policies(lines, verdicts):
    """Whether the kernel took a policy, by its modes and flags. Pairs 5/6 and 9/9, which the kernel takes and document 01 does not, are left out."""
    kept = [verdict for verdict in verdicts if verdict[:2] not in ([5, 6], [9, 9])]
    lines.group(f"{len(kept)} policies, by contents mode, names mode and flags, and whether the kernel took them; pairs 5/6 and 9/9 are left out")
    for contents, names, flags, verdict in kept:
        policy = bytes([0, contents, names, flags]) + counting(8)
        lines.tell("policy", policy, answer={"0": f"0 {policy.hex()}", "EINVAL": "22"}[verdict])


def kernel_blocks(lines, blocks):
    for (master, context), group in by_context(blocks, "file_context"):
        numbers = ", ".join(str(v["block"]) for v in group)
        lines.group(f"A regular file: its derived key, and its blocks {numbers}")
        key = lines.ask("ecb-encrypt", context[-16:], master)
        for v in group:
            lines.both_ways("xts", key, bytes.fromhex(v["plain"]), published=bytes.fromhex(v["cipher"]), number=(v["block"],))


def kernel_from_json(lines, path):
    """The group, made from the kernel's values."""
    try:
        values = json.loads(Path(path).read_text())
        names, blocks = ([v for v in values[kind] if v["pair"] == "1/4"] for kind in ("names", "blocks"))
        lines.take("")
        lines.take(KERNEL)
        lines.say("A derived key is the master key, encrypted by AES-128 in ECB under the nonce that ends the context.")
        kernel_names(lines, names)
        kernel_blocks(lines, blocks)
        kernel_policies(lines, values["policy_bytes"])
    except (OSError, KeyError, TypeError, ValueError) as why:
        stop(f"{path} is not the kernel's values: {type(why).__name__}: {why}")


def kernel_as_stored(lines):
    """The group, as the stored files have it; each answer is computed again."""
    requests, answers = stored_lines("stdin"), stored_lines("stdout")
    if KERNEL not in requests or len(requests) != len(answers):
        stop("the stored files have no kernel's group, or differ in their number of lines: give the path of the kernel's values")
    at = requests.index(KERNEL)
    lines.take("")
    for request, stored in zip(requests[at:], answers[at:]):
        lines.take(request)
        if lines.stdout[-1] != stored:
            stop(f"the independent implementation does not agree with a stored answer of the kernel's group: {request[:200]}")
