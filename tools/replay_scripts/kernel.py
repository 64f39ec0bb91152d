"""Comparing the model with what a Linux kernel wrote (names, blocks, policies) and answered.

Only the pair 1/4 (AES-256-XTS with AES-256-CTS) is in document 01. The file's
other pairs are policies it refuses. Of the kernel's answers to whole requests
those to link and rename are compared: each that cases_kernel does not leave out is
asked of a fresh volume, as the stored scripts ask cases_kernel's copies.
"""

import json
from collections import Counter

from bulwarkle_model.ciphers import derive_key, encrypt_cts
from bulwarkle_model.names import NAME_MAX, padded_length
from bulwarkle_model.policy import read_context, read_policy
from bulwarkle_model.volume import DIRECTORY, REGULAR, Volume

from . import cases_kernel
from .written import CaseError

PAIR = "1/4"


class NotValues(Exception):
    """A file that does not have the values of a kernel."""


def _volume_with(case, context):
    """A volume with the key of a case and, as inode 1, a directory with the policy."""
    volume = Volume()
    volume.add_key(context.policy.descriptor, bytes.fromhex(case["master_key"]))
    volume.create(0, DIRECTORY, b"directory", bytes(16))
    return volume


def _name_differs(case):
    context = read_context(bytes.fromhex(case["dir_context"]))
    name, stored = bytes.fromhex(case["plain"]), bytes.fromhex(case["cipher"])
    volume = _volume_with(case, context)
    volume.set_policy(1, context.policy.to_bytes(), context.nonce)
    _, entry = volume.create(1, REGULAR, name, bytes(16))
    if padded_length(len(name), context.policy.padding) != len(stored):
        # Rounding passes 255: the kernel pads to 255 and document 01 does not, so
        # only the cipher can be compared.
        key = derive_key(bytes.fromhex(case["master_key"]), context.nonce)[:32]
        padded = name.ljust(NAME_MAX, b"\0")
        return len(stored) != NAME_MAX or encrypt_cts(key, padded) != stored
    shown = volume.show(entry, NAME_MAX)
    return volume.entries[entry].stored != stored or shown.name != name


def _block_differs(case):
    context = read_context(bytes.fromhex(case["file_context"]))
    volume = _volume_with(case, context)
    volume.set_policy(1, context.policy.to_bytes(), bytes(16))
    inode, _ = volume.create(1, REGULAR, b"file", context.nonce)
    plain, stored = bytes.fromhex(case["plain"]), bytes.fromhex(case["cipher"])
    return (volume.seal(inode, case["block"], plain) != stored
            or volume.open(inode, case["block"], stored) != plain)


def _policy_differs(case):
    """Valid for the model exactly where the kernel takes it and the pair is 1/4."""
    contents, names, flags, errno = case
    taken = read_policy(bytes([0, contents, names, flags]) + bytes(8)) is not None
    return taken != (errno == "0" and (contents, names) == (1, 4))


def _cases(path):
    """The names, blocks, policies, links and renames of a file.

    tools/vectors.py describes the first three. The links and renames are in
    semantics, a list of {group, case, what, errno}.
    """
    try:
        values = json.loads(path.read_text(encoding="ascii"))
        names, blocks = ([case for case in values[kind] if case["pair"] == PAIR]
                         for kind in ("names", "blocks"))
        rows = [(str(row["group"]), str(row.get("case")), str(row.get("errno")))
                for row in values["semantics"]]
        moves = [row for row in rows if cases_kernel.is_move(*row[:2])]
        return names, blocks, values["policy_bytes"], moves
    except (KeyError, TypeError, ValueError) as wrong:
        raise NotValues(f"{path} is not the kernel's values: "
                        f"{type(wrong).__name__}: {wrong}") from None


def _judge(row, copies):
    """What became of a link or rename on a fresh volume, and what is wrong or None."""
    group, case, errno = row
    if copies.get((group, case), errno) != errno:
        return "differ", f"the copy has {copies[group, case]}"
    if cases_kernel.left_out(row):
        return "left out", None
    try:
        cases_kernel.Replay().row(*row)
    except cases_kernel.Unread as wrong:
        return "unread", wrong
    except CaseError as wrong:
        return "differ", wrong
    return "other" if cases_kernel.differs(row) else "same", None


def _check_moves(rows):
    """Ask a file's links and renames; returns the number that differ or cannot be read."""
    copies = {(group, case): errno for group, case, errno in cases_kernel.rows()}
    judged = [(row, *_judge(row, copies)) for row in rows]
    counts = Counter(outcome for _, outcome, _ in judged)
    compared = counts["same"] + counts["other"] + counts["differ"]
    print(f"links and renames: {compared} compared, {counts['differ']} differ; "
          f"{counts['left out']} left out, {counts['unread']} cannot be read")
    print(f"  {counts['same']} get the kernel's number, "
          f"{counts['other']} EEXIST since rename does not replace")
    cases = {row[:2] for row in rows}
    print(f"  {len(cases - copies.keys())} cases of the file are not among the copies, "
          f"{len(copies.keys() - cases)} copies are not in the file")
    for row, outcome, wrong in judged:
        if wrong:
            print(f"  {outcome}: {row}: {wrong}")
    return counts["differ"] + counts["unread"]


def check(path):
    """Compare with all cases of a file; returns the number that differ or cannot be read.

    Of names whose rounding passes 255 only the cipher is compared, see above.
    """
    names, blocks, policies, moves = _cases(path)
    differing = 0
    for title, cases, differs in (("names", names, _name_differs),
                                  ("blocks", blocks, _block_differs),
                                  ("policies", policies, _policy_differs)):
        wrong = [case for case in cases if differs(case)]
        print(f"{title}: {len(cases)} compared, {len(wrong)} differ")
        for case in wrong:
            print(f"  {str(case)[:200]}")
        differing += len(wrong)
    return differing + _check_moves(moves)
