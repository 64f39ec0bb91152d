"""Requests in which two checks fail at once: the earlier one of document 01's order must win.

On a volume that has something of everything, many argument combinations are
tried on the model without making the request. Of those that fail in two checks
or more, as few as possible are taken so that each pair (the first failing
check, another failing check) that was met stands in the script.
"""

from itertools import product

from bulwarkle_model.script import Request

from .spelling import usual
from .written import Case, descriptor, key, nonce, policy

BENCH = """
# Inode numbers: 1 plain; 2 held (policy A3, key held); 3 lost (B2, key removed later);
# 4 other (A2, key held); 15 a plain directory with encrypted ones below it
add-key <A> <A.64>            -> ok
add-key <B> <B.64>            -> ok
create 0 1 =plain -           -> ok 1 0
create 0 1 =held -            -> ok 2 1
set-policy 2 <A3> <n:held>    -> ok
create 0 1 =lost -            -> ok 3 2
set-policy 3 <B2> <n:lost>    -> ok
create 0 1 =other -           -> ok 4 3
set-policy 4 <A2> <n:other>   -> ok
create 1 2 =file -            -> ok 5 4
create 1 4 =special -         -> ok 6 5
create 2 2 =file <n:7>        -> ok 7 6
create 2 4 =special -         -> ok 8 7
create 2 1 =sub <n:9>         -> ok 9 8
create 9 2 =file <n:10>       -> ok 10 9
create 3 2 =file <n:11>       -> ok 11 10
create 3 4 =special -         -> ok 12 11
create 3 1 =sub <n:13>        -> ok 13 12
create 13 2 =deep <n:14>      -> ok 14 13
create 1 1 =top -             -> ok 15 14
create 15 1 =held-below -     -> ok 16 15
set-policy 16 <A3> <n:16>     -> ok
create 16 4 =special -        -> ok 17 16
create 15 1 =lost-below -     -> ok 18 17
set-policy 18 <B2> <n:18>     -> ok
create 18 4 =special -        -> ok 19 18
create 15 1 =empty -          -> ok 20 19
link 7 1 =held-file           -> ok 20
link 11 1 =lost-file          -> ok 21
create 4 2 =file <n:21>       -> ok 21 22
remove-key <B>                -> ok
"""

INODES = (*range(22), 63, 64)
ENTRIES = (*range(23), 63, 64)
NAMES = (b"", b"x" * 256, b"/" * 256, b"a/b", b".", b"file", b"special", b"empty", b"fresh")
NONCES = (nonce("held"), nonce("fresh"))
POLICIES = (policy("A", 3), policy("A", 2), policy("B", 2), b"\0", policy("A", 7),
            b"\1" + policy("A", 3)[1:], b"\0\5\6" + policy("A", 3)[3:], b"\0\5\6\7" + bytes(8),
            b"\1\5\6\7" + bytes(8))
BLOCKS = (b"", b"x" * 4096)

ARGUMENTS = {
    "add-key": ([descriptor("A"), descriptor("Z")], [key("A"), key("A", "", 63)]),
    "set-policy": (INODES, POLICIES, NONCES),
    "create": (INODES, (2, 4, 9), NAMES, NONCES),
    "link": (INODES, INODES, NAMES),
    "rename": (ENTRIES, INODES, NAMES),
    "exchange": (ENTRIES, ENTRIES),
    "find": (INODES, NAMES),
    "show": (ENTRIES, (254, 255)),
    "seal": (INODES, (0,), BLOCKS),
    "open": (INODES, (0,), BLOCKS),
}


def pairs_of(failing):
    """The first failing check with each other one."""
    return {(failing[0], other) for other in failing[1:]}


def _candidates(volume, word):
    """Requests that fail in two checks or more, with their pairs."""
    found = []
    for arguments in product(*ARGUMENTS[word]):
        request = Request(word, arguments)
        failing = volume.failing(request.method, *arguments)
        if len(failing) > 1:
            found.append((request, pairs_of(failing)))
    return found


def _fewest(candidates, covered):
    """Requests that cover all pairs not yet covered, the ones with most new pairs first."""
    taken = []
    while candidates:
        candidates = [(request, pairs - covered) for request, pairs in candidates
                      if pairs - covered]
        if candidates:
            request, pairs = max(candidates, key=lambda one: (len(one[1]), -len(usual(one[0]))))
            taken.append(request)
            covered |= pairs
    return taken


def _add_corners(case, covered):
    for word in ARGUMENTS:
        case.line(b"# " + word.encode("ascii"))
        known = covered.setdefault(word, set())
        for request in _fewest(_candidates(case.volume, word), known):
            case.line(usual(request))


def order_of_checks():
    """Two scripts: with room left, and with the keyring, the inodes and the entries full."""
    covered = {}
    roomy = Case().text(BENCH)
    _add_corners(roomy, covered)
    # Inodes and entries are both full only where no more than one inode has a second entry.
    full = Case().text(BENCH).text("remove 20 -> ok")
    for maker in "CDEFGHI":
        full.line(b"add-key %s %s" % (descriptor(maker).hex().encode(),
                                      key(maker, "", 16).hex().encode()), "ok")
    while None in full.volume.inodes:
        full.line(b"create 0 4 =filler%d -" % full.volume.inodes.index(None), "ok *")
    while None in full.volume.entries:
        full.line(b"link 5 0 =filler-link%d" % full.volume.entries.index(None), "ok *")
    _add_corners(full, covered)
    return roomy.audit(), full.audit()
