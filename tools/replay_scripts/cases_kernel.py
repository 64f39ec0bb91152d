"""What a Linux kernel answered to link and rename, and the same asked of the volume.

The answers are copies: Linux 6.1, ext4, policies of version 1. In a case
`KIND:FROM->TO` an inode of that kind was created in the directory FROM and then
linked or renamed into TO, which in `enc->enc` and `plain->plain` is FROM itself.
All keys are present, except in the group nokey. Cases that document 01 can express
become requests, and the one that a case is about must be answered with the kernel's
number, whatever the model says: `error 18 EXDEV`, `error 126 ENOKEY`, or done.
Where document 01 differs, its number is required instead (DIFFERS). Where the
required answer is not given, no script is made.
"""

import re
from collections import defaultdict
from fnmatch import fnmatchcase
from typing import NamedTuple

from bulwarkle_model.volume import DIRECTORY, REGULAR, SPECIAL, SYMLINK

from .written import Case, CaseError, nonce, policy

# The answers by group and case: the name of an errno, or 0 where it was done. They are all
# that the kernel's file has in the groups link, rename and rename_*, and five of its group
# nokey, whose other cases are about other requests.
ANSWERS = {
    "link": {
        "plain_tmpfile_into_encrypted": "EXDEV",
        "symlink:plain->enc": "EXDEV",
        "fifo:plain->enc": "0",
        "chardev:plain->enc": "0",
        "socket:plain->enc": "0",
        "file:enc->plain": "0",
        "symlink:enc->enc_other_flags": "EXDEV",
        "fifo:enc->enc_other_flags": "0",
        "chardev:enc->enc_other_flags": "0",
        "socket:enc->enc_other_flags": "0",
        "file:enc->enc_other_descriptor": "EXDEV",
        "symlink:enc->enc": "0",
        "fifo:enc->enc": "0",
        "chardev:enc->enc": "0",
        "socket:enc->enc": "0",
        "file:plain->plain": "0",
    },
    "rename": {
        "dir:enc->plain": "0",
        "symlink:enc->plain": "0",
        "fifo:enc->plain": "0",
        "chardev:enc->plain": "0",
        "socket:enc->plain": "0",
        "file:enc->enc_same_policy": "0",
        "dir:enc->enc_other_descriptor": "EXDEV",
        "symlink:enc->enc_other_descriptor": "EXDEV",
        "fifo:enc->enc_other_descriptor": "0",
        "chardev:enc->enc_other_descriptor": "0",
        "socket:enc->enc_other_descriptor": "0",
        "file:enc->enc_other_modes": "EXDEV",
        "dir:plain->plain": "0",
        "symlink:plain->plain": "0",
        "fifo:plain->plain": "0",
        "chardev:plain->plain": "0",
        "socket:plain->plain": "0",
        "file:enc/sub->enc": "0",
        "file:enc->plain_roundtrip_3": "0",
    },
    "rename_noreplace": {
        "file:plain->enc": "EXDEV",
        "dir:enc->enc_same_policy": "0",
        "symlink:enc->enc_same_policy": "0",
        "fifo:enc->enc_same_policy": "0",
        "chardev:enc->enc_same_policy": "0",
        "socket:enc->enc_same_policy": "0",
        "file:enc->enc_other_flags": "EXDEV",
        "dir:enc->enc_other_modes": "EXDEV",
        "symlink:enc->enc_other_modes": "EXDEV",
        "fifo:enc->enc_other_modes": "0",
        "chardev:enc->enc_other_modes": "0",
        "socket:enc->enc_other_modes": "0",
        "file:enc->enc": "0",
    },
    "rename_whiteout": {
        "file:plain->enc": "EXDEV",
        "dir:enc->enc_same_policy": "0",
        "symlink:enc->enc_same_policy": "0",
        "fifo:enc->enc_same_policy": "0",
        "chardev:enc->enc_same_policy": "0",
        "socket:enc->enc_same_policy": "0",
        "file:enc->enc_other_flags": "EXDEV",
        "dir:enc->enc_other_modes": "EXDEV",
        "symlink:enc->enc_other_modes": "EXDEV",
        "fifo:enc->enc_other_modes": "0",
        "chardev:enc->enc_other_modes": "0",
        "socket:enc->enc_other_modes": "0",
        "file:enc->enc": "0",
    },
    "rename_over": {
        "dir:plain->enc": "EXDEV",
        "symlink:plain->enc": "EXDEV",
        "fifo:plain->enc": "0",
        "chardev:plain->enc": "0",
        "socket:plain->enc": "0",
        "file:enc->plain": "0",
        "dir:enc->enc_other_flags": "EXDEV",
        "symlink:enc->enc_other_flags": "EXDEV",
        "fifo:enc->enc_other_flags": "0",
        "chardev:enc->enc_other_flags": "0",
        "socket:enc->enc_other_flags": "0",
        "file:enc->enc_other_descriptor": "EXDEV",
        "dir:enc->enc": "0",
        "symlink:enc->enc": "0",
        "fifo:enc->enc": "0",
        "chardev:enc->enc": "0",
        "socket:enc->enc": "0",
        "file:plain->plain": "0",
    },
    "rename_exchange": {
        "dir:enc->plain": "EXDEV",
        "symlink:enc->plain": "EXDEV",
        "fifo:enc->plain": "0",
        "chardev:enc->plain": "0",
        "socket:enc->plain": "0",
        "file:enc->enc_same_policy": "0",
        "dir:enc->enc_other_descriptor": "EXDEV",
        "symlink:enc->enc_other_descriptor": "EXDEV",
        "fifo:enc->enc_other_descriptor": "0",
        "chardev:enc->enc_other_descriptor": "0",
        "socket:enc->enc_other_descriptor": "0",
        "file:enc->enc_other_modes": "EXDEV",
        "dir:plain->plain": "0",
        "symlink:plain->plain": "0",
        "fifo:plain->plain": "0",
        "chardev:plain->plain": "0",
        "socket:plain->plain": "0",
        "file:plain<->fifo:enc": "EXDEV",
    },
    "rename_top": {
        "to_same_policy": "0",
        "to_other_descriptor": "EXDEV",
    },
    "nokey": {
        "link_plain_fifo_in": "ENOKEY",
        "rename_plain_symlink_in": "ENOKEY",
        "rename_out": "ENOKEY",
        "rename_exchange": "ENOKEY",
        "link_out": "0",
    },
}

# The rows left out, by group, case and answer (`*` stands for any text), and why.
LEFT_OUT = {
    ("*", "*_other_modes", "*"):
        "document 01 has one pair of modes, so no policy with other ones (Item 1 brings a pair)",
    ("link", "*_tmpfile_*", "*"):
        "the inode has no directory entry, and in document 01 all inodes but the root have one",
}

# The rows to which document 01 gives another answer, and that answer. Its rename does not
# replace. It looks at the name after the policy, so EEXIST shows that the policy let the
# move pass, as the kernel's did.
DIFFERS = {("rename_over", "*", "0"): "EEXIST"}

# The stored script of each group. The new name is free but in rename_over and
# rename_exchange, so that the kernel's rename and its rename_noreplace are both document
# 01's rename.
SCRIPTS = {
    "link": "kernel-link", "rename": "kernel-rename", "rename_noreplace": "kernel-rename",
    "rename_whiteout": "kernel-rename", "rename_over": "kernel-rename",
    "rename_exchange": "kernel-exchange", "rename_top": "kernel-rename",
    "nokey": "kernel-nokey",
}

STANDING = """
# A directory for each that the cases speak of: 1 plain; 2 enc; 3 enc_same_policy;
# 4 enc_other_flags; 5 enc_other_descriptor; 6 enc/sub
add-key <A> <A.64>                      -> ok
add-key <B> <B.64>                      -> ok
create 0 1 =plain -                     -> ok 1 0
create 0 1 =enc -                       -> ok 2 1
set-policy 2 <A0> <n:enc>               -> ok
create 0 1 =enc_same_policy -           -> ok 3 2
set-policy 3 <A0> <n:enc_same_policy>   -> ok
create 0 1 =enc_other_flags -           -> ok 4 3
set-policy 4 <A3> <n:enc_other_flags>   -> ok
create 0 1 =enc_other_descriptor -      -> ok 5 4
set-policy 5 <B0> <n:enc_other_descriptor> -> ok
create 2 1 =sub <n:sub>                 -> ok 6 5
"""
DIRECTORIES = {"plain": 1, "enc": 2, "enc_same_policy": 3, "enc_other_flags": 4,
               "enc_other_descriptor": 5, "enc/sub": 6}
PLAIN = DIRECTORIES["plain"]

# A top is an encrypted directory in a plain one: its policy is set, not inherited.
KINDS = {"file": REGULAR, "dir": DIRECTORY, "top": DIRECTORY, "symlink": SYMLINK,
         "fifo": SPECIAL, "chardev": SPECIAL, "socket": SPECIAL}

# The answers as the volume gives them. After `ok` there may be numbers.
REQUIRED = {"0": "ok", "EPERM": "error 1 EPERM", "EEXIST": "error 17 EEXIST",
            "EXDEV": "error 18 EXDEV", "ENOKEY": "error 126 ENOKEY"}


class Unread(CaseError):
    """A row that is neither left out nor known."""


class Move(NamedTuple):
    """What a case is about."""

    kind: str
    way: tuple   # directories: created in the first, moved through them all to the last
    other: str   # the kind of what has the new name, in rename_over and rename_exchange


# The cases that are not written KIND:FROM->TO.
IRREGULAR = {
    ("rename_exchange", "file:plain<->fifo:enc"): Move("file", ("plain", "enc"), "fifo"),
    ("rename", "file:enc->plain_roundtrip_3"): Move("file", ("enc", "plain", "enc"), "file"),
    ("rename_top", "to_same_policy"): Move("top", ("plain", "enc_same_policy"), "top"),
    ("rename_top", "to_other_descriptor"): Move("top", ("plain", "enc_other_descriptor"), "top"),
}

# The cases of nokey as a group and a case with the key: they are the same without it. What
# kind an entry with a no-key name had is not recorded; here it is a file.
NOKEY = {
    r"(link|rename)_plain_(\w+)_in": r"\1 \2:plain->enc",
    r"(link|rename)_out": r"\1 file:enc->plain",
    r"rename_exchange": r"rename_exchange file:enc->enc",
}


def _with_key(group, case):
    """The group and case that a case is, but for the key."""
    if group != "nokey":
        return group, case
    for pattern, same in NOKEY.items():
        found = re.fullmatch(pattern, case)
        if found:
            return found.expand(same).split(" ")
    raise Unread(f"{group!r} has no known case {case!r}")


def _move(group, case):
    if (group, case) in IRREGULAR:
        return IRREGULAR[group, case]
    kind, *way = re.split(":|->", case)
    if (group not in SCRIPTS or kind not in KINDS or len(way) != 2
            or not DIRECTORIES.keys() >= {*way}):
        raise Unread(f"{group!r} has no known case {case!r}")
    return Move(kind, tuple(way), kind)


def _first(table, row):
    """What a table by group, case and answer has for a row, or None."""
    return next((value for patterns, value in table.items()
                 if all(map(fnmatchcase, row, patterns))), None)


def left_out(row):
    """Why a row is not replayed, or None where it is."""
    return _first(LEFT_OUT, row)


def differs(row):
    """Document 01's answer to a row that is replayed, or None where it is the kernel's."""
    return _first(DIFFERS, row)


def required_line(row):
    """The answer that a row that is replayed must get, as the volume gives it."""
    errno = differs(row) or row[2]
    if errno not in REQUIRED:
        raise Unread(f"{errno!r} is not a known answer")
    return REQUIRED[errno]


class Made(NamedTuple):
    """A directory entry that a case has made."""

    parent: int
    inode: int
    kind: int
    name: str

    def shown(self):
        """The answer that show must give."""
        form = "plain" if self.parent == PLAIN else "decrypted"
        return f"ok {self.parent} {self.inode} {self.kind} {form} {len(self.name)} ={self.name}"


class Replay(Case):
    """A script of the kernel's cases; each removes what it made."""

    def __init__(self):
        super().__init__()
        self.text(STANDING)
        self.title = ""
        self.made = {}   # the entries of the present case, by number

    def ask(self, request, required="ok"):
        """Make a request that must be answered so; returns the answer's numbers."""
        answer = self.line(request.encode("ascii")).decode("ascii")
        if required not in (answer, answer.split(" ")[0]):
            raise CaseError(f"the kernel's {self.title}: {request!r} must be answered "
                            f"{required!r}, got {answer!r}")
        return [int(word) for word in answer.split(" ")[1:]] if required == "ok" else []

    def create(self, kind, parent, name):
        fresh = nonce(f"{self.title} {name}").hex()
        given = "-" if parent == PLAIN or KINDS[kind] == SPECIAL else fresh
        inode, entry = self.ask(f"create {parent} {KINDS[kind]} ={name} {given}")
        if kind == "top":
            self.ask(f"set-policy {inode} {policy('A', 0).hex()} {fresh}")
        self.made[entry] = Made(parent, inode, KINDS[kind], name)
        return entry

    def link(self, entry, parent, name, required):
        answer = self.ask(f"link {self.made[entry].inode} {parent} ={name}", required)
        for linked in answer:
            self.made[linked] = self.made[entry]._replace(parent=parent, name=name)

    def rename(self, entry, parent, name, required="ok"):
        self.ask(f"rename {entry} {parent} ={name}", required)
        if required == "ok":
            self.made[entry] = self.made[entry]._replace(parent=parent, name=name)

    def exchange(self, first, second, required):
        self.ask(f"exchange {first} {second}", required)
        if required == "ok":
            one, two = self.made[first], self.made[second]
            self.made[first] = one._replace(inode=two.inode, kind=two.kind)
            self.made[second] = two._replace(inode=one.inode, kind=one.kind)

    def _set_up(self, group, move):
        """Make what the case needs: the entry to be moved, then what has the new name."""
        first, *between, last = (DIRECTORIES[name] for name in move.way)
        entry = self.create(move.kind, first, "old")
        for parent in between:
            self.rename(entry, parent, "old")
        if group in ("rename_over", "rename_exchange"):
            self.create(move.other, last, "new")

    def _request(self, group, move, required):
        """Make the request that the kernel answered."""
        entry, *other = self.made
        *_, old, new = (DIRECTORIES[name] for name in move.way)
        if group == "link":
            self.link(entry, new, "new", required)
        elif group == "rename_exchange":
            self.exchange(entry, *other, required)
        else:
            self.rename(entry, new, "new", required)
        if group == "rename_whiteout" and required == "ok":
            # The whiteout that the kernel leaves under the old name is a character device.
            self.create("chardev", old, "old")

    def row(self, group, case, errno):
        """Add one case: its request, what stands then, and the removal of it."""
        required, other = required_line((group, case, errno)), differs((group, case, errno))
        like, like_case = _with_key(group, case)
        move = _move(like, like_case)
        self.title, self.made = f"{group} {case}: {errno}", {}
        note = f"{self.title}, by document 01 {other}" if other else self.title
        self.line(b"# " + note.encode("ascii"))
        self._set_up(like, move)
        if group == "nokey":
            self.text("remove-key <A> -> ok")
        self._request(like, move, required)
        if group == "nokey":
            self.text("add-key <A> <A.64> -> ok")
        for entry, made in self.made.items():
            self.line(b"show %d" % entry, made.shown())
        for entry in self.made:
            self.ask(f"remove {entry}")


def is_move(group, case):
    """Whether a case of the kernel's file is about link or rename."""
    return (case if group == "nokey" else group).startswith(("link", "rename"))


def rows():
    """All copies: a group, a case and what the kernel answered."""
    return [(group, case, errno) for group, cases in ANSWERS.items()
            for case, errno in cases.items()]


def replays():
    """The stored scripts by title, with all rows that are not left out."""
    scripts = defaultdict(Replay)
    for row in rows():
        if not left_out(row):
            scripts[SCRIPTS[row[0]]].row(*row)
    return scripts
