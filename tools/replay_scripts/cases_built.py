"""Cases built by a program: full tables, deep directories, lengths of names, contents."""

from bulwarkle_model.names import padded_length

from .written import Case, CaseError, block, descriptor, key, nonce


def full_of_inodes():
    """63 inodes beside the root, then the last entry, then numbers used again."""
    case = Case()
    for number in range(1, 64):
        kind = (2, 3, 4, 1)[number % 4]
        case.line(b"create 0 %d =n%d -" % (kind, number), f"ok {number} {number - 1}")
    case.text("""
create 0 2 =more -         -> no-free-inode
create 0 2 =n1 -           -> name-taken
link 4 0 =n63b             -> ok 63
link 4 0 =n63c             -> no-free-entry
create 0 2 =more -         -> no-free-inode
create 0 2 =n63b -         -> name-taken
link 1 0 =more             -> no-free-entry
link 1 0 =n1               -> name-taken
# rename and exchange need no room
rename 0 0 =renamed        -> ok
exchange 0 1               -> ok
# one entry goes, its inode stays
remove 63                  -> ok
create 0 2 =more -         -> no-free-inode
link 5 0 =again            -> ok 63
remove 63                  -> ok
# one inode goes
remove 30                  -> ok
create 0 2 =more -         -> ok 31 30
create 0 2 =evenmore -     -> no-free-inode
remove 40                  -> ok
remove 20                  -> ok
remove 62                  -> ok
create 0 1 =x -            -> ok 21 20
create 0 1 =y -            -> ok 41 40
create 0 1 =z -            -> ok 63 62
create 0 1 =w -            -> no-free-inode
""")
    return case.audit()


def full_of_entries():
    """One file with many names fills the entries; the inodes are not full."""
    case = Case()
    case.text("""
add-key <A> <A.64>         -> ok
create 0 1 =secret -       -> ok 1 0
set-policy 1 <A0> <n:1>    -> ok
create 1 2 =file <n:2>     -> ok 2 1
""")
    for number in range(2, 64):
        parent = number % 2
        case.line(b"link 2 %d =name%d" % (parent, number), f"ok {number}")
    case.text("""
create 0 2 =more -         -> no-free-entry
create 1 2 =more <n:3>     -> no-free-entry
create 1 2 =more <n:2>     -> nonce-borne
create 1 4 =more <n:2>     -> no-free-entry
create 1 2 =name3 <n:2>    -> name-taken
link 2 0 =more             -> no-free-entry
link 2 1 =name3            -> name-taken
rename 63 0 =name63        -> ok
remove 17                  -> ok
create 1 2 =more <n:2>     -> nonce-borne
create 1 2 =more <n:3>     -> ok 3 17
remove 5                   -> ok
remove 4                   -> ok
link 3 1 =x                -> ok 4
link 3 0 =y                -> ok 5
link 3 0 =z                -> no-free-entry
remove 1                   -> ok
create 1 4 =fifo -         -> ok 4 1
""")
    return case.audit()


def full_of_encrypted():
    """Inodes and entries full at once, in encrypted directories: nonce before room."""
    case = Case()
    case.text("""
add-key <A> <A.64>         -> ok
create 0 1 =secret -       -> ok 1 0
set-policy 1 <A2> <n:1>    -> ok
""")
    for number in range(2, 64):
        case.line(b"create 1 %d =f%d %s" % (1 + number % 4, number,
                                            nonce(f"f{number}").hex().encode()),
                  f"ok {number} {number - 1}")
    case.text("""
create 1 2 =more <n:f5>    -> nonce-borne
create 1 2 =more <n:more>  -> no-free-inode
create 1 2 =f9 <n:f5>      -> name-taken
link 5 0 =more             -> ok 63
create 1 2 =more <n:f5>    -> nonce-borne
create 1 2 =more <n:more>  -> no-free-inode
create 1 4 =more <n:f5>    -> no-free-inode
link 5 1 =more             -> no-free-entry
link 5 1 =f9               -> name-taken
remove-key <A>             -> ok
create 1 2 =more <n:f5>    -> parent-key
link 5 1 =more             -> parent-key
""")
    return case.audit()


def deep_directories():
    """A chain of directories, moved and exchanged near its top and its bottom."""
    case = Case()
    depth = 58
    for number in range(1, depth + 1):
        case.line(b"create %d 1 =d%d -" % (number - 1, number), f"ok {number} {number - 1}")
    case.text("""
create 58 2 =file -        -> ok 59 58
create 0 1 =side -         -> ok 60 59
create 60 1 =low -         -> ok 61 60
rename 0 58 =x             -> under-itself
rename 0 57 =x             -> under-itself
rename 1 58 =x             -> under-itself
rename 57 57 =x            -> ok
rename 57 58 =x            -> under-itself
rename 59 58 =x            -> ok
rename 0 61 =x             -> under-itself
rename 0 60 =x             -> under-itself
exchange 0 60              -> first-under-itself
exchange 60 0              -> second-under-itself
exchange 0 58              -> first-under-itself
exchange 57 60             -> first-under-itself
exchange 60 57             -> second-under-itself
exchange 56 58             -> first-under-itself
rename 59 0 =side          -> ok
exchange 57 60             -> ok
rename 59 58 =side         -> under-itself
rename 0 58 =x             -> ok
show 57                    -> ok 57 61 1 plain 1 =x
show 60                    -> ok 60 58 1 plain 3 =low
show 58                    -> ok 58 59 2 plain 4 =file
rename 59 1 =x             -> under-itself
rename 30 60 =half         -> ok
rename 29 31 =x            -> ok
remove 0                   -> directory-not-empty
rename 59 31 =x            -> under-itself
""")
    return case.audit()


# Lengths on both sides of every boundary of padding and of showing.
LENGTHS = (1, 2, 15, 16, 17, 20, 21, 31, 32, 33, 47, 48, 49, 63, 64, 65, 96, 127, 128, 129,
           144, 156, 157, 160, 161, 164, 165, 192, 193, 223, 224, 225, 239, 240, 241, 247, 248,
           249, 251, 252, 253, 254, 255)


def name_lengths(flags):
    """Names of many lengths under one policy, with the key and without it."""
    case = Case()
    case.line(b"# covers: star-padding letters-160-161 slip-2-swapped-blocks")
    case.text(f"""
add-key <A> <A.64>         -> ok
create 0 1 =secret -       -> ok 1 0
set-policy 1 <A{flags}> <n:1> -> ok
""")
    shown = []
    for at, length in enumerate(LENGTHS):
        name = (b"%d-" % length * 255)[:length]
        case.line(b"create 1 4 =%s -" % name, f"ok {at + 2} {at + 1}")
        shown.append(f"ok 1 {at + 2} 4 decrypted {length} ={name.decode()}")
    for at, expected in list(enumerate(shown))[flags::4]:
        case.line(b"show %d" % (at + 1), expected)
    case.text("remove-key <A> -> ok")
    for at, length in enumerate(LENGTHS):
        answer = case.line(b"show %d" % (at + 1), "ok *")
        stored = padded_length(length, 4 << flags)
        letters = 217 if stored > 160 else -(-stored * 4 // 3)
        end = b"%02x" % (at + 1) if stored > 160 else b""
        if not (answer.startswith(b"ok 1 %d 4 encoded %d =" % (at + 2, letters))
                and answer.endswith(end)):
            raise CaseError(f"show {at + 1}: {answer!r} is not of {stored} bytes stored")
    return case


def contents():
    """Blocks sealed and opened under many block numbers."""
    case = Case()
    case.line(b"# covers: slip-5-xts-tweak")
    case.text("""
add-key <A> <A.64>         -> ok
create 0 1 =secret -       -> ok 1 0
set-policy 1 <A3> <n:1>    -> ok
create 1 2 =file <n:2>     -> ok 2 1
""")
    last = 2 ** 64 - 1
    for turn, number in enumerate((0, 1, 256, 2 ** 32, 2 ** 63, last)):
        line = b"seal 2 %d =%s" % (number, bytes([65 + turn]) * 4096)
        if turn % 3 == 0:
            line = b"seal 2 %d %s" % (number, block(turn).hex().encode())
        case.line(line, "ok *")
    sealed = case.line(b"seal 2 %d %s" % (last, block(9).hex().encode()), "ok *")
    case.line(b"open 2 %d %s" % (last, sealed[3:]), "ok " + block(9).hex())
    case.line(b"open 2 18446744073709551615 =%s" % (b"~" * 4096), "ok *")
    case.line(b"seal 2 18446744073709551616 =%s" % (b"~" * 4096), "malformed")
    return case


def weak_keys():
    """A key whose derived halves are equal is a key like any other; so is one of zeros."""
    case = Case()
    equal = key("A", "", 32) * 2
    case.text("""
create 0 1 =d -            -> ok 1 0
set-policy 1 <A0> <n:1>    -> ok
""")
    for turn, material in enumerate((equal, bytes(64))):
        case.line(b"add-key %s %s" % (_hex(descriptor("A")), _hex(material)), "ok")
        inode, entry = case.line(b"create 1 2 =f%d %s" % (
            turn, _hex(nonce(f"f{turn}"))), "ok *").split()[1:]
        sealed = case.line(b"seal %s 3 %s" % (inode, _hex(block(3))), "ok *")
        if turn == 0:
            case.line(b"open %s 3 %s" % (inode, sealed[3:]), "ok " + block(3).hex())
        case.line(b"show %s" % entry, "ok *")
        case.text("remove-key <A> -> ok")
        case.line(b"show %s" % entry, "ok *")
    return case


def _hex(data):
    return data.hex().encode("ascii")
