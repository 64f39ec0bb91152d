"""Cases in which a name is read with another key than it was stored with.

Under document 01 such a name may fail to decrypt (EUCLEAN), show as another
name, or not count as taken. The names here are chosen so that each of these
happens: to have `wanted` read with the second key, the name given under the
first is the decryption, with the first key, of what the second makes of it.
"""

from bulwarkle_model.ciphers import decrypt_cts, derive_key, encrypt_cts
from bulwarkle_model.names import is_plain_name

from .written import Case, CaseError, expand, key, nonce

FIRST, SECOND = key("A"), key("A", "b")


def _names_key(master_key, word):
    return derive_key(master_key, nonce(word))[:32]


def crafted(stored_by, word, wanted):
    """A nonce's word and a plain name, that reads as `wanted` (padded) with the second key.

    Not every nonce gives a plain name, so several are tried.
    """
    for turn in range(1000):
        tried = f"{word}{turn}"
        name = decrypt_cts(_names_key(FIRST, tried), stored_by(_names_key(SECOND, tried), wanted))
        if is_plain_name(name):
            return tried, name
    raise CaseError(f"{word}: no nonce gives a plain name")


# Flags, the padded text that the second key shall find, and what show says of it then.
READ_WITH_SECOND = (
    (0, b"ok-name".ljust(16, b"\0"), "ok {parent} {inode} 4 decrypted 7 =ok-name"),
    (0, b"...".ljust(16, b"\0"), "ok {parent} {inode} 4 decrypted 3 =..."),
    (0, b"sixteen-bytes-ok", "ok {parent} {inode} 4 decrypted 16 =sixteen-bytes-ok"),
    (3, b"x".ljust(32, b"\0"), "ok {parent} {inode} 4 decrypted 1 =x"),
    (0, bytes(16), "decrypted-name"),
    (0, b".".ljust(16, b"\0"), "decrypted-name"),
    (0, b"..".ljust(16, b"\0"), "decrypted-name"),
    (0, b"a/b".ljust(16, b"\0"), "decrypted-name"),
    (1, b"a-slash-at-last/", "decrypted-name"),
    (0, b"a\0b".ljust(16, b"\0"), "decrypted-rest"),
    (0, b"fifteen-bytes-\0x", "decrypted-rest"),
    (0, b"a/b\0c".ljust(16, b"\0"), "decrypted-rest"),
    (2, b"\0" * 15 + b"x", "decrypted-rest"),
    (0, b"sixteen-bytes-ok".ljust(20, b"\0"), "decrypted-length"),
    (3, b"thirty-two-bytes-are-one-padding".ljust(64, b"\0"), "decrypted-length"),
    (1, b"x".ljust(24, b"\0"), "decrypted-length"),
    (0, b"a/b".ljust(20, b"\0"), "decrypted-name"),
    (0, b"a\0b".ljust(20, b"\0"), "decrypted-rest"),
    # Names whose rounding passes 255 keep their own length. Only here can that be seen.
    (0, b"l" * 253, "ok {parent} {inode} 4 decrypted 253 =<l*253>"),
    (0, b"l" * 254, "ok {parent} {inode} 4 decrypted 254 =<l*254>"),
    (0, b"l" * 255, "ok {parent} {inode} 4 decrypted 255 =<l*255>"),
    (1, b"l" * 249, "ok {parent} {inode} 4 decrypted 249 =<l*249>"),
    (2, b"l" * 241, "ok {parent} {inode} 4 decrypted 241 =<l*241>"),
    (3, b"l" * 225, "ok {parent} {inode} 4 decrypted 225 =<l*225>"),
    (3, b"l" * 224 + b"\0", "decrypted-length"),
    (0, b"l" * 252 + b"\0", "decrypted-length"),
    (1, b"l" * 250 + b"\0", "decrypted-length"),
)


def names_not_decrypting():
    """Every way in which a name fails to decrypt, or reads as another one."""
    case = Case().text("add-key <A> <A.64> -> ok")
    expected = []
    for at, (flags, wanted, says) in enumerate(READ_WITH_SECOND):
        parent, inode, entry = 2 * at + 1, 2 * at + 2, 2 * at + 1
        word, name = crafted(encrypt_cts, f"w{at}-", wanted)
        case.text(f"""
create 0 1 =d{at} -           -> ok {parent} {entry - 1}
set-policy {parent} <A{flags}> <n:{word}> -> ok
create {parent} 4 {name.hex()} -  -> ok {inode} {entry}
""")
        expected.append((entry, says.format(parent=parent, inode=inode)))
    case.text("""
remove-key <A>              -> ok
add-key <A> <A.64b>         -> ok
""")
    for entry, says in expected:
        case.line(b"show %d" % entry, expand(says))
    case.text("""
# a small buffer and a missing entry come first
show 9 254                  -> buffer-small
show 19 254                 -> buffer-small
show 27 254                 -> buffer-small
show 63                     -> no-entry
show 63 254                 -> buffer-small
# the name stored under the first key is taken under the second, by another name
find 1 =ok-name             -> ok 1
create 1 4 =ok-name -       -> name-taken
rename 1 1 =ok-name         -> name-taken
rename 1 1 =new-name        -> ok
show 1                      -> ok 1 2 4 decrypted 8 =new-name
""")
    return case.audit()


SAME_NAME_TWICE = """
create 0 1 =d -             -> ok 1 0
set-policy 1 <A0> <n:1>     -> ok
add-key <A> <A.64>          -> ok
create 1 2 =firmware.bin <n:2> -> ok 2 1
create 1 2 =sixteen-bytes-ok <n:3> -> ok 3 2
create 1 1 =sub <n:4>       -> ok 4 3
create 4 2 =deep <n:5>      -> ok 5 4
remove-key <A>              -> ok
add-key <A> <A.64b>         -> ok
find 1 =firmware.bin        -> no-match
create 1 2 =firmware.bin <n:6> -> ok 6 5
create 1 2 =firmware.bin <n:7> -> name-taken
link 6 1 =firmware.bin      -> name-taken
link 2 1 =sixteen-bytes-ok  -> ok 6
find 1 =firmware.bin        -> ok 5
# what the wrong key reads of the old ones is garbled, and happens to be a plain name
show 1                      -> ok *
show 2                      -> ok *
show 5                      -> ok 1 6 2 decrypted 12 =firmware.bin
rename 1 1 =firmware.bin    -> name-taken
rename 1 1 =other           -> ok
show 1                      -> ok 1 2 2 decrypted 5 =other
exchange 2 3                -> ok
show 4                      -> ok *
remove 4                    -> ok
remove 2                    -> ok
remove-key <A>              -> ok
show 1                      -> ok *
show 5                      -> ok *
show 6                      -> ok *
add-key <A> <A.64>          -> ok
show 5                      -> decrypted-rest
show 6                      -> ok *
find 1 =sub                 -> ok 3
find 1 =other               -> no-match
find 1 =firmware.bin        -> no-match
create 1 2 =other <n:8>     -> ok 4 2
remove-key <A>              -> ok
add-key <A> <A.64b>         -> ok
find 1 =other               -> ok 1
"""


def same_name_twice():
    """A name stored under one key does not count as taken under another."""
    return Case().text(SAME_NAME_TWICE).audit()


def zero_letters():
    """Sixteen zero bytes without the key: a name chosen so that zeros are stored."""
    word, name = crafted(lambda _key, wanted: wanted, "zero", bytes(16))
    return Case().text(f"""
# covers: star-letters
add-key <A> <A.64>          -> ok
create 0 1 =d -             -> ok 1 0
set-policy 1 <A0> <n:{word}> -> ok
create 1 4 {name.hex()} -   -> ok 2 1
create 1 4 =other -         -> ok 3 2
remove-key <A>              -> ok
show 1                      -> ok 1 2 4 encoded 22 =<A*22>
show 2                      -> ok *
""")
