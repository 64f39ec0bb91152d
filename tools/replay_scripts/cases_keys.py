"""Cases about the keyring, policies, nonces and the ciphers of contents."""

SCRIPTS = {}

SCRIPTS["first-steps"] = """
# covers: fresh-create-show
create 0 2 =a -                     -> ok 1 0
show 0                              -> ok 0 1 2 plain 1 =a
create 0 1 =flow -                  -> ok 2 1
add-key 0011223344556677 00         -> key-length
set-policy 2 000104030011223344556677 000102030405060708090a0b0c0d0e0f -> ok
create 2 2 =image.bin 101112131415161718191a1b1c1d1e1f -> parent-key
find 0 =a                           -> ok 0
find 0 =flow                        -> ok 1
get-policy 2                        -> ok 000104030011223344556677
get-policy 1                        -> no-context
# the nonce in a plain directory is ignored, even one that is borne
create 0 3 =link 000102030405060708090a0b0c0d0e0f -> ok 3 2
create 0 4 =device 000102030405060708090a0b0c0d0e0f -> ok 4 3
show 2                              -> ok 0 3 3 plain 4 =link
show 3                              -> ok 0 4 4 plain 6 =device
show 4                              -> no-entry
remove 0                            -> ok
show 0                              -> no-entry
get-policy 1                        -> no-inode
create 0 2 =b -                     -> ok 1 0
"""

SCRIPTS["keyring"] = """
# covers: key-lengths ninth-key
remove-key <A>             -> key-not-held
add-key <A> -              -> key-length
add-key <A> =              -> key-length
add-key <A> <A.1>          -> key-length
add-key <A> <A.15>         -> key-length
add-key <A> <A.17>         -> key-length
add-key <A> <A.31>         -> key-length
add-key <A> <A.33>         -> key-length
add-key <A> <A.47>         -> key-length
add-key <A> <A.49>         -> key-length
add-key <A> <A.63>         -> key-length
add-key <A> <A.64>00       -> key-length
add-key <A> <A.64><B.64>   -> key-length
remove-key <A>             -> key-not-held
add-key <A> <A.64>         -> ok
add-key <A> <A.64>         -> descriptor-held
add-key <A> <A.64b>        -> descriptor-held
add-key <A> <A.16>         -> descriptor-held
# a wrong length comes before a descriptor that is held
add-key <A> <A.63>         -> key-length
# shorter keys are held and fill a slot
add-key <B> <B.16>         -> ok
add-key <C> <C.32>         -> ok
add-key <D> <D.48>         -> ok
add-key <B> <B.64>         -> descriptor-held
# one key may be held under several descriptors
add-key <E> <A.64>         -> ok
add-key <F> <F.64>         -> ok
add-key <G> <G.64>         -> ok
add-key <H> <H.64>         -> ok
add-key <I> <I.64>         -> no-free-key-slot
add-key <I> <I.16>         -> no-free-key-slot
# the order: length, descriptor, room
add-key <I> <I.63>         -> key-length
add-key <C> <C.64>         -> descriptor-held
add-key <C> -              -> key-length
remove-key <I>             -> key-not-held
remove-key <D>             -> ok
remove-key <D>             -> key-not-held
add-key <I> <I.64>         -> ok
add-key <D> <D.64>         -> no-free-key-slot
remove-key <A>             -> ok
remove-key <H>             -> ok
add-key <D> <D.64>         -> ok
add-key <A> <A.64b>        -> ok
add-key <H> <H.64>         -> no-free-key-slot
# descriptors of zeros and of 0xff are descriptors like any other
remove-key <B>             -> ok
add-key 0000000000000000 <B.64> -> ok
remove-key <C>             -> ok
add-key ffffffffffffffff <B.64> -> ok
remove-key 0000000000000000 -> ok
remove-key 0000000000000000 -> key-not-held
remove-key ffffffffffffffff -> ok
"""

SCRIPTS["policy-bytes"] = """
# covers: star-policy-valid star-policy-flags star-policy-modes
create 0 1 =d -                             -> ok 1 0
set-policy 1 - <n:1>                        -> policy-length
set-policy 1 00 <n:1>                       -> policy-length
set-policy 1 0001040300112233445566 <n:1>   -> policy-length
set-policy 1 00010403001122334455667788 <n:1> -> policy-length
set-policy 1 010104030011223344556677<n:2> <n:1> -> policy-length
set-policy 1 010104030011223344556677 <n:1> -> policy-version
set-policy 1 020104030011223344556677 <n:1> -> policy-version
set-policy 1 ff0104030011223344556677 <n:1> -> policy-version
set-policy 1 000004030011223344556677 <n:1> -> policy-modes
set-policy 1 000204030011223344556677 <n:1> -> policy-modes
set-policy 1 000100030011223344556677 <n:1> -> policy-modes
set-policy 1 000105030011223344556677 <n:1> -> policy-modes
set-policy 1 000401030011223344556677 <n:1> -> policy-modes
set-policy 1 000506000011223344556677 <n:1> -> policy-modes
set-policy 1 000106000011223344556677 <n:1> -> policy-modes
set-policy 1 000504000011223344556677 <n:1> -> policy-modes
set-policy 1 000708000011223344556677 <n:1> -> policy-modes
set-policy 1 000909000011223344556677 <n:1> -> policy-modes
set-policy 1 000101000011223344556677 <n:1> -> policy-modes
set-policy 1 000404000011223344556677 <n:1> -> policy-modes
set-policy 1 008104000011223344556677 <n:1> -> policy-modes
set-policy 1 000104040011223344556677 <n:1> -> policy-flags
set-policy 1 000104050011223344556677 <n:1> -> policy-flags
set-policy 1 000104070011223344556677 <n:1> -> policy-flags
set-policy 1 000104080011223344556677 <n:1> -> policy-flags
set-policy 1 000104800011223344556677 <n:1> -> policy-flags
set-policy 1 000104ff0011223344556677 <n:1> -> policy-flags
get-policy 1                                -> no-context
set-policy 1 000104030011223344556677 <n:1> -> ok
get-policy 1                                -> ok 000104030011223344556677
create 0 1 =e -                             -> ok 2 1
set-policy 2 000104000000000000000000 <n:2> -> ok
get-policy 2                                -> ok 000104000000000000000000
create 0 1 =f -                             -> ok 3 2
set-policy 3 00010401ffffffffffffffff <n:3> -> ok
get-policy 3                                -> ok 00010401ffffffffffffffff
create 0 1 =g -                             -> ok 4 3
set-policy 4 000104020011223344556677 <n:4> -> ok
get-policy 4                                -> ok 000104020011223344556677
"""

SCRIPTS["set-policy"] = """
# covers: slip-1-policy-compare
# the root is never encrypted, be it empty or not
set-policy 0 <A3> <n:1>      -> policy-on-root
set-policy 0 <A4> <n:1>      -> policy-flags
set-policy 1 <A3> <n:1>      -> no-inode
set-policy 63 <A3> <n:1>     -> no-inode
set-policy 64 <A3> <n:1>     -> no-inode
set-policy 256 <A3> <n:1>    -> no-inode
set-policy 4294967296 <A3> <n:1> -> no-inode
set-policy 18446744073709551615 <A3> <n:1> -> no-inode
set-policy 1 - <n:1>         -> no-inode
create 0 1 =directory -      -> ok 1 0
create 0 2 =regular -        -> ok 2 1
create 0 3 =symlink -        -> ok 3 2
create 0 4 =special -        -> ok 4 3
create 0 1 =full -           -> ok 5 4
create 5 2 =inside -         -> ok 6 5
set-policy 0 <A3> <n:1>      -> policy-on-root
set-policy 2 <A3> <n:1>      -> policy-on-non-directory
set-policy 3 <A3> <n:1>      -> policy-on-non-directory
set-policy 4 <A3> <n:1>      -> policy-on-non-directory
set-policy 5 <A3> <n:1>      -> directory-not-empty
# a first policy needs no key
set-policy 1 <A3> <n:1>      -> ok
get-policy 1                 -> ok <A3>
# equal is done and changes nothing; the nonce does not count, not even a borne one
set-policy 1 <A3> <n:1>      -> ok
set-policy 1 <A3> <n:2>      -> ok
# the same descriptor with other flags, and the same flags with another descriptor
set-policy 1 <A2> <n:1>      -> other-policy
set-policy 1 <A0> <n:3>      -> other-policy
set-policy 1 <B3> <n:3>      -> other-policy
set-policy 1 <A5> <n:3>      -> policy-flags
# nonces: borne, then free again once its inode has gone
remove 5                     -> ok
set-policy 5 <B0> <n:1>      -> nonce-borne
set-policy 5 <B0> <n:2>      -> ok
create 0 1 =third -          -> ok 6 5
set-policy 6 <A3> <n:2>      -> nonce-borne
remove 4                     -> ok
set-policy 6 <A3> <n:2>      -> ok
# inherited contexts: every kind with one answers alike, with the key and without
add-key <A> <A.64>           -> ok
create 1 2 =file <n:10>      -> ok 5 4
create 1 3 =link <n:11>      -> ok 7 6
create 1 1 =below <n:12>     -> ok 8 7
create 1 4 =fifo <n:13>      -> ok 9 8
set-policy 5 <A3> <n:1>      -> ok
set-policy 7 <A3> -          -> ok
set-policy 8 <A3> <n:20>     -> ok
set-policy 5 <A2> <n:20>     -> other-policy
set-policy 7 <B3> <n:20>     -> other-policy
set-policy 8 <A1> <n:20>     -> other-policy
set-policy 9 <A3> <n:20>     -> policy-on-non-directory
set-policy 1 <A3> <n:20>     -> ok
remove-key <A>               -> ok
set-policy 5 <A3> <n:20>     -> ok
set-policy 5 <A0> <n:20>     -> other-policy
get-policy 5                 -> ok <A3>
get-policy 7                 -> ok <A3>
get-policy 8                 -> ok <A3>
get-policy 9                 -> no-context
get-policy 0                 -> no-context
get-policy 2                 -> no-context
get-policy 10                -> no-inode
get-policy 64                -> no-inode
get-policy 65536             -> no-inode
get-policy 18446744073709551615 -> no-inode
"""

SCRIPTS["nonces"] = """
# Sixteen zero bytes are a nonce like any other, and one without a context bears none.
create 0 1 =d -              -> ok 1 0
set-policy 1 <A0> -          -> ok
create 0 1 =e -              -> ok 2 1
set-policy 2 <A0> -          -> nonce-borne
set-policy 2 <A0> 00000000000000000000000000000001 -> ok
add-key <A> <A.64>           -> ok
create 1 2 =f -              -> nonce-borne
create 1 1 =f -              -> nonce-borne
create 1 3 =f -              -> nonce-borne
# a special file needs no nonce and bears none
create 1 4 =f -              -> ok 3 2
create 1 4 =g <n:1>          -> ok 4 3
create 1 2 =h <n:1>          -> ok 5 4
create 2 2 =h <n:1>          -> nonce-borne
create 2 4 =h <n:1>          -> ok 6 5
# the nonce of another directory's child counts too, also of another policy
create 0 1 =other -          -> ok 7 6
set-policy 7 <B3> <n:1>      -> nonce-borne
set-policy 7 <B3> <n:2>      -> ok
add-key <B> <B.64>           -> ok
create 7 2 =x <n:1>          -> nonce-borne
create 7 2 =x -              -> nonce-borne
create 7 2 =x <n:2>          -> nonce-borne
create 7 2 =x <n:3>          -> ok 8 7
# it counts while the inode has a name left, wherever that stands
link 5 0 =elsewhere          -> ok 8
remove 4                     -> ok
create 1 2 =new <n:1>        -> nonce-borne
remove 8                     -> ok
create 1 2 =new <n:1>        -> ok 5 4
# a name that is taken comes before the nonce
create 1 2 =new <n:1>        -> name-taken
create 1 2 =newer <n:1>      -> nonce-borne
# nothing of this touched the volume
show 4                       -> ok 1 5 2 decrypted 3 =new
get-policy 5                 -> ok <A0>
"""

SCRIPTS["short-keys"] = """
# A key of 16, 32 or 48 bytes is held and counts as absent for every request.
create 0 1 =d -                -> ok 1 0
set-policy 1 <A0> <n:1>        -> ok
add-key <A> <A.64>             -> ok
create 1 2 =file <n:2>         -> ok 2 1
create 1 4 =fifo -             -> ok 3 2
create 0 4 =fifo -             -> ok 4 3
remove-key <A>                 -> ok
add-key <A> <A.16>             -> ok
create 1 2 =new <n:3>          -> parent-key
create 1 4 =new -              -> parent-key
link 3 1 =new                  -> parent-key
link 2 0 =new                  -> ok 4
rename 1 1 =new                -> old-parent-key
rename 1 0 =newer              -> old-parent-key
rename 3 1 =new                -> new-parent-key
exchange 1 2                   -> first-parent-key
exchange 1 1                   -> first-parent-key
exchange 3 1                   -> second-parent-key
find 1 =file                   -> parent-key
show 1                         -> ok *
seal 2 0 =<x*4096>             -> inode-key
set-policy 1 <A0> <n:9>        -> ok
remove-key <A>                 -> ok
add-key <A> <A.32>             -> ok
find 1 =file                   -> parent-key
open 2 0 =<x*4096>             -> inode-key
show 1                         -> ok *
remove-key <A>                 -> ok
add-key <A> <A.48>             -> ok
find 1 =file                   -> parent-key
create 1 2 =new <n:3>          -> parent-key
show 1                         -> ok *
remove-key <A>                 -> ok
add-key <A> <A.64>             -> ok
find 1 =file                   -> ok 1
show 1                         -> ok 1 2 2 decrypted 4 =file
# removing works without the key
remove-key <A>                 -> ok
remove 1                       -> ok
remove 0                       -> directory-not-empty
remove 2                       -> ok
remove 0                       -> ok
"""
