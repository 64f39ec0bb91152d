"""Cases about rename and exchange, and the climb from a directory to the root."""

SCRIPTS = {}

SCRIPTS["rename"] = """
create 0 1 =d -            -> ok 1 0
create 0 2 =a -            -> ok 2 1
create 1 2 =b -            -> ok 3 2
rename 1 0 -               -> name-empty
rename 1 0 =<x*256>        -> name-too-long
rename 1 0 =a/b            -> name-byte
rename 1 0 =..             -> name-dots
rename 3 0 =c              -> no-entry
rename 64 0 =c             -> no-entry
rename 257 0 =c            -> no-entry
rename 18446744073709551615 0 =c -> no-entry
rename 1 4 =c              -> no-parent
rename 1 256 =c            -> no-parent
rename 1 18446744073709551615 =c -> no-parent
rename 1 2 =c              -> parent-not-directory
rename 1 3 =c              -> parent-not-directory
# an entry's own present name counts as taken
rename 1 0 =a              -> name-taken
rename 1 0 =d              -> name-taken
rename 0 0 =d              -> name-taken
rename 1 1 =b              -> name-taken
rename 1 0 =c              -> ok
find 0 =a                  -> no-match
find 0 =c                  -> ok 1
rename 1 1 =a              -> ok
show 1                     -> ok 1 2 2 plain 1 =a
rename 2 0 =b              -> ok
show 2                     -> ok 0 3 2 plain 1 =b
rename 0 0 =e              -> ok
show 0                     -> ok 0 1 1 plain 1 =e
find 1 =a                  -> ok 1
rename 1 0 =b              -> name-taken
# one of two names of an inode
link 2 0 =a                -> ok 3
rename 3 1 =a              -> name-taken
rename 3 1 =a2             -> ok
show 3                     -> ok 1 2 2 plain 2 =a2
rename 1 0 =a2             -> ok
show 1                     -> ok 0 2 2 plain 2 =a2
"""

SCRIPTS["rename-keys"] = """
# Rename needs the keys of both parents, where they are encrypted, and of nothing else.
create 0 1 =a -            -> ok 1 0
create 0 1 =b -            -> ok 2 1
set-policy 1 <A3> <n:1>    -> ok
set-policy 2 <B3> <n:2>    -> ok
add-key <A> <A.64>         -> ok
add-key <B> <B.64>         -> ok
create 1 2 =file <n:3>     -> ok 3 2
create 1 4 =fifo -         -> ok 4 3
create 2 4 =fifo -         -> ok 5 4
create 1 1 =sub <n:4>      -> ok 6 5
create 0 2 =plain -        -> ok 7 6
create 0 1 =p -            -> ok 8 7
rename 3 2 =fifo           -> name-taken
rename 3 2 =fifo2          -> ok
show 3                     -> ok 2 4 4 decrypted 5 =fifo2
rename 3 1 =fifo           -> ok
# only the key of the old parent
remove-key <B>             -> ok
rename 3 2 =x              -> new-parent-key
rename 6 2 =x              -> new-parent-key
rename 4 0 =x              -> old-parent-key
rename 4 1 =x              -> old-parent-key
rename 2 8 =file           -> ok
show 2                     -> ok 8 3 2 plain 4 =file
get-policy 3               -> ok <A3>
# back again
rename 2 1 =again          -> ok
show 2                     -> ok 1 3 2 decrypted 5 =again
# no key at all
remove-key <A>             -> ok
rename 3 2 =x              -> old-parent-key
rename 2 1 =x              -> old-parent-key
rename 2 0 =x              -> old-parent-key
# the directory's own name stands under its parent's key, and its parent is plain
rename 0 0 =renamed        -> ok
rename 0 8 =deeper         -> ok
show 0                     -> ok 8 1 1 plain 6 =deeper
# parents that are no directories, encrypted and without the key: no directory comes first
rename 6 3 =x              -> parent-not-directory
rename 2 7 =x              -> parent-not-directory
# an encrypted file below a plain directory moves without its own key
add-key <A> <A.64>         -> ok
link 3 0 =outside          -> ok 8
remove-key <A>             -> ok
rename 8 8 =outside2       -> ok
show 8                     -> ok 8 3 2 plain 8 =outside2
rename 8 1 =in             -> new-parent-key
"""

SCRIPTS["rename-policies"] = """
# covers: slip-4-special-files
add-key <A> <A.64>         -> ok
create 0 1 =plain -        -> ok 1 0
create 0 1 =secret -       -> ok 2 1
set-policy 2 <A1> <n:1>    -> ok
create 0 1 =secret2 -      -> ok 3 2
set-policy 3 <A1> <n:2>    -> ok
create 1 2 =file -         -> ok 4 3
create 1 3 =symlink -      -> ok 5 4
create 1 4 =special -      -> ok 6 5
create 1 1 =sub -          -> ok 7 6
create 2 2 =file <n:3>     -> ok 8 7
create 2 3 =symlink <n:4>  -> ok 9 8
create 2 4 =special -      -> ok 10 9
create 2 1 =sub <n:5>      -> ok 11 10
# into an encrypted directory
rename 3 2 =x              -> policy
rename 4 2 =x              -> policy
rename 6 2 =x              -> policy
rename 5 2 =x              -> ok
show 5                     -> ok 2 6 4 decrypted 1 =x
rename 5 1 =special        -> ok
# out of it: each keeps its context
rename 7 1 =x              -> ok
rename 8 1 =y              -> ok
rename 9 1 =z              -> ok
rename 10 1 =w             -> ok
show 7                     -> ok 1 8 2 plain 1 =x
get-policy 8               -> ok <A1>
get-policy 9               -> ok <A1>
get-policy 10              -> no-context
get-policy 11              -> ok <A1>
# and into another one of the same policy
rename 7 3 =x              -> ok
rename 8 3 =y              -> ok
rename 9 3 =z              -> ok
rename 10 3 =w             -> ok
show 10                    -> ok 3 11 1 decrypted 1 =w
create 11 2 =deep <n:6>    -> ok 12 11
# an encrypted directory at the top goes into one of its own policy
rename 2 2 =whole          -> ok
show 2                     -> ok 2 3 1 decrypted 5 =whole
show 7                     -> ok 3 8 2 decrypted 1 =x
# an empty plain directory that gets the policy first may move in
set-policy 7 <A1> <n:7>    -> ok
rename 6 2 =now            -> ok
show 6                     -> ok 2 7 1 decrypted 3 =now
# the policy looks at the moved inode only, not at what is below it
create 1 1 =holder -       -> ok 13 12
create 13 1 =inner -       -> ok 14 13
set-policy 14 <A0> <n:8>   -> ok
create 0 1 =other -        -> ok 15 14
rename 12 15 =holder       -> ok
"""

SCRIPTS["exchange"] = """
# covers: exchange-with-itself
exchange 0 0               -> no-first-entry
create 0 2 =a -            -> ok 1 0
exchange 0 1               -> no-second-entry
exchange 1 0               -> no-first-entry
exchange 0 64              -> no-second-entry
exchange 256 0             -> no-first-entry
exchange 0 18446744073709551615 -> no-second-entry
exchange 18446744073709551615 18446744073709551615 -> no-first-entry
# with itself: done, nothing changes
exchange 0 0               -> ok
show 0                     -> ok 0 1 2 plain 1 =a
create 0 1 =d -            -> ok 2 1
create 2 3 =b -            -> ok 3 2
# the inodes change, the names stay
exchange 0 2               -> ok
show 0                     -> ok 0 3 3 plain 1 =a
show 2                     -> ok 2 1 2 plain 1 =b
exchange 2 0               -> ok
show 0                     -> ok 0 1 2 plain 1 =a
exchange 1 1               -> ok
show 1                     -> ok 0 2 1 plain 1 =d
# two names of one inode
link 1 2 =a2               -> ok 3
exchange 0 3               -> ok
show 0                     -> ok 0 1 2 plain 1 =a
show 3                     -> ok 2 1 2 plain 2 =a2
# a directory and a file beside it
exchange 0 1               -> ok
show 0                     -> ok 0 2 1 plain 1 =a
show 1                     -> ok 0 1 2 plain 1 =d
show 2                     -> ok 2 3 3 plain 1 =b
exchange 1 0               -> ok
# in an encrypted directory
create 0 1 =secret -       -> ok 4 4
set-policy 4 <A0> <n:1>    -> ok
add-key <A> <A.64>         -> ok
create 4 2 =x <n:2>        -> ok 5 5
create 4 1 =y <n:3>        -> ok 6 6
exchange 5 5               -> ok
exchange 5 6               -> ok
show 5                     -> ok 4 6 1 decrypted 1 =x
show 6                     -> ok 4 5 2 decrypted 1 =y
# without the key: also with itself
remove-key <A>             -> ok
exchange 5 5               -> first-parent-key
exchange 5 6               -> first-parent-key
exchange 6 0               -> first-parent-key
exchange 0 6               -> second-parent-key
exchange 4 4               -> ok
exchange 4 0               -> ok
show 0                     -> ok 0 4 1 plain 1 =a
show 5                     -> ok *
"""

SCRIPTS["exchange-policies"] = """
# covers: slip-3-exchange-sides slip-4-special-files
add-key <A> <A.64>         -> ok
add-key <B> <B.64>         -> ok
create 0 1 =plain -        -> ok 1 0
create 0 1 =secret -       -> ok 2 1
create 0 1 =other -        -> ok 3 2
set-policy 2 <A3> <n:1>    -> ok
set-policy 3 <B3> <n:2>    -> ok
create 1 2 =file -         -> ok 4 3
create 1 3 =symlink -      -> ok 5 4
create 1 4 =special -      -> ok 6 5
create 1 1 =sub -          -> ok 7 6
create 2 2 =file <n:3>     -> ok 8 7
create 2 3 =symlink <n:4>  -> ok 9 8
create 2 4 =special -      -> ok 10 9
create 2 1 =sub <n:5>      -> ok 11 10
create 3 2 =file <n:6>     -> ok 12 11
create 3 4 =special -      -> ok 13 12
# one side fits, the other does not: both orders of the two entries
exchange 3 7               -> first-policy
exchange 7 3               -> second-policy
exchange 4 8               -> first-policy
exchange 8 4               -> second-policy
exchange 6 10              -> first-policy
exchange 10 6              -> second-policy
exchange 3 9               -> first-policy
exchange 9 3               -> second-policy
# a special file fits everywhere, but what comes for it need not
exchange 5 7               -> ok
show 5                     -> ok 1 8 2 plain 7 =special
show 7                     -> ok 2 6 4 decrypted 4 =file
exchange 5 7               -> ok
exchange 5 9               -> ok
exchange 9 12              -> ok
show 9                     -> ok 2 13 4 decrypted 7 =special
show 12                    -> ok 3 6 4 decrypted 7 =special
# neither side fits
exchange 7 11              -> first-policy
exchange 11 7              -> first-policy
# an encrypted file standing in a plain directory
link 8 1 =linked           -> ok 13
exchange 13 8              -> ok
show 13                    -> ok 1 9 3 plain 6 =linked
show 8                     -> ok 2 8 2 decrypted 7 =symlink
exchange 13 11             -> first-policy
exchange 13 12             -> first-policy
exchange 13 3              -> ok
# directories of equal policy
create 0 1 =twin -         -> ok 14 14
set-policy 14 <A3> <n:7>   -> ok
create 14 2 =inside <n:8>  -> ok 15 15
exchange 14 10             -> ok
show 14                    -> ok 0 11 1 plain 4 =twin
show 10                    -> ok 2 14 1 decrypted 3 =sub
show 15                    -> ok 14 15 2 decrypted 6 =inside
# keys of both parents, and only theirs
remove-key <B>             -> ok
exchange 9 12              -> second-parent-key
exchange 12 9              -> first-parent-key
exchange 11 12             -> first-parent-key
exchange 7 11              -> second-parent-key
exchange 2 14              -> ok
remove-key <A>             -> ok
exchange 9 12              -> first-parent-key
exchange 0 2               -> ok
"""

SCRIPTS["directory-under-itself"] = """
create 0 1 =a -            -> ok 1 0
create 1 1 =b -            -> ok 2 1
create 2 1 =c -            -> ok 3 2
create 3 2 =file -         -> ok 4 3
create 0 1 =z -            -> ok 5 4
create 1 2 =beside -       -> ok 6 5
# into itself, into its child, further down
rename 0 1 =x              -> under-itself
rename 0 2 =x              -> under-itself
rename 0 3 =x              -> under-itself
rename 1 2 =x              -> under-itself
rename 1 3 =x              -> under-itself
rename 2 3 =x              -> under-itself
# a name that is taken there comes later
rename 0 1 =b              -> under-itself
rename 0 3 =file           -> under-itself
# a file has nothing below it
rename 3 2 =file           -> ok
rename 3 3 =file           -> ok
# up and sideways is fine
rename 2 1 =c              -> ok
rename 2 0 =c              -> ok
rename 2 5 =c              -> ok
rename 4 2 =z              -> ok
rename 1 3 =x              -> under-itself
rename 4 0 =z              -> ok
# exchange: a directory with anything beneath it, both orders
exchange 0 1               -> first-under-itself
exchange 1 0               -> second-under-itself
exchange 0 5               -> first-under-itself
exchange 5 0               -> second-under-itself
rename 2 2 =c              -> ok
exchange 0 2               -> first-under-itself
exchange 2 0               -> second-under-itself
exchange 0 3               -> first-under-itself
exchange 3 0               -> second-under-itself
exchange 1 3               -> first-under-itself
# a directory with one beside it, each with its own below
exchange 1 4               -> ok
show 1                     -> ok 1 5 1 plain 1 =b
show 4                     -> ok 0 2 1 plain 1 =z
show 2                     -> ok 2 3 1 plain 1 =c
exchange 2 0               -> ok
show 2                     -> ok 2 1 1 plain 1 =c
show 0                     -> ok 0 3 1 plain 1 =a
# now what was below is above
rename 4 1 =x              -> under-itself
rename 4 3 =x              -> ok
"""

SCRIPTS["policy-before-directory-check"] = """
# A plain directory with an encrypted one below it, exchanged with a special file there:
# the policy refusal comes first.
add-key <A> <A.64>         -> ok
create 0 1 =top -          -> ok 1 0
create 1 1 =secret -       -> ok 2 1
set-policy 2 <A0> <n:1>    -> ok
create 2 4 =special -      -> ok 3 2
create 2 2 =file <n:2>     -> ok 4 3
create 2 1 =sub <n:3>      -> ok 5 4
exchange 0 2               -> first-policy
exchange 2 0               -> second-policy
exchange 0 3               -> first-policy
exchange 0 4               -> first-policy
rename 0 2 =x              -> policy
rename 0 5 =x              -> policy
rename 0 1 =x              -> under-itself
# an encrypted directory under itself has the policy, so the climb is asked
rename 1 2 =x              -> under-itself
rename 1 5 =x              -> under-itself
exchange 1 2               -> first-under-itself
exchange 3 1               -> second-under-itself
rename 4 5 =x              -> under-itself
exchange 0 1               -> first-under-itself
# and the key comes before both
remove-key <A>             -> ok
rename 0 2 =x              -> new-parent-key
rename 1 5 =x              -> new-parent-key
exchange 0 2               -> second-parent-key
exchange 2 0               -> first-parent-key
exchange 0 1               -> first-under-itself
"""
