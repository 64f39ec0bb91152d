"""Cases about creating, linking, removing and finding directory entries."""

SCRIPTS = {}

SCRIPTS["create"] = """
create 0 2 - -             -> name-empty
create 0 2 = -             -> name-empty
create 0 2 =<x*256> -      -> name-too-long
create 0 2 =<x*4096> -     -> name-too-long
create 0 2 =a/b -          -> name-byte
create 0 2 =/ -            -> name-byte
create 0 2 610062 -        -> name-byte
create 0 2 00 -            -> name-byte
create 0 2 =. -            -> name-dots
create 0 2 =.. -           -> name-dots
create 0 0 =a -            -> kind
create 0 5 =a -            -> kind
create 0 255 =a -          -> kind
create 0 256 =a -          -> kind
create 0 257 =a -          -> kind
create 0 65538 =a -        -> kind
create 0 4294967298 =a -   -> kind
create 0 18446744073709551615 =a - -> kind
create 1 2 =a -            -> no-parent
create 63 2 =a -           -> no-parent
create 64 2 =a -           -> no-parent
create 256 2 =a -          -> no-parent
create 4294967296 2 =a -   -> no-parent
create 18446744073709551615 2 =a - -> no-parent
create 0 2 =regular -      -> ok 1 0
create 0 3 =symlink -      -> ok 2 1
create 0 4 =special -      -> ok 3 2
create 0 1 =directory -    -> ok 4 3
create 1 2 =a -            -> parent-not-directory
create 2 2 =a -            -> parent-not-directory
create 3 2 =a -            -> parent-not-directory
create 4 2 =a -            -> ok 5 4
create 0 2 =regular -      -> name-taken
create 0 1 =regular -      -> name-taken
create 0 4 =directory -    -> name-taken
# the same name in another directory is free
create 4 2 =regular -      -> ok 6 5
set-policy 4 <A1> <n:1>    -> directory-not-empty
create 0 1 =secret -       -> ok 7 6
set-policy 7 <A1> <n:1>    -> ok
create 7 2 =a <n:2>        -> parent-key
create 7 4 =a <n:2>        -> parent-key
add-key <A> <A.64>         -> ok
create 7 2 =a <n:1>        -> nonce-borne
create 7 2 =a <n:2>        -> ok 8 7
create 7 2 =a <n:3>        -> name-taken
create 7 1 =b <n:3>        -> ok 9 8
create 7 3 =c <n:4>        -> ok 10 9
create 7 4 =d <n:5>        -> ok 11 10
get-policy 8               -> ok <A1>
get-policy 9               -> ok <A1>
get-policy 10              -> ok <A1>
get-policy 11              -> no-context
# an encrypted parent that is no directory, with its key and without
create 8 2 =a <n:5>        -> parent-not-directory
create 10 2 =a <n:5>       -> parent-not-directory
create 11 2 =a <n:5>       -> parent-not-directory
remove-key <A>             -> ok
create 8 2 =a <n:5>        -> parent-not-directory
# a grandchild inherits from its own parent, under that parent's key
create 9 2 =a <n:5>        -> parent-key
add-key <A> <A.64>         -> ok
create 9 2 =a <n:5>        -> ok 12 11
get-policy 12              -> ok <A1>
show 11                    -> ok 9 12 2 decrypted 1 =a
# a name that is taken stays so without the key, but the key is asked for first
remove-key <A>             -> ok
create 9 2 =a <n:6>        -> parent-key
"""

SCRIPTS["names-allowed"] = """
create 0 2 =... -                  -> ok 1 0
create 0 2 =.a -                   -> ok 2 1
create 0 2 =..a -                  -> ok 3 2
create 0 2 =- -                    -> ok 4 3
create 0 2 == -                    -> ok 5 4
create 0 2 =# -                    -> ok 6 5
create 0 2 20 -                    -> ok 7 6
create 0 2 0a -                    -> ok 8 7
create 0 2 09 -                    -> ok 9 8
create 0 2 01 -                    -> ok 10 9
create 0 2 7f -                    -> ok 11 10
create 0 2 ff -                    -> ok 12 11
create 0 2 80ff -                  -> ok 13 12
create 0 2 =~! -                   -> ok 14 13
create 0 2 =A -                    -> ok 15 14
create 0 2 =a -                    -> ok 16 15
create 0 2 =\\ -                   -> ok 17 16
create 0 2 =<x*255> -              -> ok 18 17
create 0 2 =<x*254> -              -> ok 19 18
create 0 2 0d -                    -> ok 20 19
show 0                             -> ok 0 1 2 plain 3 =...
show 3                             -> ok 0 4 2 plain 1 =-
show 4                             -> ok 0 5 2 plain 1 ==
show 5                             -> ok 0 6 2 plain 1 =#
show 6                             -> ok 0 7 2 plain 1 20
show 7                             -> ok 0 8 2 plain 1 0a
show 8                             -> ok 0 9 2 plain 1 09
show 9                             -> ok 0 10 2 plain 1 01
show 10                            -> ok 0 11 2 plain 1 7f
show 11                            -> ok 0 12 2 plain 1 ff
show 12                            -> ok 0 13 2 plain 2 80ff
show 13                            -> ok 0 14 2 plain 2 =~!
show 17                            -> ok 0 18 2 plain 255 =<x*255>
show 18                            -> ok 0 19 2 plain 254 =<x*254>
show 19                            -> ok 0 20 2 plain 1 0d
# letter case counts
find 0 =A                          -> ok 14
find 0 =a                          -> ok 15
find 0 =<x*255>                    -> ok 17
find 0 =<x*253>                    -> no-match
find 0 78                          -> no-match
find 0 =.                          -> name-dots
find 0 =..                         -> name-dots
# the same in an encrypted directory
create 0 1 =secret -               -> ok 21 20
set-policy 21 <A0> <n:1>           -> ok
add-key <A> <A.64>                 -> ok
create 21 2 =... <n:2>             -> ok 22 21
create 21 2 20 <n:3>               -> ok 23 22
create 21 2 ff <n:4>               -> ok 24 23
create 21 2 =<y*255> <n:5>         -> ok 25 24
create 21 2 010203 <n:6>           -> ok 26 25
create 21 2 =.. <n:7>              -> name-dots
create 21 2 =a/ <n:7>              -> name-byte
show 21                            -> ok 21 22 2 decrypted 3 =...
show 22                            -> ok 21 23 2 decrypted 1 20
show 23                            -> ok 21 24 2 decrypted 1 ff
show 24                            -> ok 21 25 2 decrypted 255 =<y*255>
show 25                            -> ok 21 26 2 decrypted 3 010203
"""

SCRIPTS["link"] = """
# covers: linking-across
create 0 1 =plain -        -> ok 1 0
create 0 1 =secret -       -> ok 2 1
set-policy 2 <A3> <n:1>    -> ok
add-key <A> <A.64>         -> ok
create 2 2 =file <n:2>     -> ok 3 2
create 1 2 =file -         -> ok 4 3
create 1 4 =special -      -> ok 5 4
create 1 3 =symlink -      -> ok 6 5
create 2 3 =symlink <n:3>  -> ok 7 6
create 2 4 =special -      -> ok 8 7
link 3 1 -                 -> name-empty
link 3 1 =<x*256>          -> name-too-long
link 3 1 =a/b              -> name-byte
link 3 1 =.                -> name-dots
link 9 1 =a                -> no-inode
link 64 1 =a               -> no-inode
link 18446744073709551615 1 =a -> no-inode
link 3 9 =a                -> no-parent
link 3 4294967297 =a       -> no-parent
link 3 4 =a                -> parent-not-directory
link 3 5 =a                -> parent-not-directory
# no directory is linked, the root neither
link 0 1 =a                -> linking-directory
link 1 0 =a                -> linking-directory
link 1 1 =a                -> linking-directory
link 2 2 =a                -> linking-directory
# an encrypted file into a plain directory: done
link 3 1 =from-secret      -> ok 8
# a plain file or symlink into an encrypted directory: refused
link 4 2 =from-plain       -> policy
link 6 2 =from-plain       -> policy
# a special file: done
link 5 2 =from-plain       -> ok 9
link 8 1 =also             -> ok 10
link 7 1 =symlink          -> name-taken
link 7 1 =symlink2         -> ok 11
# names taken, in both
link 3 1 =file             -> name-taken
link 3 2 =file             -> name-taken
# two names of one inode may stand in one directory
link 3 2 =second           -> ok 12
show 12                    -> ok 2 3 2 decrypted 6 =second
show 8                     -> ok 1 3 2 plain 11 =from-secret
show 9                     -> ok 2 5 4 decrypted 10 =from-plain
show 10                    -> ok 1 8 4 plain 4 =also
# the inode lives as long as one name does
remove 2                   -> ok
remove 12                  -> ok
get-policy 3               -> ok <A3>
link 3 2 =back             -> ok 2
remove 8                   -> ok
show 2                     -> ok 2 3 2 decrypted 4 =back
remove 2                   -> ok
get-policy 3               -> no-inode
link 3 2 =back             -> no-inode
# without the key
remove-key <A>             -> ok
link 7 2 =a                -> parent-key
link 4 2 =a                -> parent-key
link 5 2 =a                -> parent-key
link 7 0 =a                -> ok 2
link 2 2 =a                -> linking-directory
link 7 4 =a                -> parent-not-directory
"""

SCRIPTS["link-policies"] = """
# covers: flags-2-against-3 slip-1-policy-compare
# Same descriptor, same key, flags 2 against 3: the policy refusal.
add-key <A> <A.64>         -> ok
add-key <B> <B.64>         -> ok
create 0 1 =two -          -> ok 1 0
create 0 1 =three -        -> ok 2 1
create 0 1 =b-three -      -> ok 3 2
create 0 1 =three-again -  -> ok 4 3
set-policy 1 <A2> <n:1>    -> ok
set-policy 2 <A3> <n:2>    -> ok
set-policy 3 <B3> <n:3>    -> ok
set-policy 4 <A3> <n:4>    -> ok
create 1 2 =file <n:5>     -> ok 5 4
create 2 2 =file <n:6>     -> ok 6 5
create 3 2 =file <n:7>     -> ok 7 6
link 5 2 =in-three         -> policy
link 6 1 =in-two           -> policy
link 5 3 =in-b             -> policy
link 7 2 =in-three         -> policy
link 6 3 =in-b             -> policy
rename 4 2 =in-three       -> policy
rename 5 1 =in-two         -> policy
exchange 4 5               -> first-policy
exchange 5 6               -> first-policy
# equal policies, other nonces: done
link 6 4 =in-again         -> ok 7
rename 5 4 =moved          -> ok
create 2 2 =file <n:8>     -> ok 8 8
rename 5 4 =moved          -> name-taken
exchange 8 7               -> ok
show 8                     -> ok *
find 4 =moved              -> ok 5
find 4 =in-again           -> ok 7
"""

SCRIPTS["remove"] = """
remove 0                   -> no-entry
remove 63                  -> no-entry
remove 64                  -> no-entry
remove 256                 -> no-entry
remove 4294967296          -> no-entry
remove 18446744073709551615 -> no-entry
create 0 1 =a -            -> ok 1 0
create 1 1 =b -            -> ok 2 1
create 2 2 =c -            -> ok 3 2
remove 0                   -> directory-not-empty
remove 1                   -> directory-not-empty
remove 2                   -> ok
remove 2                   -> no-entry
remove 0                   -> directory-not-empty
remove 1                   -> ok
remove 0                   -> ok
# freed numbers are used again, the lowest first
create 0 2 =a -            -> ok 1 0
create 0 2 =b -            -> ok 2 1
create 0 2 =c -            -> ok 3 2
create 0 2 =d -            -> ok 4 3
link 2 0 =b2               -> ok 4
remove 1                   -> ok
create 0 2 =e -            -> ok 5 1
remove 4                   -> ok
create 0 2 =f -            -> ok 2 4
remove 0                   -> ok
remove 3                   -> ok
create 0 1 =g -            -> ok 1 0
create 1 1 =h -            -> ok 4 3
get-policy 4               -> no-context
# a freed inode leaves no context to the next one
set-policy 4 <A0> <n:1>    -> ok
remove 3                   -> ok
create 1 1 =h -            -> ok 4 3
get-policy 4               -> no-context
set-policy 4 <A0> <n:1>    -> ok
add-key <A> <A.64>         -> ok
create 4 1 =i <n:2>        -> ok 6 5
remove-key <A>             -> ok
remove 3                   -> directory-not-empty
remove 5                   -> ok
remove 3                   -> ok
remove 0                   -> ok
create 0 3 =j -            -> ok 1 0
show 0                     -> ok 0 1 3 plain 1 =j
"""

SCRIPTS["find"] = """
find 0 -                   -> name-empty
find 0 =<x*256>            -> name-too-long
find 0 =a/                 -> name-byte
find 0 00                  -> name-byte
find 0 =.                  -> name-dots
find 0 =..                 -> name-dots
find 1 =a                  -> no-parent
find 64 =a                 -> no-parent
find 18446744073709551615 =a -> no-parent
find 0 =a                  -> no-match
create 0 2 =a -            -> ok 1 0
find 1 =a                  -> parent-not-directory
find 0 =a                  -> ok 0
find 0 =A                  -> no-match
find 0 6100                -> name-byte
create 0 1 =d -            -> ok 2 1
set-policy 2 <A2> <n:1>    -> ok
find 2 =a                  -> parent-key
add-key <A> <A.64>         -> ok
find 2 =a                  -> no-match
create 2 2 =a <n:2>        -> ok 3 2
create 2 1 =d <n:3>        -> ok 4 3
find 2 =a                  -> ok 2
find 2 =d                  -> ok 3
find 2 =b                  -> no-match
find 4 =a                  -> no-match
find 3 =a                  -> parent-not-directory
remove-key <A>             -> ok
find 2 =a                  -> parent-key
find 2 =none               -> parent-key
find 3 =a                  -> parent-not-directory
# the letters a name is shown with are no name of it
show 2                     -> ok *
add-key <A> <A.64>         -> ok
rename 2 2 =z              -> ok
find 2 =a                  -> no-match
find 2 =z                  -> ok 2
# the bytes stored are no name of it either
create 0 4 =z -            -> ok 5 4
find 0 =z                  -> ok 4
"""
