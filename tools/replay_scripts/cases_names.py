"""Cases about show, the key a name stands under, and the refusals of seal and open."""

SCRIPTS = {}

SCRIPTS["show"] = """
show 0                     -> no-entry
show 0 254                 -> buffer-small
show 0 0                   -> buffer-small
show 0 255                 -> no-entry
show 63                    -> no-entry
show 64                    -> no-entry
show 256                   -> no-entry
show 4294967296            -> no-entry
show 18446744073709551615  -> no-entry
show 18446744073709551615 254 -> buffer-small
create 0 2 =a -            -> ok 1 0
show 0                     -> ok 0 1 2 plain 1 =a
show 0 255                 -> ok 0 1 2 plain 1 =a
show 0 256                 -> ok 0 1 2 plain 1 =a
show 0 4096                -> ok 0 1 2 plain 1 =a
show 0 4097                -> malformed
show 0 254                 -> buffer-small
show 0 1                   -> buffer-small
create 0 1 =d -            -> ok 2 1
set-policy 2 <A0> <n:1>    -> ok
add-key <A> <A.64>         -> ok
create 2 2 =short <n:2>    -> ok 3 2
create 2 3 =<l*160> <n:3>  -> ok 4 3
create 2 4 =<l*161> -      -> ok 5 4
create 2 1 =<l*255> <n:4>  -> ok 6 5
create 2 2 c3a9 <n:5>      -> ok 7 6
show 2                     -> ok 2 3 2 decrypted 5 =short
show 3                     -> ok 2 4 3 decrypted 160 =<l*160>
show 4                     -> ok 2 5 4 decrypted 161 =<l*161>
show 5                     -> ok 2 6 1 decrypted 255 =<l*255>
show 6                     -> ok 2 7 2 decrypted 2 c3a9
show 5 254                 -> buffer-small
# show works without the key: letters, and above 160 stored bytes `_` and two digits
remove-key <A>             -> ok
show 1                     -> ok 0 2 1 plain 1 =d
show 2                     -> ok *
show 3                     -> ok *
show 4                     -> ok *
show 5                     -> ok *
show 6                     -> ok *
show 5 254                 -> buffer-small
show 5 4096                -> ok *
# the two digits are the entry's number, the letters stay the same
remove 2                   -> ok
remove 3                   -> ok
add-key <A> <A.64>         -> ok
create 0 2 =x -            -> ok 3 2
create 0 2 =y -            -> ok 4 3
link 5 2 =<m*161>          -> ok 7
rename 4 0 =out            -> ok
link 5 2 =<l*161>          -> ok 8
remove-key <A>             -> ok
show 7                     -> ok *
show 8                     -> ok *
show 4                     -> ok 0 5 4 plain 3 =out
"""

SCRIPTS["show-high-numbers"] = """
# Long names shown without the key in entries with two-digit numbers.
add-key <A> <A.64>         -> ok
create 0 1 =d -            -> ok 1 0
set-policy 1 <A2> <n:1>    -> ok
create 1 4 =s -            -> ok 2 1
link 2 0 =02 -> ok 2
link 2 0 =03 -> ok 3
link 2 0 =04 -> ok 4
link 2 0 =05 -> ok 5
link 2 0 =06 -> ok 6
link 2 0 =07 -> ok 7
link 2 0 =08 -> ok 8
link 2 1 =<9*200> -> ok 9
link 2 1 =<a*200> -> ok 10
link 2 0 =11 -> ok 11
link 2 0 =12 -> ok 12
link 2 0 =13 -> ok 13
link 2 0 =14 -> ok 14
link 2 1 =<f*200> -> ok 15
link 2 1 =<g*200> -> ok 16
link 2 1 =<h*161> -> ok 17
link 2 1 =<h*160> -> ok 18
link 2 1 =<h*159> -> ok 19
# names that differ after the first 160 bytes only: told apart by the digits
link 2 1 =<h*176>a -> ok 20
link 2 1 =<h*176>b -> ok 21
remove-key <A>             -> ok
show 9                     -> ok *
show 10                    -> ok *
show 15                    -> ok *
show 16                    -> ok *
show 17                    -> ok *
show 18                    -> ok *
show 19                    -> ok *
show 20                    -> ok *
show 21                    -> ok *
show 1                     -> ok *
show 2                     -> ok 0 2 4 plain 2 =02
"""

SCRIPTS["own-name-and-key"] = """
# covers: slip-6-parents-key
# A directory's own name stands under its parent's key, and the form is the parent's.
add-key <A> <A.64>         -> ok
create 0 1 =top -          -> ok 1 0
set-policy 1 <A1> <n:1>    -> ok
create 1 1 =sub <n:2>      -> ok 2 1
create 2 1 =subsub <n:3>   -> ok 3 2
create 1 4 =special -      -> ok 4 3
create 2 4 =special -      -> ok 5 4
create 2 2 =sub <n:4>      -> ok 6 5
show 0                     -> ok 0 1 1 plain 3 =top
show 1                     -> ok 1 2 1 decrypted 3 =sub
show 2                     -> ok 2 3 1 decrypted 6 =subsub
show 3                     -> ok 1 4 4 decrypted 7 =special
remove-key <A>             -> ok
show 0                     -> ok 0 1 1 plain 3 =top
# the same name in two directories of one policy is stored in two ways
show 1                     -> ok *
show 5                     -> ok *
show 3                     -> ok *
show 4                     -> ok *
# moved out, an encrypted directory's name is plain; what is below it is not
add-key <A> <A.64>         -> ok
rename 1 0 =moved          -> ok
remove-key <A>             -> ok
show 1                     -> ok 0 2 1 plain 5 =moved
show 2                     -> ok *
get-policy 2               -> ok <A1>
# a file with names in several directories: each under that directory's key
add-key <A> <A.64>         -> ok
link 6 1 =same             -> ok 6
link 6 2 =same             -> ok 7
link 6 3 =same             -> ok 8
link 6 0 =same             -> ok 9
remove-key <A>             -> ok
show 6                     -> ok *
show 7                     -> ok *
show 8                     -> ok *
show 9                     -> ok 0 6 2 plain 4 =same
# exchange moves inodes and leaves stored names alone
add-key <A> <A.64>         -> ok
exchange 5 9               -> ok
exchange 2 3               -> ok
remove-key <A>             -> ok
show 5                     -> ok *
show 2                     -> ok *
show 3                     -> ok *
"""

SCRIPTS["seal-open-refusals"] = """
create 0 2 =plain -        -> ok 1 0
create 0 1 =d -            -> ok 2 1
set-policy 2 <A0> <n:1>    -> ok
add-key <A> <A.64>         -> ok
create 2 2 =file <n:2>     -> ok 3 2
create 2 3 =symlink <n:3>  -> ok 4 3
create 2 4 =special -      -> ok 5 4
create 2 1 =sub <n:4>      -> ok 6 5
create 0 4 =special -      -> ok 7 6
seal 3 0 -                 -> block-length
seal 3 0 00                -> block-length
seal 3 0 <n:1>             -> block-length
seal 3 0 =<x*512>          -> block-length
seal 3 0 =<x*4095>         -> block-length
seal 3 0 =<x*4097>         -> block-length
open 3 0 -                 -> block-length
open 3 0 =<x*4097>         -> block-length
seal 8 0 =<x*4096>         -> no-inode
open 18446744073709551615 0 =<x*4096> -> no-inode
seal 0 0 =<x*4096>         -> not-regular
seal 4 0 =<x*4096>         -> not-regular
open 5 0 =<x*4096>         -> not-regular
seal 7 0 =<x*4096>         -> not-regular
seal 1 0 =<x*4096>         -> no-context
open 1 0 =<x*4096>         -> no-context
remove-key <A>             -> ok
seal 3 0 =<x*4096>         -> inode-key
open 3 0 =<x*4096>         -> inode-key
# a file's contents stand under its own context, wherever its names stand
add-key <A> <A.64>         -> ok
seal 3 7 =<x*4096>         -> ok *
link 3 0 =outside          -> ok 7
remove 2                   -> ok
seal 3 7 =<x*4096>         -> ok *
"""
