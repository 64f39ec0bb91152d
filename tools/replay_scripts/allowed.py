"""What document 01 allows: each request's checks in order, and so its refusals.

This table is written from document 01's section on refusals and not from the
model; `scripts.py selftest` compares the two.
"""

from itertools import combinations

from bulwarkle_model.reasons import ERRNO, REASONS

_NAME = ("name-empty", "name-too-long", "name-byte", "name-dots")
_PARENT = ("no-parent", "parent-not-directory")
_POLICY_BYTES = ("policy-length", "policy-version", "policy-modes", "policy-flags")
_SEAL = ("block-length", "no-inode", "not-regular", "no-context", "inode-key")

ORDER = {
    "add-key": ("key-length", "descriptor-held", "no-free-key-slot"),
    "remove-key": ("key-not-held",),
    # No key is needed: a policy may be set, and asked for, without it.
    "set-policy": ("no-inode", *_POLICY_BYTES, "other-policy", "policy-on-root",
                   "policy-on-non-directory", "directory-not-empty", "nonce-borne"),
    "get-policy": ("no-inode", "no-context"),
    # A child inherits its parent's policy, so create has no policy refusal. Room
    # is asked for last, inodes and entries both.
    "create": (*_NAME, "kind", *_PARENT, "parent-key", "name-taken", "nonce-borne",
               "no-free-inode", "no-free-entry"),
    # Linking a directory (EPERM) comes before the key, the policy (EXDEV) after it.
    "link": (*_NAME, "no-inode", *_PARENT, "linking-directory", "parent-key", "policy",
             "name-taken", "no-free-entry"),
    # Rename keeps its entry's number, so it needs no room.
    "rename": (*_NAME, "no-entry", *_PARENT, "old-parent-key", "new-parent-key", "policy",
               "under-itself", "name-taken"),
    # Exchange takes entries only: no name, no parent that could be missing.
    "exchange": ("no-first-entry", "no-second-entry", "first-parent-key",
                 "second-parent-key", "first-policy", "second-policy",
                 "first-under-itself", "second-under-itself"),
    # Remove works without the key.
    "remove": ("no-entry", "directory-not-empty"),
    # Find asks for its match after the key, so a missing key is not "no match".
    "find": (*_NAME, *_PARENT, "parent-key", "no-match"),
    # Show works without the key; with a wrong one the name may not decrypt.
    "show": ("buffer-small", "no-entry", "decrypted-rest", "decrypted-name",
             "decrypted-length"),
    "seal": _SEAL,
    "open": _SEAL,
}

REFUSALS = sorted(ERRNO, key=ERRNO.get)


def allowed(word, refusal):
    """Whether document 01 allows this refusal (by its name) for this request."""
    return any(REASONS[reason] == refusal for reason in ORDER[word])


# Pairs of checks that can't both fail, and why: each of the first with each of
# the second. Of all other pairs of one request's checks, neighbours and not, the
# stored set has a request in which both fail and the earlier one wins.
_LOOKED_UP = ("name-taken", "no-match")
_FIRST_POLICY = ("policy-on-root", "policy-on-non-directory", "directory-not-empty",
                 "nonce-borne")
_BOTH_MOVED = ("first-policy", "second-policy", "first-under-itself", "second-under-itself")
NEVER_TOGETHER = (
    (("name-empty",), _NAME[1:], "a name can't be both"),
    (_NAME[1:3], ("name-dots",), "a name can't be both"),
    (_NAME, _LOOKED_UP, "only a plain name is looked up"),
    (("no-parent",), ("parent-not-directory", "parent-key", "new-parent-key", "policy",
                      "under-itself", "nonce-borne", *_LOOKED_UP),
     "nothing is known of a parent that doesn't exist"),
    (("parent-not-directory",), ("policy", "under-itself", *_LOOKED_UP),
     "only a directory has entries"),
    (("parent-key", "new-parent-key"), _LOOKED_UP, "without the key the stored name isn't known"),
    (("no-inode",), ("linking-directory", "policy", "not-regular", "no-context", "inode-key",
                     "other-policy", *_FIRST_POLICY),
     "nothing is known of an inode that doesn't exist"),
    (("no-entry",), ("old-parent-key", "policy", "under-itself", "directory-not-empty",
                     "decrypted-rest", "decrypted-name", "decrypted-length"),
     "nothing is known of an entry that doesn't exist"),
    (("no-first-entry",), ("first-parent-key", *_BOTH_MOVED),
     "nothing is known of an entry that doesn't exist"),
    (("no-second-entry",), ("second-parent-key", *_BOTH_MOVED),
     "nothing is known of an entry that doesn't exist"),
    (("policy-length",), _POLICY_BYTES[1:], "the fields are read from 12 bytes only"),
    (("other-policy",), _FIRST_POLICY, "these are asked where there is no policy yet"),
    (("policy-on-root",), ("policy-on-non-directory",), "the root is a directory"),
    (("policy-on-non-directory",), ("directory-not-empty",), "only a directory has entries"),
    (("no-context",), ("inode-key",), "without a context no key is needed"),
    (("first-under-itself",), ("second-under-itself",),
     "two directories can't each be below the other"),
    # Then the first entry's parent is below the second inode and has its policy.
    (("second-parent-key",), ("second-under-itself",), "the first parent lacks the same key"),
    (("first-policy",), ("second-under-itself",),
     "below an encrypted directory all but special files have its policy"),
    (("second-policy",), ("first-under-itself",),
     "below an encrypted directory all but special files have its policy"),
)


def never_together(one, two):
    return any(one in first and two in second for first, second, _ in NEVER_TOGETHER)


def possible_pairs(word):
    """The pairs of a request's checks, in order, that can both fail."""
    return [pair for pair in combinations(ORDER[word], 2) if not never_together(*pair)]
