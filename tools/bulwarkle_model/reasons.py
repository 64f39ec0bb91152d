"""Why a request can be refused.

A refusal answers a number alone. The model also records which check failed, so
that coverage can be counted by check and not only by number.
"""

ERRNO = {
    "EPERM": 1, "ENOENT": 2, "EEXIST": 17, "EXDEV": 18, "ENOTDIR": 20,
    "EINVAL": 22, "ENOSPC": 28, "ERANGE": 34, "ENAMETOOLONG": 36,
    "ENOTEMPTY": 39, "ENODATA": 61, "ENOTUNIQ": 76, "EUCLEAN": 117,
    "ENOKEY": 126,
}

# Each check and the refusal it gives.
REASONS = {
    # names given to a request
    "name-empty": "ENOENT",
    "name-too-long": "ENAMETOOLONG",
    "name-byte": "EINVAL",
    "name-dots": "EINVAL",
    # what the numbers name
    "kind": "EINVAL",
    "no-inode": "ENOENT",
    "no-entry": "ENOENT",
    "no-first-entry": "ENOENT",
    "no-second-entry": "ENOENT",
    "no-parent": "ENOENT",
    "parent-not-directory": "ENOTDIR",
    "linking-directory": "EPERM",
    # keys needed and absent
    "parent-key": "ENOKEY",
    "old-parent-key": "ENOKEY",
    "new-parent-key": "ENOKEY",
    "first-parent-key": "ENOKEY",
    "second-parent-key": "ENOKEY",
    "inode-key": "ENOKEY",
    # the policy refusal; its number is document 02's (Item 2)
    "policy": "EXDEV",
    "first-policy": "EXDEV",
    "second-policy": "EXDEV",
    # a directory put under itself
    "under-itself": "EINVAL",
    "first-under-itself": "EINVAL",
    "second-under-itself": "EINVAL",
    # the parent's entries, nonces, room
    "name-taken": "EEXIST",
    "no-match": "ENOENT",
    "nonce-borne": "ENOTUNIQ",
    "no-free-inode": "ENOSPC",
    "no-free-entry": "ENOSPC",
    "directory-not-empty": "ENOTEMPTY",
    # policies
    "policy-length": "EINVAL",
    "policy-version": "EINVAL",
    "policy-modes": "EINVAL",
    "policy-flags": "EINVAL",
    "other-policy": "EEXIST",
    "policy-on-root": "EPERM",
    "policy-on-non-directory": "ENOTDIR",
    "no-context": "ENODATA",
    # the keyring
    "key-length": "EINVAL",
    "descriptor-held": "EEXIST",
    "no-free-key-slot": "ENOSPC",
    "key-not-held": "ENOKEY",
    # show
    "buffer-small": "ERANGE",
    "decrypted-rest": "EUCLEAN",
    "decrypted-name": "EUCLEAN",
    "decrypted-length": "EUCLEAN",
    # seal and open
    "block-length": "EINVAL",
    "not-regular": "EINVAL",
}


class Refused(Exception):
    """A refused request; it has changed nothing."""

    def __init__(self, reason):
        super().__init__(reason)
        self.reason = reason
        self.name = REASONS[reason]
        self.errno = ERRNO[self.name]
