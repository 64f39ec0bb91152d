"""The errnos of the answers, what stands for them while an answer is computed, and how the script stops."""

import sys

ENOENT, EINVAL, ENAMETOOLONG, EUCLEAN = 2, 22, 36, 117


class Malformed(Exception):
    """A line that is no request."""


class Refused(Exception):
    """A request that is answered with an errno."""

    def __init__(self, errno):
        super().__init__(errno)
        self.errno = errno


def stop(why):
    """End the script, and say why."""
    sys.exit(f"vectors.py: {why}")
