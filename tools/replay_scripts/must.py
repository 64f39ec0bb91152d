"""A check that must hold. Python's `assert` is dropped by `python3 -O`, and this is not."""


class Failed(Exception):
    """What does not hold."""


def must(holds, what):
    """Stop the check that calls this where something does not hold."""
    if not holds:
        raise Failed(what)
