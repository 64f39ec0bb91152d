"""Document 01's "Slips we have seen", each made on purpose in the model.

A script covers a slip if its answers change when the model makes that slip. The
slips are patches: an object, the name of an attribute, and the wrong function.
"""

from contextlib import ExitStack
from unittest.mock import patch

from bulwarkle_model import ciphers, volume
from bulwarkle_model.names import padded_length
from bulwarkle_model.script import answers
from bulwarkle_model.volume import DIRECTORY, SPECIAL, Volume

_set_policy_checks = Volume.set_policy_checks
_exchange_checks = Volume.exchange_checks
_add_entry = Volume._add_entry


def _wrong_policies(same):
    """A policy refusal that compares the two policies by `same` only."""
    def policy_refused(self, number, parent):
        moved, there = self.inode(number), self.context(parent)
        if moved is None or there is None or moved.kind == SPECIAL:
            return False
        return moved.context is None or not same(moved.context.policy, there.policy)
    return policy_refused


def _first_policy_wins(self, number, raw, nonce):
    """Set policy taking any policy with the same descriptor for an equal one."""
    here = self.context(number)
    equal = here is not None and here.policy.descriptor == raw[4:]
    return [(reason, fails and not (reason == "other-policy" and equal))
            for reason, fails in _set_policy_checks(self, number, raw, nonce)]


def _unswapped(key, multiple, name):
    """Names encrypted without the change of the last two blocks at multiples of 16."""
    length = padded_length(len(name), multiple)
    stored = ciphers.encrypt_cts(key, name.ljust(length, b"\0"))
    if length > 16 and length % 16 == 0:
        stored = stored[:-32] + stored[-16:] + stored[-32:-16]
    return stored


def _one_side(dropped):
    """An exchange that does not make the checks whose reason begins with `dropped`."""
    def exchange_checks(self, first, second):
        return [check for check in _exchange_checks(self, first, second)
                if not (check[0].startswith(dropped) and "entry" not in check[0])]
    return exchange_checks


def _special_like_regular(self, number, parent):
    moved, there = self.inode(number), self.context(parent)
    if moved is None or there is None:
        return False
    return (moved.context and moved.context.policy) != there.policy


def _tweaks_high_byte_first(key, number, count):
    start = ciphers.encrypt_ecb(key, number.to_bytes(8, "little") + bytes(8))
    tweak, tweaks = int.from_bytes(start, "big"), []
    for _ in range(count):
        tweaks.append(tweak.to_bytes(16, "big"))
        tweak <<= 1
        if tweak >> 128:
            tweak ^= (1 << 128) | 0x87
    return b"".join(tweaks)


def _own_key(self, parent, number, name):
    """A directory's name encrypted with its own key."""
    entry = _add_entry(self, parent, number, name)
    if self.inodes[number].kind == DIRECTORY and self.context(number):
        self.entries[entry].stored = self.stored_name(number, name)
    return entry


SLIPS = {
    "slip-1-policy-compare": [
        (Volume, "policy_refused", _wrong_policies(lambda one, two: True)),
        (Volume, "policy_refused",
         _wrong_policies(lambda one, two: one.descriptor == two.descriptor)),
        (Volume, "policy_refused", _wrong_policies(lambda one, two: one[:4] == two[:4])),
        (Volume, "set_policy_checks", _first_policy_wins),
    ],
    "slip-2-swapped-blocks": [(volume, "encrypt_name", _unswapped)],
    "slip-3-exchange-sides": [(Volume, "exchange_checks", _one_side("first-")),
                              (Volume, "exchange_checks", _one_side("second-"))],
    "slip-4-special-files": [(Volume, "policy_refused", _special_like_regular)],
    "slip-5-xts-tweak": [(ciphers, "_xts_tweaks", _tweaks_high_byte_first)],
    "slip-6-parents-key": [(Volume, "_add_entry", _own_key)],
}


def answers_with(slip, script):
    """The answers of a model that makes one slip."""
    with ExitStack() as stack:
        stack.enter_context(patch.object(*slip))
        return answers(script)


def uncaught(tag, scripts):
    """How many of a tag's slips change no answer of these scripts."""
    right = [answers(script) for script in scripts]
    return sum(all(answers_with(slip, script) == answer
                   for script, answer in zip(scripts, right)) for slip in SLIPS[tag])
