"""Random choices that are the same on every machine and in every version of Python.

Python promises this for `random()` alone, so all else is built on it.
"""

import random


class Dice:
    def __init__(self, seed):
        self._random = random.Random(seed).random

    def below(self, limit):
        """A number from 0 to limit - 1."""
        return int(self._random() * limit)

    def chance(self, probability):
        return self._random() < probability

    def choice(self, items):
        return items[self.below(len(items))]

    def weighted(self, weights):
        """A key of a dictionary, as often as its value says."""
        at = self._random() * sum(weights.values())
        for item, weight in weights.items():
            at -= weight
            if at < 0:
                return item
        return item

    def bytes(self, length):
        return bytes(self.below(256) for _ in range(length))
