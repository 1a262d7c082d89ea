"""Seeded choices for the generators; nothing of document 01 is here.

All are made from Random.random(), which every Python repeats for a seed.
"""
import random


class Draws:
    def __init__(self, seed):
        self._random = random.Random(seed).random

    def below(self, count):
        """A number from 0 to count - 1."""
        return int(self._random() * count)

    def between(self, low, high):
        """A number from low to high, both included."""
        return low + self.below(high - low + 1)

    def chance(self, share):
        """True in the given share of the draws."""
        return self._random() < share

    def pick(self, items):
        return items[self.below(len(items))]

    def shuffled(self, items):
        result = list(items)
        for index in range(len(result) - 1, 0, -1):
            other = self.below(index + 1)
            result[index], result[other] = result[other], result[index]
        return result

    def some(self, items, count):
        """That many different items, in random order."""
        return self.shuffled(items)[:count]

    def events(self, alphabet, share=0.5):
        """A set of events from the alphabet, at least one."""
        result = 0
        for event in alphabet:
            if self.chance(share):
                result |= 1 << event
        return result or 1 << self.pick(alphabet)

    def bytes(self, count):
        return bytes(self.below(256) for _ in range(count))
