"""Draws that are the same on every machine."""

import random

from model import NamedLap


class Draws:
    """Draws named by a text. Only random() is used: Python promises its
    sequence for a given seed, which it does not for its other methods."""

    def __init__(self, *name):
        self._source = random.Random()
        self._source.seed("/".join(str(part) for part in name), version=2)

    def below(self, end):
        return int(self._source.random() * end)

    def between(self, least, most):
        return least + self.below(most - least + 1)

    def chance(self, share):
        return self._source.random() < share

    def pick(self, choices):
        return choices[self.below(len(choices))]

    def weighted(self, weights):
        """One of the keys of a dict, as often as its weight says."""
        at = self._source.random() * sum(weights.values())
        for choice, weight in weights.items():
            at -= weight
            if at < 0:
                return choice
        return choice


def uneven_feeds(draws):
    """The laps of each source: one has laps that follow each other, and so fall
    into several partitions, the other only one or two. Its portions are often
    the larger ones, also when it has fewer rows in memory."""
    heat, car = draws.between(1, 8), draws.pick([1, 7, 999])
    first = draws.pick([0, 12, 13, 990])
    spread = [NamedLap(heat, car, first + step) for step in range(draws.between(3, 6))]
    lap = draws.pick(spread)
    crowded = draws.pick([[lap], [lap, lap._replace(heat=heat + 1)], [lap, draws.pick(spread)]])
    return draws.pick([[spread, crowded], [crowded, spread]])
