"""For each rule the best one that is shorter.

Rules of a length are compared with those that lack one antecedent, which carry the best of those below them. So a rule
takes as many steps as it has antecedents, and not as many as these have subsets. Where a rule in between isn't there, it
is made, for what lies below it.
"""

from collections.abc import Hashable, Sequence
from typing import Any

import numpy as np

from ._baskets import Array

Itemset = frozenset[Any]

# Few rules of many antecedents may need very many of these. Then each is compared with the shorter ones that are there.
_MOST_PER_RULE, _MOST_BESIDE = 16, 100_000


class TooManyBetween(Exception):
    """The rules in between are too many to be made."""


def best_below(lefts: list[Itemset], rights: list[Itemset], ranks: Array) -> Array:
    """For each rule the place of that of the highest rank with a proper subset of its antecedents and the same
    consequents, or -1.

    Raises:
        TooManyBetween: there are too many rules in between that aren't there.
    """
    numbers: dict[Itemset, int] = {}
    own_left, own_right = _numbered(lefts, numbers), _numbered(rights, {})
    given = [*numbers]
    sizes = np.fromiter(map(len, given), np.int64, len(given))[own_left]
    # A rule stands by its place in the order of ranks, so that the greatest is the best.
    order = np.argsort(ranks, kind="stable")
    values = np.empty(len(order), dtype=np.int64)
    values[order] = np.arange(len(order))
    levels = _Levels(numbers, int(own_right.max(initial=0)) + 1)
    at = [np.flatnonzero(sizes == size) for size in range(sizes.max(initial=0) + 1)]
    keys = [levels.keys(own_left[places], own_right[places]) for places in at]
    nodes, below = levels.down(keys, _MOST_PER_RULE * len(lefts) + _MOST_BESIDE)
    found = np.full(len(lefts), -1, dtype=np.int64)
    carried = np.full(len(nodes[0]), -1, dtype=np.int64)
    for size, places in enumerate(at):
        best = np.full(len(nodes[size]), -1, dtype=np.int64)
        if size:
            rows = np.searchsorted(nodes[size - 1], below[size])
            best = carried[rows].max(axis=1, initial=-1)
        own = np.searchsorted(nodes[size], keys[size])
        found[places] = best[own]
        np.maximum.at(best, own, values[places])
        carried = best
    return np.where(found < 0, -1, order[found])


class _Levels:
    """Numbers for the antecedents of rules, those in between included, and for rules by both sides."""

    def __init__(self, numbers: dict[Itemset, int], rights: int) -> None:
        self._numbers, self._sets = numbers, [*numbers]
        self._rights = rights

    def keys(self, lefts: Array, rights: Array) -> Array:
        return lefts * self._rights + rights

    def down(self, keys: list[Array], most: int) -> tuple[list[Array], list[Array]]:
        """For each number of antecedents the rules, with those in between, in order, and those that lack one of theirs."""
        nodes, below, made = [*keys], [*keys], 0
        for size in range(len(keys) - 1, 0, -1):
            nodes[size] = np.unique(nodes[size])
            made += size * len(nodes[size])
            if made > most:
                raise TooManyBetween
            below[size] = self._below(nodes[size], size)
            nodes[size - 1] = np.concatenate((nodes[size - 1], below[size].ravel()))
        nodes[0] = np.unique(nodes[0])
        return nodes, below

    def _below(self, nodes: Array, size: int) -> Array:
        """For each rule those that lack one of its antecedents, a row for each."""
        lefts, rights = np.divmod(nodes, self._rights)
        different, places = np.unique(lefts, return_inverse=True)
        shorter = np.empty((len(different), size), dtype=np.int64)
        for row, number in enumerate(different.tolist()):
            whole = self._sets[number]
            shorter[row] = [self._number(whole - {item}) for item in whole]
        return self.keys(shorter[places], rights[:, None])

    def _number(self, items: Itemset) -> int:
        found = self._numbers.get(items)
        if found is None:
            found = self._numbers[items] = len(self._sets)
            self._sets.append(items)
        return found


def _numbered(labels: Sequence[Hashable], known: dict[Any, int]) -> Array:
    found = (known.setdefault(label, len(known)) for label in labels)
    return np.fromiter(found, np.int64, len(labels))
