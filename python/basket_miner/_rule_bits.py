"""Rules as rows of bits by item, for large baskets, of which many rules speak."""

import itertools
from collections.abc import Iterator, Sequence
from typing import Any

import numpy as np

from ._baskets import Array

# What a basket costs, in nanoseconds, as measured: by lists for each rule at one of its items; by rows of bits for each
# rule, for each byte of the rows, and once.
_PER_RULE_NEAR, _PER_RULE, _PER_BYTE, _ONCE = 50.0, 2.0, 0.1, 20_000.0
_MOST_BYTES = 1 << 26


def pays(near: int, items: int, rules: int) -> bool:
    """Whether rows of bits take less time than lists.

    Args:
        near: how many rules stand at the basket's items.
        items: how many items there are in all.
        rules: how many rules.
    """
    size = 2 * items * (rules // 8 + 8)
    by_bits = _ONCE + rules * _PER_RULE + size / 2 * _PER_BYTE
    return size <= _MOST_BYTES and near * _PER_RULE_NEAR > by_bits


class RuleBits:
    """For each item the rules that want it and those that give it, a bit for each rule."""

    def __init__(
        self, lefts: Sequence[frozenset[Any]], rights: Sequence[frozenset[Any]]
    ) -> None:
        items = frozenset().union(*{*lefts, *rights})
        self._numbers = {item: number for number, item in enumerate(items)}
        self._rules = len(lefts)
        self._wants, self._gives = self._rows(lefts), self._rows(rights)

    def _rows(self, sides: Sequence[frozenset[Any]]) -> Array:
        ranks = np.repeat(np.arange(len(sides)), [*map(len, sides)])
        items = map(self._numbers.__getitem__, itertools.chain.from_iterable(sides))
        numbers = np.fromiter(items, np.intp, len(ranks))
        rows = np.zeros((len(self._numbers), (len(sides) + 63) // 64 * 8), np.uint8)
        np.bitwise_or.at(rows, (numbers, ranks >> 3), 1 << (ranks & 7).astype(np.uint8))
        return rows.view(np.uint64)

    def speaking(self, items: frozenset[Any]) -> Iterator[int]:
        """The ranks of the rules whose antecedents a basket has and of whose consequents it has none."""
        known = self._numbers.keys() & items
        owned = [self._numbers[item] for item in known]
        lacking = np.ones(len(self._numbers), dtype=bool)
        lacking[owned] = False
        silent = np.bitwise_or.reduce(self._wants[lacking], axis=0)
        silent |= np.bitwise_or.reduce(self._gives[owned], axis=0)
        bits = np.unpackbits((~silent).view(np.uint8), bitorder="little")
        found = np.flatnonzero(bits[: self._rules])
        # Few of them are asked for.
        for start in range(0, len(found), 256):
            yield from found[start : start + 256].tolist()
