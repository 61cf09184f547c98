"""Frequent itemsets and rules by counting every subset: the definitions, and nothing quick."""

import itertools
from collections.abc import Hashable, Sequence
from fractions import Fraction

Itemset = frozenset[Hashable]
Basket = Sequence[Hashable]


def supports(
    baskets: Sequence[Basket], weights: Sequence[int] | None = None
) -> dict[Itemset, int]:
    """What the baskets weigh that have a set, for each set that some basket has, also none."""
    found: dict[Itemset, int] = {}
    for basket, weight in zip(baskets, weights or [1] * len(baskets)):
        items = set(basket)
        for size in range(len(items) + 1):
            for chosen in itertools.combinations(items, size):
                key = frozenset(chosen)
                found[key] = found.get(key, 0) + weight
    return found


def frequent(
    baskets: Sequence[Basket], least: int, weights: Sequence[int] | None = None
) -> list[tuple[Itemset, int]]:
    """The frequent sets with their counts, where items are numbered by first appearance:
    fewer items first, then by the first different item."""
    numbers: dict[Hashable, int] = {}
    for item in itertools.chain.from_iterable(baskets):
        numbers.setdefault(item, len(numbers))
    found = [
        (itemset, count)
        for itemset, count in supports(baskets, weights).items()
        if itemset and count >= least
    ]
    found.sort(
        key=lambda pair: (len(pair[0]), sorted(numbers[item] for item in pair[0]))
    )
    return found


def rules(
    baskets: Sequence[Basket],
    least: int,
    confidence: Fraction,
    weights: Sequence[int] | None = None,
) -> dict[tuple[Itemset, Itemset], tuple[int, Fraction, Fraction]]:
    """The count, confidence and lift of each rule, by its two sides."""
    counts = supports(baskets, weights)
    whole = counts[frozenset()]
    found = {}
    for union, count in counts.items():
        if count < least:
            continue
        for size in range(1, len(union)):
            for chosen in itertools.combinations(union, size):
                left, right = frozenset(chosen), union - frozenset(chosen)
                share = Fraction(count, counts[left])
                if share >= confidence:
                    lift = share / Fraction(counts[right], whole)
                    found[left, right] = (count, share, lift)
    return found
