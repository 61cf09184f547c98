#!/usr/bin/env python3
"""Writes baskets in the FIMI format, by the procedure for synthetic data of Agrawal and Srikant
(VLDB 1994). It is called as quest.py MEAN_BASKET MEAN_PATTERN BASKETS ITEMS PATTERNS SEED [OTHER_SEED],
where another seed makes other baskets of the same patterns."""

import itertools
import random
import sys
from collections.abc import Iterator

CORRELATION = 0.5
CORRUPTION = 0.5
CORRUPTION_VARIANCE = 0.1

# At a level of 1 a pattern would always lose all its items.
MOST_CORRUPTION = 0.99


def length(source: random.Random, mean: float) -> int:
    """A number of the Poisson distribution, or 1 in place of 0."""
    count = 0
    time = source.expovariate(mean)
    while time < 1:
        count += 1
        time += source.expovariate(mean)
    return max(count, 1)


def patterns(
    source: random.Random, mean: float, items: int, count: int
) -> list[list[int]]:
    """The patterns, each with a share of its items from the one before."""
    made: list[list[int]] = []
    pattern: list[int] = []
    for _ in range(count):
        size = min(length(source, mean), items)
        shared = round(size * min(source.expovariate(1 / CORRELATION), 1))
        chosen = set(source.sample(pattern, min(shared, len(pattern))))
        while len(chosen) < size:
            chosen.add(source.randint(1, items))
        pattern = sorted(chosen)
        made.append(pattern)
    return made


def picks(
    source: random.Random, made: list[list[int]], seed: str | None
) -> Iterator[list[int]]:
    """Patterns picked by their weights, without end, each without the items that its corruption
    drops. The weights don't go by the seed that is given here."""
    deviation = CORRUPTION_VARIANCE**0.5
    levels = [min(source.gauss(CORRUPTION, deviation), MOST_CORRUPTION) for _ in made]
    weights = list(itertools.accumulate(source.expovariate(1) for _ in made))
    if seed is not None:
        source.seed(seed)
    while True:
        for number in source.choices(range(len(made)), cum_weights=weights, k=1000):
            pattern = made[number]
            left = len(pattern)
            while left > 0 and source.random() < levels[number]:
                left -= 1
            yield source.sample(pattern, left)


def baskets(
    source: random.Random, mean: float, picked: Iterator[list[int]]
) -> Iterator[set[int]]:
    """Baskets of picked patterns, without end. A pattern that doesn't fit goes in all the same in
    half of the cases, and where the basket is empty, and else into the next basket."""
    kept: list[int] = []
    while True:
        size = length(source, mean)
        basket = set(kept)
        # Items that patterns share count again, or few patterns could never fill a large basket.
        placed = len(kept)
        kept = []
        while placed < size:
            pattern = next(picked)
            if basket and placed + len(pattern) > size and source.random() < 0.5:
                kept = pattern
                break
            basket.update(pattern)
            placed += len(pattern)
        yield basket


def main() -> None:
    basket_length, pattern_length = (float(word) for word in sys.argv[1:3])
    count, items, pattern_count, seed = (int(word) for word in sys.argv[3:7])
    source = random.Random(seed)
    made = patterns(source, pattern_length, items, pattern_count)
    picked = picks(source, made, sys.argv[7] if len(sys.argv) > 7 else None)
    for basket in itertools.islice(baskets(source, basket_length, picked), count):
        print(*sorted(basket))


main()
