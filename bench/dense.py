#!/usr/bin/env python3
"""Writes dense baskets in the FIMI format: each has one value of each attribute. It is
called as dense.py BASKETS ATTRIBUTES KINDS SEED. Each basket is of a kind, and few
kinds have most baskets. A kind has a usual value of each attribute, often that of other
kinds. A basket has the usual value or, of some attributes more often, any one."""

import itertools
import random
import sys

# The shares of the kinds, and of the values of an attribute, fall by these factors.
KINDS_FALL = 0.7
VALUES_FALL = 0.45

# How many values an attribute may have, and how often a basket has the usual one.
VALUES = range(2, 10)
USUAL = (0.5, 1.0)


def falling(count: int, factor: float) -> list[float]:
    """Weights, each the one before times the factor, added up."""
    return list(itertools.accumulate(factor**place for place in range(count)))


def main() -> None:
    baskets, attributes, kinds, seed = (int(word) for word in sys.argv[1:5])
    source = random.Random(seed)
    ends = itertools.accumulate(source.choices(VALUES, k=attributes), initial=1)
    items = [range(*both) for both in itertools.pairwise(ends)]
    often = [source.uniform(*USUAL) for _ in items]

    def any_of(values: range) -> int:
        weights = falling(len(values), VALUES_FALL)
        return source.choices(values, cum_weights=weights)[0]

    usual = [[any_of(values) for values in items] for _ in range(kinds)]
    shares = falling(kinds, KINDS_FALL)
    for kind in source.choices(usual, cum_weights=shares, k=baskets):
        chosen = zip(kind, often, items)
        print(*(i if source.random() < o else any_of(v) for i, o, v in chosen))


main()
