#!/usr/bin/env python3
"""Writes baskets in the FIMI format, in the shape of data that are common: shapes.py SHAPE BASKETS SEED.

store     varied baskets of a store's 120 departments, 23 in the mean, hardly two of them equal
news      texts as sets of some of 9,400 words, 86 in the mean: few baskets, very many items
packages  short baskets of 27,000 items that come in families
clicks    short baskets of 40,000 pages, many of one page, few pages in most"""

import itertools
import random
import sys
from collections.abc import Iterator

# By which power the weight of an item falls with its place.
NEWS_FALL = 0.95
CLICKS_FALL = 1.1


def falling(count: int, power: float) -> list[float]:
    """Weights that fall with a power of the place, added up."""
    return list(itertools.accumulate((place + 1) ** -power for place in range(count)))


def store(source: random.Random, count: int) -> Iterator[set[int]]:
    """A customer has two of eight tastes, and comes for a small or a large purchase. Who has a taste buys more in a
    third of the departments."""
    items = range(1, 121)
    shares = [0.02 + 0.65 * source.random() ** 3 for _ in items]
    tastes = [[1.6 if source.random() < 0.33 else 0.8 for _ in items] for _ in range(8)]
    for _ in range(count):
        chosen = source.sample(tastes, 2)
        large = source.uniform(0.6, 1.4)
        basket = {
            item
            for item, share, one, other in zip(items, shares, *chosen)
            if source.random() < share * large * (one + other) / 2
        }
        yield basket or {source.choice(items)}


def news(source: random.Random, count: int) -> Iterator[set[int]]:
    """A text has common words, and those of its topic, which is one of sixty."""
    words = list(range(1, 9401))
    weights = falling(len(words), NEWS_FALL)
    topics = []
    for _ in range(60):
        topic = words[150:]
        source.shuffle(topic)
        topics.append(topic[:1200])
    own = falling(1200, NEWS_FALL)
    for _ in range(count):
        length = max(12, round(source.gammavariate(3, 36)))
        topic = source.choice(topics)
        common = source.choices(words, cum_weights=weights, k=length * 2 // 3)
        special = source.choices(topic, cum_weights=own, k=length // 3)
        yield {*common, *special}


def packages(source: random.Random, count: int) -> Iterator[set[int]]:
    """A basket has the first item of one to three families, and few or most of the others that they have."""
    ends = list(
        itertools.accumulate(2 + int(source.paretovariate(1.1)) for _ in range(9000))
    )
    families = [
        range(*both) for both in itertools.pairwise([1, *ends]) if both[1] < 27000
    ]
    weights = falling(len(families), 0.8)
    for _ in range(count):
        many = source.choices((1, 2, 3), (0.6, 0.3, 0.1))[0]
        basket: set[int] = set()
        for family in source.choices(families, cum_weights=weights, k=many):
            often = source.choice((0.35, 0.9))
            basket.update(item for item in family[:12] if source.random() < often)
            basket.add(family[0])
        yield basket


def clicks(source: random.Random, count: int) -> Iterator[set[int]]:
    """Most visits are short, and few pages have most of them."""
    pages = range(1, 40001)
    weights = falling(len(pages), CLICKS_FALL)
    while count > 0:
        lengths = [
            min(60, int(source.paretovariate(0.9))) for _ in range(min(count, 10000))
        ]
        seen = iter(source.choices(pages, cum_weights=weights, k=sum(lengths)))
        for length in lengths:
            yield set(itertools.islice(seen, length))
        count -= len(lengths)


SHAPES = {"store": store, "news": news, "packages": packages, "clicks": clicks}


def main() -> None:
    shape, count, seed = sys.argv[1:4]
    source = random.Random(int(seed))
    for basket in SHAPES[shape](source, int(count)):
        print(*sorted(basket))


main()
