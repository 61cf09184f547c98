"""Inputs that are made for the tests, the same on every machine, and how tests write them."""

import random

Baskets = list[list[int]]


def shop() -> Baskets:
    """2,000 baskets over 200 items, most of them frequent at 1%, in families that are bought together."""
    source = random.Random(1)
    baskets = []
    for _ in range(2_000):
        basket = {
            int(200 * source.random() ** 1.5) + 1
            for _ in range(4 + int(12 * source.random()))
        }
        for _ in range(1 + int(2 * source.random())):
            family = int(25 * source.random() ** 1.3)
            basket |= {
                8 * family + item + 1 for item in range(8) if source.random() < 0.7
            }
        baskets.append(sorted(basket))
    return baskets


def dense() -> Baskets:
    """1,000 baskets of 30 items, of which some twenty are in half of the baskets or more."""
    source = random.Random(2)
    shares = [0.9 - 0.025 * item for item in range(30)]
    return [
        [item + 1 for item, share in enumerate(shares) if source.random() < share]
        for _ in range(1_000)
    ]


def pairs() -> Baskets:
    """2,000 baskets of two or three of 80 items, most of which are equal to others."""
    source = random.Random(4)
    baskets = []
    for _ in range(2_000):
        item = int(80 * source.random())
        basket = {item + 1, (item + 1) % 80 + 1}
        if source.random() < 0.2:
            basket.add(int(80 * source.random()) + 1)
        baskets.append(sorted(basket))
    return baskets


def repeated() -> Baskets:
    """4,000 baskets over eight items, most of which are equal to others."""
    source = random.Random(3)
    return [
        [item + 1 for item in range(8) if source.random() < 0.5] for _ in range(4_000)
    ]


def fimi(baskets: Baskets) -> bytes:
    """A basket on each line."""
    return "".join(f"{' '.join(map(str, basket))}\n" for basket in baskets).encode()


def weighted(baskets: Baskets) -> bytes:
    """The same baskets, where equal ones are one line with a weight."""
    weights: dict[tuple[int, ...], int] = {}
    for basket in baskets:
        weights[tuple(basket)] = weights.get(tuple(basket), 0) + 1
    return "".join(
        f"{weight}x {' '.join(map(str, basket))}\n"
        for basket, weight in weights.items()
    ).encode()


def text_of(lines: str) -> bytes:
    """The bytes of lines that have a bar for each line feed."""
    return lines.replace("|", "\n").encode()


def lines_of(text: bytes) -> str:
    """The lines of a text likewise."""
    return text.decode().replace("\n", "|")
