#!/usr/bin/env python3
"""Writes baskets of random items: baskets.py BASKETS ITEMS_IN_A_BASKET ITEMS SEED [SEPARATOR [single]].

Without a separator it is a space, as in the FIMI format. With `single` a line has the number of a
basket and one of its items."""

import random
import sys


def main() -> None:
    baskets, size, items, seed = (int(word) for word in sys.argv[1:5])
    separator = sys.argv[5] if len(sys.argv) > 5 else " "
    is_single = sys.argv[6:] == ["single"]
    source = random.Random(seed)
    for basket in range(baskets):
        chosen = sorted(source.sample(range(1, items + 1), size))
        if not is_single:
            print(*chosen, sep=separator)
            continue
        for item in chosen:
            print(basket, item, sep=separator)


main()
