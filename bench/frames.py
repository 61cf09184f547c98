#!/usr/bin/python3
"""Prints what frames and a large report cost the Python package, in seconds of processors, beside the program.

usage: bench/frames.py    with the program that is built or that `BASKET` names, and Debian's packages

Memory is what the package holds at most beside the frame, or for a report in all.
"""

import itertools
import resource
import sys
import tracemalloc
from collections.abc import Callable
from pathlib import Path
from typing import Any

sys.path.insert(0, str(Path(__file__).resolve().parents[1] / "python"))

import numpy as np  # noqa: E402
import pandas as pd  # noqa: E402

import basket_miner as miner  # noqa: E402
from basket_miner import _program  # noqa: E402
from basket_miner._baskets import Baskets  # noqa: E402
from basket_miner._report import sets_frame  # noqa: E402
from basket_miner.frequent_patterns import fpgrowth  # noqa: E402

BASKETS, SIZE, GOODS = 1_000_000, 10, 2_000
LONG: Any = {"basket": "receipt", "item": "product"}
# The rows and columns of wide frames; the second has very many sets of three items and more.
WIDE, DENSE = (200_000, 400), (20_000, 120)


def seconds(work: Callable[[], object], runs: int = 2) -> float:
    """The processors' time of this process and of the programs that it ran, in the best run."""

    def spent() -> float:
        kinds = (resource.RUSAGE_SELF, resource.RUSAGE_CHILDREN)
        return sum(sum(resource.getrusage(kind)[:2]) for kind in kinds)

    best = float("inf")
    for _ in range(runs):
        before = spent()
        work()
        best = min(best, spent() - before)
    return best


def megabytes(work: Callable[[], object]) -> float:
    """What is held at most meanwhile."""
    tracemalloc.start()
    work()
    _, most = tracemalloc.get_traced_memory()
    tracemalloc.stop()
    return most / 1e6


def long_frames() -> None:
    """A million baskets as frames with a row for each item."""
    chance = np.random.default_rng(46)
    drawn = (chance.pareto(1.0, BASKETS * SIZE) * 20).astype(np.int64) % GOODS
    names = np.array([f"product {number}" for number in range(GOODS)], dtype=object)
    receipts = np.repeat(np.arange(BASKETS), SIZE)
    texts = np.array([f"r{number:07}" for number in range(BASKETS)], dtype=object)
    frame = pd.DataFrame({"receipt": receipts, "product": names[drawn]})
    kinds = {
        "ids of whole numbers, items of texts": frame,
        "the same with items of the type string": frame.astype({"product": "string"}),
        "the same with categories": frame.astype({"product": "category"}),
        "the same with ids of texts": frame.assign(receipt=np.repeat(texts, SIZE)),
        "the first with its rows in any order": frame.sample(frac=1, random_state=46),
    }
    source = miner.baskets(frame, **LONG).source
    own = seconds(lambda: _program.run(["sets", "--min=1%", "--workers=1"], source))
    print(f"{len(frame)} rows of {BASKETS} baskets: the program {own:.2f} s")
    for name, kind in kinds.items():
        taken = seconds(lambda: miner.baskets(kind, **LONG))
        most = megabytes(lambda: miner.baskets(kind, **LONG))
        size = kind.memory_usage().sum() / 1e6
        print(f"  {name}: {taken:.2f} s, {most:.0f} MB; the frame {size:.0f} MB")


def wide_frames() -> None:
    """Frames with a row for each basket and a column for each item."""
    rows, columns = WIDE
    truths = pd.DataFrame(np.random.default_rng(46).random(WIDE) < 0.05)
    print(f"{rows} rows of {columns} columns of")
    for kind in ("bool", "int64", "float64", "boolean", "Int64", "object"):
        frame = truths.astype(kind)
        print(f"  {kind}: {seconds(lambda: miner.baskets(frame)):.2f} s")


def limited_sizes() -> None:
    """Items and pairs alone, beside all sets."""
    rows, columns = DENSE
    chances = 0.05 + 0.45 * np.linspace(0, 1, columns) ** 3
    truths = pd.DataFrame(np.random.default_rng(46).random(DENSE) < chances)
    print(f"{rows} rows of {columns} columns, sets of 0.3% by fpgrowth:")
    for name, most in (("items and pairs", 2), ("all", None)):

        def found() -> pd.DataFrame:
            return fpgrowth(truths, 0.003, max_len=most)

        print(f"  {name}, {len(found())} sets: {seconds(found):.2f} s")


def large_report() -> None:
    """The frame of a report of 524,287 sets."""
    # All subsets of a basket of 19 items are frequent.
    line = " ".join(map(str, range(19))).encode()
    words = ["sets", "--min=1", "--workers=1"]
    own = seconds(lambda: _program.run(words, line))
    report = _program.run(words, line)
    baskets = Baskets(b"", labels=[f"product {number}" for number in range(19)])
    taken = seconds(lambda: sets_frame(report, baskets, 1))
    most = megabytes(lambda: sets_frame(report, baskets, 1))
    sets = itertools.chain.from_iterable(
        itertools.combinations(range(19), size) for size in range(1, 20)
    )
    size = megabytes(lambda: [frozenset(items) for items in sets])
    print(
        f"{report.count(10)} sets: the program {own:.2f} s, the frame {taken:.2f} s, "
        f"{most:.0f} MB, of which {size:.0f} MB are the sets"
    )


def main() -> None:
    long_frames()
    wide_frames()
    limited_sizes()
    large_report()


main()
