#!/usr/bin/python3
# mypy: allow-untyped-calls
"""Prints what a cluster of Dask's engine costs the Python package, in seconds by the clock, beside one machine.

usage: bench/cluster.py    with the program that is built or that `BASKET` names, and Debian's packages

The cluster is three processes on this machine.
"""

import sys
import time
from collections.abc import Callable
from pathlib import Path
from typing import Any

sys.path.insert(0, str(Path(__file__).resolve().parents[1] / "python"))

import numpy as np  # noqa: E402
import pandas as pd  # noqa: E402
from dask.bag.core import from_sequence  # noqa: E402
from dask.dataframe.io.io import from_pandas  # noqa: E402
from distributed import Client, LocalCluster, wait  # noqa: E402

import basket_miner as miner  # noqa: E402
from basket_miner import cluster  # noqa: E402
from basket_miner.cluster._labels import packed, unpacked  # noqa: E402

MOVED = 20_000
BASKETS, SIZE, LABELS, PARTS = 60_000, 10, 200_000, 6
LONG: Any = {"basket": "receipt", "item": "product"}


def seconds(work: Callable[[], object], runs: int = 2) -> float:
    """What the best run takes by the clock."""

    def once() -> float:
        begun = time.monotonic()
        work()
        return time.monotonic() - begun

    return min(once() for _ in range(runs))


def names_of(count: int) -> list[str]:
    return [f"product {number}" for number in range(count)]


def labels(client: Client) -> None:
    """Labels on their way from a worker."""

    def as_bytes() -> bytes:
        return packed(names_of(MOVED))

    listed = seconds(lambda: client.submit(names_of, MOVED, pure=False).result())
    moved = seconds(lambda: unpacked(client.submit(as_bytes, pure=False).result()))
    print(
        f"{MOVED} labels from a worker: as a list {listed:.2f} s, as bytes {moved:.2f} s"
    )


def prepared(client: Client) -> None:
    """Baskets of very many labels, in parts, until each worker has its lines."""
    numbers = np.random.default_rng(46).integers(0, LABELS, BASKETS * SIZE)
    names = np.array(names_of(LABELS), dtype=object)[numbers]
    frame = pd.DataFrame(
        {"receipt": np.repeat(np.arange(BASKETS), SIZE), "product": names}
    )
    lists = names.reshape(BASKETS, SIZE).tolist()
    parts: dict[str, tuple[Any, Any, Any]] = {
        "a frame of rows": (frame, from_pandas(frame, npartitions=PARTS), LONG),
        "a bag of baskets": (lists, from_sequence(lists, npartitions=PARTS), {}),
    }
    found = len({*names})
    print(f"{BASKETS} baskets of {found} labels in {PARTS} parts, prepared:")
    for name, (whole, part, keywords) in parts.items():
        part = client.persist(part)
        wait(part)

        def over_parts() -> None:
            wait(cluster.prepare(part, client=client, **keywords).texts)

        own = seconds(lambda: miner.baskets(whole, **keywords))
        taken = seconds(over_parts)
        print(
            f"  {name}: {taken:.2f} s, {taken / own:.1f} times one machine's {own:.2f} s"
        )


def main() -> None:
    with LocalCluster(
        n_workers=3, threads_per_worker=1, dashboard_address=None
    ) as engine, Client(engine) as client:
        labels(client)
        prepared(client)


if __name__ == "__main__":
    main()
