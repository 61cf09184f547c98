"""Baskets from bytes, from open files and from frames that come one after another, beside a file or one frame."""

import io
import random
from collections.abc import Iterator
from pathlib import Path
from typing import Any

import numpy as np
import pandas as pd
import pytest

import basket_miner as miner
from basket_miner import DataError
from basket_miner.frequent_patterns import apriori

EXAMPLES = Path(__file__).parents[2] / "examples"
RECEIPTS = EXAMPLES / "receipts.csv"
SINGLE: Any = {"form": "single", "header": True}
LONG: Any = {"basket": "receipt", "item": "product"}


class Copy:
    """What psycopg's `cursor.copy` gives: blocks of any size, as views, and at its end nothing."""

    def __init__(self, content: bytes) -> None:
        self._blocks = [content[at : at + 7] for at in range(0, len(content), 7)]

    def read(self) -> memoryview:
        return memoryview(self._blocks.pop(0) if self._blocks else b"")


def test_bytes_and_streams_are_read_as_the_file_is() -> None:
    content = RECEIPTS.read_bytes()
    wanted = miner.rules(RECEIPTS, "20%", "2/3", **SINGLE)
    with open(RECEIPTS, "rb") as file:
        for given in (content, bytearray(content), file, Copy(content)):
            found = miner.rules(given, "20%", "2/3", **SINGLE)
            pd.testing.assert_frame_equal(found, wanted)
    shop = EXAMPLES / "shop.dat"
    numbers = miner.sets(shop.read_bytes(), 3, form="fimi")
    pd.testing.assert_frame_equal(numbers, miner.sets(shop, 3))
    ready = miner.baskets(io.BytesIO(content.replace(b",", b";")), sep=";", **SINGLE)
    assert len(miner.rules(ready, "20%", "2/3")) == len(wanted)


@pytest.mark.parametrize(
    ("said", "data", "keywords"),
    [
        ("not looked at: give form=.* a path is a str", b"shop.dat", {}),
        (r'opened for bytes: open\(path, "rb"\)', io.StringIO("1 2"), {"form": "fimi"}),
        ("sep= does not go with bytes", b"1 2", {"form": "fimi", "sep": ";"}),
        ("basket= does not go with", b"1,2", {**SINGLE, "item": 0, "basket": 1}),
        ("weighted= does not go with form", b"1,2", {**SINGLE, "weighted": True}),
        ("is compressed by gzip", b"\x1f\x8b\x08\0", SINGLE),
    ],
)
def test_bytes_that_cannot_be_read_say_what_to_give(
    said: str, data: Any, keywords: Any
) -> None:
    with pytest.raises(DataError, match=said):
        miner.sets(data, 1, **keywords)


def test_chunks_of_a_frame_give_what_the_frame_gives() -> None:
    draw = random.Random(2)
    rows = [(draw.randrange(60), draw.choice("abcdef")) for _ in range(300)]
    frame = pd.DataFrame(rows, columns=["receipt", "product"])
    frame["weight"] = frame["receipt"] % 4 + 1
    frame.loc[frame.index % 50 == 0, "product"] = None
    for size in (1, 7, 300):

        def chunks() -> Iterator[pd.DataFrame]:
            yield frame.iloc[:0]
            yield from (frame[at : at + size] for at in range(0, 300, size))

        for weight in (None, "weight"):
            asked: Any = {**LONG, "weight": weight, "missing": "drop", "exact": True}
            found = miner.sets(chunks(), 0.1, **asked)
            pd.testing.assert_frame_equal(found, miner.sets(frame, 0.1, **asked))


def test_pandas_reads_a_file_by_chunks() -> None:
    with pd.read_csv(RECEIPTS, chunksize=5) as chunks:
        found = miner.rules(chunks, "20%", "2/3", **LONG)
    wanted = miner.rules(pd.read_csv(RECEIPTS), "20%", "2/3", **LONG)
    pd.testing.assert_frame_equal(found, wanted)


def test_chunks_that_do_not_go_together_are_refused() -> None:
    frame = pd.DataFrame({"receipt": [1], "product": ["tea"], "weight": [2]})
    other = frame.assign(weight=3)
    with pytest.raises(DataError, match="several weights in one basket"):
        miner.sets([frame, other], 1, weight="weight", **LONG)
    with pytest.raises(
        DataError,
        match="not go with an iterable of baskets, but with a data frame or several",
    ):
        miner.sets([["tea"]], 1, **LONG)
    with pytest.raises(DataError, match="needs both basket= and item="):
        miner.sets([frame], 1, basket="receipt")
    with pytest.raises(DataError, match="a data frame or several: 'int'"):
        miner.sets(5, 1, **LONG)


@pytest.mark.parametrize(
    ("name", "value"), [("exact", np.array([1, 0])), ("exact", 1), ("progress", None)]
)
def test_what_is_true_or_false_is_nothing_else(name: str, value: Any) -> None:
    keywords: Any = {name: value}
    with pytest.raises(DataError, match=f"{name} is True or False, not"):
        miner.sets([["tea"]], 1, **keywords)
    with pytest.raises(DataError, match=f"{name} is True or False, not"):
        miner.count([["tea"]], [["tea"]], **keywords)


def test_how_much_is_told_is_a_number() -> None:
    nothing: Any = None
    with pytest.raises(DataError, match="verbose is a number, as 0 or 1, not None"):
        apriori(pd.DataFrame({"tea": [True]}), verbose=nothing)
