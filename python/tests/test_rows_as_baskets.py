"""What is near to baskets, as the rows of a table, is refused or warned of, and the message says what to write."""

import contextlib
import io
import sqlite3
import warnings
from collections.abc import Callable
from pathlib import Path
from typing import Any

import pandas as pd
import pytest

import basket_miner as miner

ROWS = pd.DataFrame({"receipt": [1, 1, 2], "product": ["tea", "milk", "jam"]})
LONG: Any = {"basket": "receipt", "item": "product"}


def refused(said: str, data: object, **options: Any) -> None:
    with pytest.raises(miner.DataError, match=said):
        miner.sets(data, 1, **options)


@pytest.mark.parametrize("kind", [tuple, list])
def test_rows_of_an_id_and_an_item_bring_a_warning(kind: Callable[..., Any]) -> None:
    rows = [*map(kind, [(1, "tea"), (1, "jam"), (2, "tea")])]
    with pytest.warns(UserWarning, match=r"as \[1, 'tea'\], .* basket= and item="):
        miner.sets(rows, 1)


@pytest.mark.parametrize(
    "rows",
    [
        [(1, "a", 2), (1, "b", 1)],
        [("r1", "a", "2020"), ("r1", "b", "2020"), ("r2", "a", "2021")],
        [*pd.DataFrame({"r": [7, 8], "p": ["a", "b"]}).itertuples(name=None)],
    ],
    ids=str,
)
def test_rows_of_more_columns_bring_a_warning(rows: Any) -> None:
    with pytest.warns(UserWarning, match="looks like a row of a table: .* item="):
        miner.sets(rows, 1)


def test_a_warning_names_the_line_that_called() -> None:
    rows = [(1, "tea"), (1, "jam"), (2, "tea")]
    calls: list[Callable[[], Any]] = [
        lambda: miner.sets(rows, 1),
        lambda: miner.rules(rows, 1, 0.5),
        lambda: miner.baskets(rows),
        lambda: miner.sets(rows, 1, max_items=1),
    ]
    for call in calls:
        with pytest.warns(UserWarning) as caught:
            call()
        place = call.__code__.co_filename, call.__code__.co_firstlineno
        assert [(told.filename, told.lineno) for told in caught] == [place]


@pytest.mark.parametrize(
    "baskets",
    [
        [["tea", "jam"]],
        [["tea", "jam"], ["jam", "tea"]],
        [[0, 1], [1, 0]],
        [[0], [1]],
        [["tea", "jam", 5], ["jam", "tea", "milk"]],
        [["tea", "jam", "milk"], ["tea", "jam"], [1, 2]],
    ],
)
def test_baskets_of_some_items_bring_none(baskets: Any) -> None:
    with warnings.catch_warnings():
        warnings.simplefilter("error")
        assert len(miner.sets(baskets, 1)) > 1


def test_rows_that_a_database_returns_are_refused() -> None:
    with contextlib.closing(sqlite3.connect(":memory:")) as till:
        till.execute("create table sale (receipt, product)")
        till.executemany("insert into sale values (?, ?)", [(1, "tea"), (2, "jam")])
        refused("Cursor is not .*pandas.read_sql", till.execute("select * from sale"))
        till.row_factory = sqlite3.Row
        rows = till.execute("select * from sale").fetchall()
        refused("not the row .* of a table; a table is given as", rows)
    assert len(miner.sets([pd.Series(["tea", "jam"])], 1)) == 3


@pytest.mark.parametrize(
    ("said", "data"),
    [
        (r"\.values\(\); a table is given as", {1: ["a"]}),
        (r"split first: \[text\.split\(','\) for", ["a,b"]),
        (r"split first: \.str\.split\(';'\)", pd.Series(["a;b", "c"])),
        ("put together in one, or given to basket_miner.cluster", [__file__]),
        ("put together in one, or given to basket_miner.cluster", [Path("a"), "b"]),
        ("with basket= and item=", pd.read_csv(io.StringIO("a,b\n1,2"), chunksize=1)),
        ("with basket= and item=, and others as one frame", [ROWS, ROWS]),
    ],
)
def test_what_is_near_to_baskets_says_what_to_write(said: str, data: Any) -> None:
    refused(said, data)
