"""Tables of other packages, which are stood in for by small classes, are taken as data frames."""

from collections.abc import Iterator
from typing import Any

import pandas as pd
import pytest

import basket_miner as miner

LONG: Any = {"basket": "receipt", "item": "product"}
ROWS = pd.DataFrame(
    {"receipt": [1, 1, 2, 2, 3], "product": ["tea", "jam", "tea", "jam", "tea"]}
)
WIDE = pd.DataFrame({"tea": [True, True, True], "jam": [True, True, False]})
# Three baskets: all have tea, two have jam.
FOUND = [(frozenset(["tea"]), 3), (frozenset(["jam"]), 2)]
FOUND += [(frozenset(["tea", "jam"]), 2)]


class Table:
    """A table that iterates over its columns, as those of Arrow and Polars do."""

    def __init__(self, frame: Any) -> None:
        self.frame = frame

    def __iter__(self) -> Iterator[Any]:
        return iter([self.frame[name] for name in self.frame])


class Polars(Table):
    def to_pandas(self) -> Any:
        return self.frame


class Duck(Table):
    """A relation of DuckDB."""

    def to_df(self) -> Any:
        return self.frame


class Exchanged(Table):
    """What has the protocol of data frames alone."""

    def __dataframe__(self, *given: Any, **words: Any) -> Any:
        return self.frame.__dataframe__(*given, **words)


class Half(Exchanged):
    """A table whose package lacks another that it needs for `to_pandas`."""

    def to_pandas(self) -> Any:
        raise ModuleNotFoundError("pyarrow is required")


def pairs(frame: pd.DataFrame) -> list[Any]:
    return [*zip(frame["itemsets"], frame["count"])]


@pytest.mark.parametrize("kind", [Polars, Duck, Exchanged, Half])
def test_a_table_is_taken_as_a_frame(kind: Any) -> None:
    assert pairs(miner.sets(kind(ROWS), 1, **LONG)) == FOUND
    assert pairs(miner.sets(kind(WIDE), 1)) == FOUND
    assert miner.baskets(kind(ROWS), **LONG).weight == 3
    found = miner.rules(kind(WIDE), 1, 1)
    assert found["antecedents"].tolist() == [{"jam"}]
    counted = miner.count(kind(ROWS), [["jam", "tea"]], **LONG)
    assert counted["count"].tolist() == [3, 2]
    with pytest.raises(miner.DataError, match="no column 'till'"):
        miner.sets(kind(ROWS), 1, basket="till", item="product")


@pytest.mark.parametrize("kind", [Polars, Duck, Exchanged])
def test_offers_are_made_to_the_baskets_of_a_table(kind: Any) -> None:
    rules = miner.rules(ROWS, 1, "1/2", **LONG)
    for table, options in ((ROWS, LONG), (WIDE, {})):
        offers = miner.recommend(rules, kind(table), **options)
        assert offers["item"].tolist() == ["jam"]
        wanted = miner.recommend(rules, table, **options)
        pd.testing.assert_frame_equal(offers, wanted)


def test_a_column_of_lists_is_an_iterable_of_baskets() -> None:
    column = Polars(pd.Series([["tea", "jam"], ["tea", "jam"], ["tea"]]))
    assert pairs(miner.sets(column, 1)) == FOUND


def test_what_becomes_no_frame_is_refused_with_what_its_package_says() -> None:
    class Broken(Table):
        def to_pandas(self) -> Any:
            raise ModuleNotFoundError("pyarrow is required")

    said = "Broken became no pandas.DataFrame: to_pandas: ModuleNotFoundError: pyarrow"
    with pytest.raises(miner.DataError, match=said):
        miner.sets(Broken(ROWS), 1, **LONG)
    with pytest.raises(miner.DataError, match="to_pandas: returns list"):
        miner.sets(Polars([["tea"]]), 1)
