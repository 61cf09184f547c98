"""A row for each item says what a row for each itemset or rule does."""

import sqlite3
from typing import Any

import pandas as pd
import pytest

from basket_miner import DataError, rules, sets, tidy

BASKETS = [["tea", "milk"], ["tea", "milk"], ["milk"]]


def test_itemsets_become_a_row_for_each_item() -> None:
    found = tidy(sets(BASKETS, 2))
    assert list(found.columns) == ["set", "item", "count", "support"]
    assert found.to_numpy().tolist() == [
        [0, "tea", 2, 2 / 3],
        [1, "milk", 3, 1.0],
        [2, "milk", 2, 2 / 3],
        [2, "tea", 2, 2 / 3],
    ]


def test_rules_become_a_row_for_each_item_of_a_side() -> None:
    found = tidy(rules(BASKETS, 2, 0.9))
    assert list(found.columns) == [
        *("rule", "side", "item", "count", "support", "confidence", "lift"),
        *("antecedent support", "consequent support"),
    ]
    assert found.to_numpy().tolist() == [
        [0, "antecedent", "tea", 2, 2 / 3, 1.0, 1.0, 2 / 3, 1.0],
        [0, "consequent", "milk", 2, 2 / 3, 1.0, 1.0, 2 / 3, 1.0],
    ]


def test_labels_of_rows_stay_and_databases_take_the_frame() -> None:
    found = tidy(sets(BASKETS, 2)[1:])
    assert found["set"].tolist() == [1, 2, 2]
    with sqlite3.connect(":memory:") as shop:
        found.to_sql("sets", shop, index=False)
        asked = "select count from sets where item = 'milk' order by count"
        assert shop.execute(asked).fetchall() == [(2,), (3,)]


def test_numbers_stay_numbers_and_no_row_keeps_the_columns() -> None:
    assert tidy(sets([[7], [7]], 2))["item"].dtype == "int64"
    found = tidy(rules(BASKETS, 3, 0.9))
    assert found.empty and list(found.columns)[:3] == ["rule", "side", "item"]
    assert found.dtypes.equals(tidy(rules(BASKETS, 2, 0.9)).dtypes)


@pytest.mark.parametrize(
    "labels",
    [
        [1, 2.5],
        [2**53 + 1, 2.5],
        [2**63, -1],
        ["2026-01-01", pd.Timestamp("2026-01-01")],
        ["1", pd.Timedelta(1)],
        [1, "1", ("a", 1)],
    ],
)
def test_labels_of_several_types_stay_as_they_are(labels: list[Any]) -> None:
    found = tidy(sets([labels], 1)[: len(labels)])["item"].tolist()
    assert [(label, type(label)) for label in found] == [
        (label, type(label)) for label in labels
    ]


def test_other_frames_are_refused() -> None:
    with pytest.raises(DataError, match="no column 'antecedents'"):
        tidy(pd.DataFrame({"a": [1]}))
    with pytest.raises(DataError, match="a pandas.DataFrame, not list"):
        tidy([frozenset("a")])
    with pytest.raises(DataError, match="has a column 'item' already: rename it"):
        tidy(sets(BASKETS, 2).assign(item=1))
