"""`count` tells the supports of given itemsets."""

import csv
from collections.abc import Callable
from fractions import Fraction
from pathlib import Path
from typing import Any

import numpy as np
import pandas as pd
import pytest

import basket_miner as miner

SHOP = Path(__file__).parents[2] / "examples/shop.dat"
BASKETS = [["tea", "milk"], ["tea"], ["jam", "milk", "tea"]]


def test_the_empty_set_comes_first_and_each_other_once_in_the_order_given() -> None:
    asked = [["milk", "tea"], ["gold"], [], ["tea", "milk"], ["jam"]]
    frame = miner.count(BASKETS, asked, exact=True)
    assert frame.to_dict("list") == {
        "itemsets": [set(), {"milk", "tea"}, {"gold"}, {"jam"}],
        "count": [3, 2, 0, 1],
        "support": [1.0, 2 / 3, 0.0, 1 / 3],
        "exact_support": [Fraction(1), Fraction(2, 3), Fraction(0), Fraction(1, 3)],
    }


def test_the_sets_of_one_time_are_counted_in_another() -> None:
    found = miner.sets(BASKETS, 2)
    frame = miner.count([["milk"], ["tea", "milk"], ["tea"]], found)
    assert frame["itemsets"].tolist() == [frozenset(), *found["itemsets"]]
    assert frame["count"].tolist() == [3, 2, 2, 1]


def test_the_items_of_a_fimi_file_are_numbers() -> None:
    frame = miner.count(SHOP, [[2, 1], [77], [4]])
    assert frame["count"].tolist() == [15, 7, 0, 3]
    for wrong in ("2", -1, 2**32, True):
        with pytest.raises(miner.DataError, match="is a number"):
            miner.count(SHOP, [[wrong]])


def test_the_items_may_be_numbers_of_numpy() -> None:
    frame = miner.count(SHOP, np.array([[1, 2], [2**32 - 1, 4]]))
    assert frame["itemsets"].tolist() == [set(), {1, 2}, {2**32 - 1, 4}]
    assert frame["count"].tolist() == [15, 7, 0]
    for wrong in (-1, 2**32):
        with pytest.raises(miner.DataError, match="is a number"):
            miner.count(SHOP, np.array([[wrong]]))


def test_names_of_csv_are_counted() -> None:
    receipts = SHOP.with_name("receipts.csv")
    options: Any = {"form": "single", "header": True, "exact": True}
    frame = miner.count(receipts, [["milk", "tea"], ["gold"]], **options)
    assert frame["itemsets"].tolist() == [set(), {"milk", "tea"}, {"gold"}]
    assert frame["count"].tolist() == [15, 3, 0]


def test_a_name_of_csv_may_have_any_letter_also_those_that_end_records(
    tmp_path: Path,
) -> None:
    path = tmp_path / "shop.csv"
    # Two baskets have milk alone, one has a name that goes on behind a carriage return, and tea.
    path.write_bytes(b'"milk\r0",tea\nmilk\nmilk\n"say ""a,b""\n"\n')
    options: Any = {"form": "baskets"}
    asked: list[list[str]] = [
        ["milk\r0"],
        ["tea", "milk\r0"],
        ["milk"],
        ['say "a,b"\n'],
        ["a\rb"],
        [],
    ]
    frame = miner.count(path, asked, **options)
    assert frame["itemsets"].tolist() == [set(), *({*names} for names in asked[:5])]
    assert frame["count"].tolist() == [4, 1, 1, 2, 1, 0]
    found = miner.sets(path, 1, **options)
    again = miner.count(path, found, **options).iloc[1:].reset_index(drop=True)
    pd.testing.assert_frame_equal(again, found)


@pytest.mark.parametrize("name", ["", " milk", "milk\t", None, 7, ("milk",), "\ud800"])
def test_what_no_name_of_csv_can_be_is_refused(tmp_path: Path, name: Any) -> None:
    path = tmp_path / "shop.csv"
    path.write_text("milk\nmilk,7\n")
    with pytest.raises(miner.DataError, match="an item of a CSV file is"):
        miner.count(path, [["milk"], [name, "milk"]], form="baskets")


def test_a_name_that_is_too_long_for_pythons_csv_is_told(tmp_path: Path) -> None:
    path, name = tmp_path / "shop.csv", "n" * (csv.field_size_limit() + 1)
    path.write_text(f"{name}\n")
    calls: list[Callable[[], Any]] = [
        lambda: miner.sets(path, 1, form="baskets"),
        lambda: miner.count(path, [[name]], form="baskets"),
    ]
    for call in calls:
        with pytest.raises(miner.DataError, match="too long .* csv.field_size_limit"):
            call()


def test_without_baskets_a_support_is_not_a_number() -> None:
    frame = miner.count([], [["tea"]], exact=True)
    assert frame["count"].tolist() == [0, 0]
    assert frame["support"].isna().all()
    assert frame["exact_support"].tolist() == [None, None]


@pytest.mark.parametrize(
    "sets", [["tea"], [3], [[["tea"]]], 3, None, [pd.DataFrame({"tea": [1]})]], ids=str
)
def test_what_is_no_itemset_is_refused(sets: Any) -> None:
    with pytest.raises(miner.DataError):
        miner.count(BASKETS, sets)


def test_a_frame_without_itemsets_is_refused() -> None:
    with pytest.raises(miner.DataError, match="no column 'itemsets'"):
        miner.count(BASKETS, pd.DataFrame({"sets": []}))
