"""Baskets that are made once answer each question, and may have a total of their own."""

import csv
from pathlib import Path
from typing import Any

import pandas as pd
import pytest

import basket_miner as miner
from basket_miner.frequent_patterns import apriori, association_rules
from test_baskets import BASKETS, GOODS, LEAST, long_frame, pairs, wide_frame


def test_prepared_baskets_answer_as_what_they_were_made_of(tmp_path: Path) -> None:
    path = tmp_path / "baskets.csv"
    with path.open("w", newline="") as file:
        csv.writer(file, lineterminator="\n").writerows(BASKETS)
    rows = {"basket": "receipt", "item": "product", "weight": "times"}
    forms: list[tuple[Any, dict[str, Any]]] = [(long_frame(), rows), (BASKETS, {})]
    for data, options in [*forms, (path, {"form": "baskets"})]:
        prepared = miner.baskets(data, **options)
        assert len(repr(prepared)) < 200
        for question, words in (
            (miner.sets, (LEAST,)),
            (miner.rules, ("10%", 0.5)),
            (miner.count, ([["tea"], ["figs"]],)),
        ):
            wanted = question(data, *words, **options)  # type: ignore[operator]
            found = question(prepared, *words)  # type: ignore[operator]
            pd.testing.assert_frame_equal(found, wanted)
        with pytest.raises(miner.DataError, match="item= does not go with prepared"):
            miner.sets(prepared, 1, item="product")


def test_a_total_counts_baskets_without_an_item_as_mlxtends_calls_do() -> None:
    table = pd.concat([wide_frame(), pd.DataFrame(False, range(17), GOODS)])
    prepared = miner.baskets(table, total=len(table))
    itemsets = apriori(table, 0.1, use_colnames=True)
    found = miner.sets(prepared, 0.1)
    assert (
        found[["support", "itemsets"]].to_numpy().tolist()
        == itemsets.to_numpy().tolist()
    )
    assert found.attrs["minimum"] == 6
    names = ["antecedents", "consequents", "support", "confidence", "lift"]
    wanted = association_rules(itemsets, min_threshold=0.3)[names]
    for kind in (None, "exact_"):
        found = miner.rules(prepared, "10%", 0.3, exact=True)
        if kind:
            for name in names[2:]:
                found[name] = found[kind + name].map(float)
        assert len(found) > 9
        assert found[names].to_numpy().tolist() == wanted.to_numpy().tolist()


def test_a_total_is_that_of_a_count_too(tmp_path: Path) -> None:
    path = tmp_path / "baskets.csv"
    path.write_text("tea,milk\ntea\n")
    for data, options in (
        (path, {"form": "baskets"}),
        ([["tea", "milk"], ["tea"]], {}),
    ):
        prepared = miner.baskets(data, total=5, **options)  # type: ignore[arg-type]
        found = miner.count(prepared, [["tea"], ["figs"]])
        assert pairs(found) == [(set(), 5), ({"tea"}, 2), ({"figs"}, 0)]
        assert found["support"].tolist() == [1.0, 0.4, 0.0]
        assert pairs(miner.sets(prepared, "1/4")) == [({"tea"}, 2)]
        small = miner.baskets(data, total=1, **options)  # type: ignore[arg-type]
        for question in (miner.sets, miner.rules, miner.count):
            words = {miner.sets: (1,), miner.rules: (1, 0.5), miner.count: ([["tea"]],)}
            with pytest.raises(miner.DataError, match="total is 1, but .* weigh 2"):
                question(small, *words[question])  # type: ignore[operator]
    for total in (0, 2.5, True):
        with pytest.raises(miner.DataError, match="total is a number from 1 on"):
            miner.baskets(BASKETS, total=total)  # type: ignore[arg-type]


def test_prepared_baskets_that_are_prepared_again_keep_their_total() -> None:
    prepared = miner.baskets(miner.baskets([["tea"], ["tea", "milk"]], total=10))
    assert miner.sets(prepared, 1)["support"].tolist() == [0.2, 0.1, 0.1]
    assert miner.sets(miner.baskets(prepared, total=5), 2)["support"].tolist() == [0.4]
