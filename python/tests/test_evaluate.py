"""Figures of offers worked out by hand and by brute force, and lots of baskets that keep each basket whole."""

import random
from collections.abc import Callable
from fractions import Fraction
from pathlib import Path
from typing import Any

import pandas as pd
import pytest

from basket_miner import DataError, Recommender, evaluate, rules, split

RECEIPTS = Path(__file__).parents[2] / "examples/receipts.csv"
SHOP = rules(RECEIPTS, 2, "1/4", form="single", header=True)
TILL = pd.read_csv(RECEIPTS)
NAMES: Any = {"basket": "receipt", "item": "product"}


def test_figures_are_those_that_are_worked_out_by_hand() -> None:
    # Of each pair one is hidden. Only a and b tell of each other; of x and y no rule speaks.
    learnt = rules([["a", "b"], ["a", "b"], ["x"], ["y"]], 2, 1.0)
    shop = [["a", "b"]] * 3 + [["x", "y"], ["z"]]
    found = evaluate(learnt, shop)
    assert found.index.tolist() == ["rules", "popular"]
    row = found.loc["rules"]
    assert row["baskets"] == 4 and row["hit_rate"] == 3 / 4
    # From Wilson's formula, with z = 1.959964.
    assert row["hit_rate_low"] == pytest.approx(0.3006418, abs=1e-7)
    assert row["hit_rate_high"] == pytest.approx(0.9544127, abs=1e-7)
    assert row["mrr"] == row["recall"] == row["with_offer"] == 3 / 4
    assert row["coverage"] == len({*"ab"} & offered(learnt, shop)) / 5
    # a and b are offered to x or y too, so that they are offered to all.
    assert found.loc["popular", "with_offer"] == 1
    assert found.loc["popular", "coverage"] == 2 / 5


def offered(learnt: pd.DataFrame, shop: list[list[str]]) -> set[str]:
    """What is offered to the halves of the pairs that the seed 0 leaves."""
    chance = random.Random(0)
    found = set()
    for items in shop:
        if len(items) > 1:
            left = {*items} - {*chance.sample(sorted(items), 1)}
            found |= {*Recommender(learnt).offers(left)}
    return found


@pytest.mark.parametrize(("top", "hide"), [(1, 1), (3, 2), (9, 1)])
def test_figures_are_those_of_each_basket_by_itself(top: int, hide: int) -> None:
    lists = TILL.groupby("receipt", sort=False)["product"].agg(list)
    ready = Recommender(SHOP, "lift")
    found = evaluate(ready, TILL, top, hide, seed=5, **NAMES)
    again = evaluate(ready, lists, top, hide, seed=5)
    pd.testing.assert_frame_equal(found, again)
    chance = random.Random(5)
    sold = TILL["product"].value_counts()
    best = sorted(
        {*frozenset().union(*SHOP["antecedents"])}, key=lambda i: (-sold[i], i)
    )
    for name in ("rules", "popular"):
        chance.seed(5)
        hits, ranks, recalls, any_offer, ever = [], [], [], [], set()
        for items in lists:
            if len({*items}) <= hide:
                continue
            hidden = {*chance.sample(sorted({*items}), hide)}
            left = {*items} - hidden
            offers = [i for i in best if i not in left][:top]
            if name == "rules":
                offers = ready.offers(left, top)
            places = [at for at, item in enumerate(offers) if item in hidden]
            hits.append(bool(places))
            ranks.append(Fraction(1, 1 + places[0]) if places else Fraction(0))
            recalls.append(Fraction(len(places), hide))
            any_offer.append(bool(offers))
            ever |= {*offers}
        number, row = len(hits), found.loc[name]
        assert row["baskets"] == number and sum(hits) > 0
        assert row["hit_rate"] == sum(hits) / number
        assert row["mrr"] == pytest.approx(float(sum(ranks) / number))
        assert row["recall"] == pytest.approx(float(sum(recalls) / number))
        assert row["with_offer"] == sum(any_offer) / number
        assert row["coverage"] == len(ever) / TILL["product"].nunique()


def test_lots_have_whole_baskets_and_the_share_of_them() -> None:
    table = TILL.assign(store=TILL["receipt"] % 2).sample(frac=1, random_state=1)
    for basket in ("receipt", ["store", "receipt"]):
        first, second = split(table, 0.7, basket=basket)
        assert first["receipt"].nunique() == 11 and second["receipt"].nunique() == 4
        assert not {*first["receipt"]} & {*second["receipt"]}
        assert table.equals(pd.concat([first, second]).loc[table.index])
        assert split(table, 0.7, basket=basket)[0].equals(first)
    drawn = {tuple(split(range(9), 1 / 3, seed=seed)[0]) for seed in range(9)}
    assert len(drawn) > 3 and {*map(len, drawn)} == {3}


def test_lots_by_time_have_the_earlier_baskets_first() -> None:
    frame = pd.DataFrame(
        {"r": [1, 1, 2, 3, 4, 5], "p": [*"abcdef"], "day": [5, 4, 1, 4, 2, 9]}
    )
    # Of the days 1, 2, 4, 4, 9 three baskets would be 1, 2 and one of the two of 4.
    first, second = split(frame, 0.6, basket="r", time="day")
    assert first["r"].tolist() == [2, 4] and second["r"].tolist() == [1, 1, 3, 5]
    whole, none = split(frame, 1, basket="r", time="day")
    assert whole.equals(frame) and none.empty
    wide = pd.DataFrame({"a": [True, False, True], "day": [3, 1, 2]})
    assert split(wide, 2 / 3, time="day")[0].index.tolist() == [1, 2]


def test_lots_are_as_what_is_given() -> None:
    shop = [["a"], ["b"], ["c"]]
    assert split(shop, 2 / 3, seed=None) == (shop[:2], shop[2:])
    assert split(iter(shop), 0, seed=None) == ([], shop)
    first, second = split(pd.Series(shop, ["x", "y", "z"]), 1 / 3, seed=None)
    assert first.index.tolist() == ["x"] and second.tolist() == shop[1:]
    wide = pd.DataFrame({"a": [1, 0], "b": [0, 1]})
    assert [*map(len, split(wide))] == [1, 1]


@pytest.mark.parametrize(
    ("said", "call"),
    [
        ("hide is a number of at", lambda: evaluate(SHOP, TILL, hide=0, **NAMES)),
        ("no basket has more", lambda: evaluate(SHOP, TILL, hide=9, **NAMES)),
        ("seed is a whole", lambda: evaluate(SHOP, TILL, seed=None, **NAMES)),  # type: ignore[arg-type]
        ("top is a number", lambda: evaluate(SHOP, TILL, 0, **NAMES)),
        ("rules are a pandas.DataFrame", lambda: evaluate([1], TILL)),
        ("share is a number", lambda: split(TILL, 2)),
        ("seed is a whole", lambda: split(TILL, seed="x")),  # type: ignore[arg-type]
        ("go with a data frame", lambda: split([["a"]], basket="r")),
        ("no column 'r'", lambda: split(TILL, basket="r")),
        ("no one order", lambda: split(TILL.assign(t=[1, "x"] * 20)[:40], time="t")),
        ("'t' has missing", lambda: split(TILL.assign(t=None), time="t")),
        ("'receipt' have missing", lambda: split(TILL.mask(TILL == 1001), **KEY)),
    ],
)
def test_what_does_not_fit_is_refused(said: str, call: Callable[[], Any]) -> None:
    with pytest.raises(DataError, match=said):
        call()


KEY: Any = {"basket": "receipt"}
