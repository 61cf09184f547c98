"""The program's reports become data frames: the README's, those of brute force, and large ones."""

import itertools
import random
from dataclasses import replace
from fractions import Fraction
from pathlib import Path
from typing import Any

import brute
import pandas as pd
import pytest

import basket_miner as miner

EXAMPLES = Path(__file__).parents[2] / "examples"
MINERS: Any = ["apriori", "eclat", "eclat-diff", "eclat-bits", "fpgrowth"]


def rows_of(frame: Any) -> dict[Any, Any]:
    sides = zip(frame["antecedents"], frame["consequents"])
    figures = zip(frame["count"], frame["exact_confidence"], frame["exact_lift"])
    return dict(zip(sides, figures))


def test_the_rules_of_the_small_shop_are_those_of_the_readme() -> None:
    frame = miner.rules(EXAMPLES / "shop.dat", "20%", "2/3", exact=True)
    assert frame.to_dict("list") == {
        "antecedents": [{1}, {3}, {4}],
        "consequents": [{2}, {2}, {2}],
        "count": [7, 5, 3],
        "support": [7 / 15, 5 / 15, 3 / 15],
        "confidence": [7 / 10, 5 / 7, 1.0],
        "lift": [7 / 8, 25 / 28, 5 / 4],
        "exact_support": [Fraction(7, 15), Fraction(1, 3), Fraction(1, 5)],
        "exact_confidence": [Fraction(7, 10), Fraction(5, 7), Fraction(1)],
        "exact_lift": [Fraction(7, 8), Fraction(25, 28), Fraction(5, 4)],
        "antecedent support": [10 / 15, 7 / 15, 3 / 15],
        "consequent support": [12 / 15, 12 / 15, 12 / 15],
        "exact_antecedent_support": [Fraction(2, 3), Fraction(7, 15), Fraction(1, 5)],
        "exact_consequent_support": [Fraction(4, 5)] * 3,
    }
    columns = [*frame]
    assert columns[:6] == [
        *("antecedents", "consequents", "count", "support", "confidence", "lift")
    ]


def test_closed_and_maximal_sets_are_those_of_the_readme() -> None:
    shop = EXAMPLES / "shop.dat"
    closed = miner.closed(shop, "20%")["itemsets"].tolist()
    assert closed == [{1}, {2}, {3}, {6}, {1, 2}, {1, 3}, {2, 3}, {2, 4}]
    maximal = miner.maximal(shop, "20%")["itemsets"].tolist()
    assert maximal == [{6}, {1, 2}, {1, 3}, {2, 3}, {2, 4}]


def test_names_from_csv_are_labels() -> None:
    receipts = EXAMPLES / "receipts.csv"
    frame = miner.rules(receipts, "20%", "2/3", form="single", header=True)
    assert frame.to_dict("list") == {
        "antecedents": [{"bread"}, {"tea"}, {"butter"}],
        "consequents": [{"milk"}, {"milk"}, {"milk"}],
        "count": [7, 3, 5],
        "support": [7 / 15, 3 / 15, 5 / 15],
        "confidence": [7 / 10, 1.0, 5 / 7],
        "lift": [7 / 8, 5 / 4, 25 / 28],
        "antecedent support": [10 / 15, 3 / 15, 7 / 15],
        "consequent support": [12 / 15, 12 / 15, 12 / 15],
    }


@pytest.mark.parametrize("name", MINERS)
@pytest.mark.parametrize("workers", [1, 3])
def test_each_miner_gives_the_rules_of_brute_force(name: Any, workers: int) -> None:
    chance = random.Random(len(name))
    baskets = [chance.sample(range(8), chance.randint(1, 5)) for _ in range(60)]
    options: Any = {"miner": name, "workers": workers, "exact": True}
    frame = miner.rules(baskets, Fraction(1, 15), 0.4, **options)
    assert rows_of(frame) == brute.rules(baskets, 4, Fraction(2, 5))
    for name in ("support", "confidence", "lift"):
        exact = frame[f"exact_{name}"]
        assert frame[name].tolist() == [top / down for top, down in map(parts, exact)]


@pytest.mark.parametrize("most", [1, 3, 2**24, 2**32 - 1])
@pytest.mark.parametrize("total", [None, 2**39])
def test_the_supports_of_the_sides_are_those_of_brute_force(
    most: int, total: int | None, tmp_path: Path
) -> None:
    chance = random.Random(most)
    baskets = [chance.sample("abcdef", chance.randint(1, 5)) for _ in range(40)]
    weights = [chance.randint(max(most - 5, 1), most) for _ in baskets]
    path = tmp_path / "baskets.csv"
    lines = zip(weights, baskets)
    path.write_text("".join(f"{n},{','.join(names)}\n" for n, names in lines))
    rows = pd.DataFrame(
        [
            (place, weight, name)
            for place, (weight, names) in enumerate(zip(weights, baskets))
            for name in names
        ],
        columns=["receipt", "times", "product"],
    )
    supports = brute.supports(baskets, weights)
    whole = total or supports[frozenset()]
    for data in (
        miner.baskets(rows, basket="receipt", item="product", weight="times"),
        miner.baskets(path, form="baskets", weighted=True),
    ):
        found = miner.rules(replace(data, total=total), 3 * most, 0.5, exact=True)
        assert len(found) > 9
        for side in ("antecedent", "consequent"):
            shares = [Fraction(supports[names], whole) for names in found[f"{side}s"]]
            assert found[f"exact_{side}_support"].tolist() == shares
            assert found[f"{side} support"].tolist() == [*map(float, shares)]


def parts(share: Fraction) -> tuple[int, int]:
    return share.numerator, share.denominator


def test_figures_above_64_bits_stay_exact(tmp_path: Path) -> None:
    baskets, heavy = [["a", "b"], ["a"], ["b"], ["c"]], [
        2**32 - 1,
        2**32 - 5,
        7,
        2**31,
    ]
    found = brute.rules(baskets, 1, Fraction(0), heavy)
    assert max(lift.numerator for _, _, lift in found.values()) > 2**64
    numbers = tmp_path / "heavy.dat"
    lines = zip(heavy, ["1 2", "1", "2", "3"])
    numbers.write_text("".join(f"{weight}x {items}\n" for weight, items in lines))
    frame = miner.rules(numbers, 1, 0, exact=True)
    by_number = {"a": 1, "b": 2, "c": 3}
    renamed = {
        tuple(frozenset(by_number[str(item)] for item in side) for side in sides): row
        for sides, row in found.items()
    }
    assert rows_of(frame) == renamed
    assert frame["lift"].tolist() == [
        lift.numerator / lift.denominator for lift in frame["exact_lift"]
    ]
    names = tmp_path / "heavy.csv"
    rows = (",".join([str(weight), *basket]) for weight, basket in zip(heavy, baskets))
    names.write_text("\n".join(rows))
    options: Any = {"form": "baskets", "weighted": True, "exact": True}
    assert rows_of(miner.rules(names, 1, 0, **options)) == found


def test_closed_and_maximal_sets_are_those_without_a_superset_that_speaks_against_them() -> (
    None
):
    chance = random.Random(11)
    baskets = [chance.sample("abcdef", chance.randint(1, 5)) for _ in range(30)]
    frequent = dict(brute.frequent(baskets, 4))
    larger = [
        (itemset, other)
        for itemset, other in itertools.product(frequent, repeat=2)
        if itemset < other
    ]
    same = {one for one, other in larger if frequent[one] == frequent[other]}
    closed = miner.closed(baskets, 4)["itemsets"].tolist()
    assert closed == [itemset for itemset in frequent if itemset not in same]
    inner = {one for one, _ in larger}
    maximal = miner.maximal(baskets, 4)["itemsets"].tolist()
    assert maximal == [itemset for itemset in frequent if itemset not in inner]
