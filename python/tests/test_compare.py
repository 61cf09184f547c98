"""What changed, compared with the counts of each lot of baskets and with exact rationals."""

import itertools
import math
import random
from fractions import Fraction
from pathlib import Path
from typing import Any

import pandas as pd
import pytest

import brute
from basket_miner import DataError, baskets, compare


def two_sided(before: int, after: int, total: int, total_after: int) -> Fraction:
    """Twice the lesser chance to have so many of the baskets with a set after, or so few."""
    own = before + after
    ways = {
        k: math.comb(total_after, k) * math.comb(total, own - k)
        for k in range(max(own - total, 0), min(own, total_after) + 1)
    }
    sides = [
        sum(way for k, way in ways.items() if (k >= after if up else k <= after))
        for up in (True, False)
    ]
    return min(Fraction(2 * min(sides), sum(ways.values())), Fraction(1))


@pytest.mark.parametrize("minimum", [4, Fraction(1, 5)])
def test_each_set_that_is_frequent_in_either_has_its_counts_in_both(
    minimum: int | Fraction,
) -> None:
    draw = random.Random(2)

    def lot_of(items: str, size: int) -> list[list[str]]:
        return [draw.sample(items, draw.randint(1, 4)) for _ in range(size)]

    lots = lot_of("abcde", 30), lot_of("abcdx", 40)
    known: list[Any] = [brute.supports(lot) for lot in lots]
    least = [
        minimum if isinstance(minimum, int) else minimum * len(lot) for lot in lots
    ]
    wanted = {
        itemset
        for own, bound in zip(known, least)
        for itemset, number in own.items()
        if itemset and number >= bound
    }
    found = compare(*lots, minimum, adjust="bonferroni", exact=True)
    assert len(found) == len(wanted) and {*found["itemsets"]} == wanted
    size = max(map(len, wanted))
    items = frozenset().union(*wanted)
    possible = sum(1 for u in range(size) for _ in itertools.combinations(items, u + 1))
    assert found.attrs["hypotheses"] == possible
    for row in found.itertuples():
        counts = [own.get(row.itemsets, 0) for own in known]
        shares = [Fraction(own, len(lot)) for own, lot in zip(counts, lots)]
        assert [row.count_before, row.count_after] == counts
        assert [row.support_before, row.support_after] == [*map(float, shares)]
        assert [row.exact_support_before, row.exact_support_after] == shares
        assert row.exact_difference == shares[1] - shares[0]
        assert row.difference == float(row.exact_difference)
        if counts[0]:
            assert row.exact_ratio == shares[1] / shares[0]
            assert row.ratio == float(row.exact_ratio)
        else:
            assert row.exact_ratio is None and row.ratio == math.inf
        p = two_sided(counts[0], counts[1], len(lots[0]), len(lots[1]))
        assert row.p_value == pytest.approx(float(p), rel=1e-12)
        assert row.p_adjusted == pytest.approx(min(float(p * possible), 1.0))
    # The new item is seen by both, and the one that is gone.
    change = found.set_index("itemsets")["p_adjusted"]
    assert change[frozenset("x")] < 0.01 and change[frozenset("e")] < 0.01


def test_all_forms_of_baskets_are_compared(tmp_path: Path) -> None:
    lots = [["a", "b"], ["a"]], [["b"], ["c", "b"], ["b"]]
    wanted = compare(*lots, 1)
    frame = pd.DataFrame(
        [
            (month, place, item)
            for month, lot in enumerate(lots)
            for place, basket in enumerate(lot)
            for item in basket
        ],
        columns=["month", "receipt", "product"],
    )
    months = frame[frame["month"] == 0], frame[frame["month"] == 1]
    for month in months:
        name = tmp_path / f"{month['month'].iloc[0]}.csv"
        month[["receipt", "product"]].to_csv(name, index=False)
    files = tmp_path / "0.csv", tmp_path / "1.csv"
    for found in (
        compare(baskets(lots[0]), baskets(lots[1]), 1),
        compare(*months, 1, basket="receipt", item="product"),
        compare(*files, 1, form="single", header=True),
    ):
        pd.testing.assert_frame_equal(found, wanted)
    assert wanted["count_before"].tolist() == [2, 1, 1, 0, 0]
    assert wanted["count_after"].tolist() == [0, 3, 0, 1, 1]
    small = compare(*lots, 1, max_items=1, hypotheses=100)
    assert [*map(len, small["itemsets"])] == [1, 1, 1]
    assert small.attrs["hypotheses"] == 100


def test_what_can_not_be_compared_is_refused() -> None:
    for lots in (([], [["a"]]), ([["a"]], [])):
        with pytest.raises(DataError, match="no baskets before, or none after"):
            compare(lots[0], lots[1], 1)
    with pytest.raises(DataError, match="or None, not 'fdr'"):
        compare([["a"]], [["b"]], 1, "fdr")  # type: ignore[arg-type]
    assert compare([["a"]], [["b"]], 2).empty
