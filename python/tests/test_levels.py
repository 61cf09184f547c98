"""Itemsets up to a size are those of brute force, whether sizes are found one by one or not."""

import random
from fractions import Fraction
from pathlib import Path
from typing import Any

import pandas as pd
import pytest

import brute
from basket_miner import DataError, TooManySets, UsageError, _levels, baskets, sets
from basket_miner.frequent_patterns import apriori, fpgrowth

CHANCE = random.Random(11)
SHOP = [CHANCE.sample("abcdefgh", CHANCE.randint(0, 6)) for _ in range(60)]
WEIGHTS = [CHANCE.randint(1, 9) for _ in SHOP]


@pytest.fixture(params=[100_000, 1], autouse=True)
def few(request: pytest.FixtureRequest, monkeypatch: pytest.MonkeyPatch) -> int:
    """How many sets one run may find: many, or one, so that sizes are found one by one."""
    monkeypatch.setattr(_levels, "_FEW", request.param)
    return int(request.param)


def pairs(frame: pd.DataFrame) -> list[tuple[Any, int]]:
    return [*zip(frame["itemsets"], frame["count"])]


@pytest.mark.parametrize("most", [1, 2, 3, 4, 50])
def test_sets_up_to_a_size_are_those_of_brute_force(most: int) -> None:
    filled = [basket for basket in SHOP if basket]
    wanted = [pair for pair in brute.frequent(filled, 5) if len(pair[0]) <= most]
    found = sets(filled, 5, max_items=most, exact=True)
    assert pairs(found) == wanted
    assert found.attrs["minimum"] == 5
    assert found["exact_support"].tolist() == [
        Fraction(count, len(filled)) for _, count in wanted
    ]
    table = pd.DataFrame([{name: name in row for name in "abcdefgh"} for row in SHOP])
    calls: list[Any] = [apriori, fpgrowth]
    for call in calls:
        made = call(table, 5 / len(SHOP), use_colnames=True, max_len=most)
        assert dict(zip(made["itemsets"], made["support"])) == {
            itemset: count / len(SHOP) for itemset, count in wanted
        }


def test_files_weights_and_totals_have_sizes_too(tmp_path: Path) -> None:
    kept = [(row, weight) for row, weight in zip(SHOP, WEIGHTS) if row]
    rows, weights = [row for row, _ in kept], [weight for _, weight in kept]
    wanted = [pair for pair in brute.frequent(rows, 40, weights) if len(pair[0]) <= 2]
    names = tmp_path / "shop.csv"
    names.write_text(
        "".join(f"{weight},{','.join(row)}\n" for row, weight in kept), "utf-8"
    )
    found = sets(names, 40, form="baskets", weighted=True, max_items=2)
    assert pairs(found) == wanted
    numbers = tmp_path / "shop.dat"
    numbers.write_text(
        "".join(
            f"{weight}x {' '.join(str(ord(name)) for name in row)}\n"
            for row, weight in kept
        )
    )
    found = sets(numbers, 40, max_items=2)
    assert {frozenset(map(chr, itemset)): count for itemset, count in pairs(found)} == {
        **dict(wanted)
    }
    whole = 2 * sum(weights)
    found = sets(baskets(numbers, total=whole), Fraction(40, whole), max_items=2)
    assert found["support"].tolist() == [count / whole for count in found["count"]]
    assert len(found) == len(wanted)


def test_a_limit_is_that_of_the_sets_that_are_wanted() -> None:
    size = len(sets(SHOP, 5, max_items=2))
    assert len(sets(SHOP, 5, max_items=2, limit=size)) == size
    with pytest.raises(TooManySets, match=f"more than {size - 1} frequent"):
        sets(SHOP, 5, max_items=2, limit=size - 1)
    assert sets(SHOP, 1000, max_items=3).empty
    for most in (1, 2):
        for wrong in (0, "5", True, 2.5):
            with pytest.raises(UsageError, match="limit is a whole number from 1 to"):
                sets(SHOP, 5, max_items=most, limit=wrong)  # type: ignore[arg-type]
    for wrong in (0, 1.5, True, "2"):
        with pytest.raises(DataError, match="max_items is a number from 1 on"):
            sets(SHOP, 5, max_items=wrong)  # type: ignore[arg-type]


def test_too_many_candidates_are_no_reason_to_give_up(
    monkeypatch: pytest.MonkeyPatch,
) -> None:
    wanted = pairs(sets(SHOP, 5, max_items=3))
    monkeypatch.setattr(_levels, "_MOST_CANDIDATES", 2)
    assert pairs(sets(SHOP, 5, max_items=3)) == wanted
