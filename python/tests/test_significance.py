"""P-values are those of Fisher's exact test, and what is found among independent items stays rare."""

import itertools
import math
import random
from collections.abc import Callable
from fractions import Fraction
from pathlib import Path
from typing import Any

import numpy as np
import pandas as pd
import pytest

import brute
from basket_miner import DataError, is_significant, p_values, rules
from basket_miner._fisher import two_sided, upper_tail
from basket_miner._keywords import Adjust
from basket_miner._significance import adjusted
from basket_miner.frequent_patterns import apriori, association_rules

RECEIPTS = Path(__file__).parents[2] / "examples/receipts.csv"
SHOP = rules(RECEIPTS, 2, "1/4", form="single", header=True)


def chances(left: int, right: int, total: int) -> dict[int, Fraction]:
    """The chance of each number of baskets with both sides."""
    return {
        both: Fraction(
            math.comb(left, both) * math.comb(total - left, right - both),
            math.comb(total, right),
        )
        for both in range(max(left + right - total, 0), min(left, right) + 1)
    }


@pytest.mark.parametrize("total", [1, 2, 7, 40, 300, 1000])
def test_chances_are_those_of_exact_rationals(total: int) -> None:
    draw = random.Random(total)
    for _ in range(60):
        left, right = draw.randint(0, total), draw.randint(0, total)
        known = chances(left, right, total)
        places = draw.choices([*known], k=4)
        wanted = [float(sum(known[k] for k in known if k >= n)) for n in places]
        below = [float(sum(known[k] for k in known if k <= n)) for n in places]
        twice = [min(2 * min(pair), 1.0) for pair in zip(wanted, below)]
        table = np.array(places), np.full(4, left), np.full(4, right), total
        for found, exact in ((upper_tail(*table), wanted), (two_sided(*table), twice)):
            # Floats have no chance below 1e-307 as exact as others.
            assert found == pytest.approx(exact, rel=1e-11, abs=1e-307)


def test_the_chances_of_a_million_millions_of_baskets_are_those_of_few() -> None:
    # Few of so many baskets are drawn as with replacement: each with the chance 1/2.
    half = 2**39
    found = upper_tail(np.array([3]), np.array([half]), np.array([3]), 2 * half)
    assert found[0] == pytest.approx(1 / 8, rel=1e-9)


def test_p_values_are_those_of_the_baskets() -> None:
    draw = random.Random(5)
    shop = [draw.sample("abcde", draw.randint(1, 4)) for _ in range(30)]
    weights = [draw.randint(1, 3) for _ in shop]
    known = brute.supports(shop, weights)
    total = known[frozenset()]
    tidy = [(i, item, w) for i, (b, w) in enumerate(zip(shop, weights)) for item in b]
    frame = pd.DataFrame(tidy, columns=["r", "p", "w"])
    found = rules(frame, 3, 0, basket="r", item="p", weight="w").iloc[::-2]
    p = p_values(found)
    assert p.index.equals(found.index) and len(p) > 20
    for label, left, right in found[["antecedents", "consequents"]].itertuples():
        chance = chances(known[left], known[right], total)
        wanted = sum(chance[k] for k in chance if k >= known[left | right])
        assert p[label] == pytest.approx(float(wanted), rel=1e-12)


def test_p_values_of_mlxtends_frames_and_of_no_rule() -> None:
    wide = pd.DataFrame({"a": [1, 1, 1, 0, 0], "b": [1, 1, 1, 0, 0]})
    itemsets = apriori(wide, 0.2, use_colnames=True)
    found = association_rules(itemsets)
    # One of the ten ways to place three baskets among five has all three with both.
    assert p_values(found).tolist() == pytest.approx([0.1, 0.1])
    assert is_significant(found, 0.1, None).tolist() == [True, True]
    assert not is_significant(SHOP.head(0)).any()


def by_definition(p: list[Fraction], adjust: str, alpha: Fraction, m: int) -> set[int]:
    """The places that a procedure takes, step by step."""
    order = sorted(range(len(p)), key=p.__getitem__)
    levels = {
        "bonferroni": [alpha / m for _ in order],
        "holm": [alpha / (m - i) for i in range(len(p))],
        "bh": [alpha * i / m for i in range(1, len(p) + 1)],
    }
    meets = [p[k] <= level for k, level in zip(order, levels[adjust])]
    if adjust == "bh":
        return {*order[: max((i for i, ok in enumerate(meets, 1) if ok), default=0)]}
    return {*order[: (meets + [False]).index(False)]}


@pytest.mark.parametrize("adjust", ["bonferroni", "holm", "bh"])
def test_adjusted_p_values_take_what_the_procedures_take(adjust: Any) -> None:
    draw = random.Random(3)
    sizes = set()
    for _ in range(300):
        p = [Fraction(draw.randint(1, 999), 20000) for _ in range(draw.randint(1, 9))]
        m = len(p) + draw.choice([0, 1, 5])
        found = adjusted(np.array([*map(float, p)]), adjust, m)
        for alpha in (Fraction(1, 77), Fraction(1, 19), Fraction(1, 7)):
            taken = {*np.flatnonzero(found <= float(alpha)).tolist()}
            assert taken == by_definition(p, adjust, alpha, m)
            sizes.add(len(taken))
    assert {0, 1, 2, 3} < sizes


def shop_of(draw: np.random.Generator, share: float) -> list[list[int]]:
    table = draw.random((50, 6)) < share
    return [np.flatnonzero(row).tolist() for row in table]


def rules_of(shop: list[list[int]]) -> pd.DataFrame:
    """The rules of three baskets and more, without the program."""
    found = brute.rules(shop, 3, Fraction(0))
    counts = brute.supports(shop)
    rows = [
        (*sides, count, count / len(shop), float(share), float(lift))
        for sides, (count, share, lift) in found.items()
    ]
    assert counts[frozenset()] == len(shop)
    names = ["antecedents", "consequents", "count", "support", "confidence", "lift"]
    return pd.DataFrame(rows, columns=names)


def test_among_independent_items_anything_is_found_in_a_twentieth_of_shops_at_most() -> (
    None
):
    """Of 400 shops 20 and, by chance, 13 more: three standard deviations."""
    draw = np.random.default_rng(7)
    shops = [rules_of(shop_of(draw, 0.3)) for _ in range(400)]

    def found(adjust: Adjust | None) -> int:
        return sum(is_significant(shop, 0.05, adjust, items=6).any() for shop in shops)

    assert max(found("holm"), found("bonferroni"), found("bh")) <= 33
    # Without a correction most shops have something.
    assert found(None) > 200


def test_items_that_come_together_are_found() -> None:
    draw = np.random.default_rng(8)
    shop = [
        sorted({*basket, 6, 7} if at % 5 == 0 else {*basket})
        for at, basket in enumerate(shop_of(draw, 0.2))
    ]
    found = rules_of(shop)
    taken = found[is_significant(found)]
    pairs = {*zip(taken["antecedents"], taken["consequents"])}
    assert (frozenset({6}), frozenset({7})) in pairs
    assert all({6, 7} <= left | right for left, right in pairs)


def test_the_hypotheses_are_the_rules_that_could_have_been_listed() -> None:
    def possible(items: int, size: int) -> int:
        sides = itertools.product((0, 1, 2), repeat=items)
        return sum(
            1 in side and 2 in side and items - side.count(0) <= size for side in sides
        )

    shop = [["a", "b", "c"], ["a", "b", "c"], ["d"], ["e"]]
    found = rules(shop, 2, 0)
    assert is_significant(found).attrs["hypotheses"] == possible(5, 3)
    assert is_significant(found[:2]).attrs["hypotheses"] == possible(5, 2)
    assert is_significant(found, items=7).attrs["hypotheses"] == possible(7, 3)
    assert is_significant(found, hypotheses=12).attrs["hypotheses"] == 12
    # A path tells no items but those of the rules, here of six.
    sizes = SHOP["antecedents"].map(len) + SHOP["consequents"].map(len)
    items = frozenset().union(*SHOP["antecedents"], *SHOP["consequents"])
    wanted = possible(len(items), sizes.max())
    assert is_significant(SHOP).attrs["hypotheses"] == wanted


@pytest.mark.parametrize(
    ("said", "call"),
    [
        ("alpha is a number from 0 to 1", lambda: is_significant(SHOP, 5)),
        ("alpha is a number from 0 to 1", lambda: is_significant(SHOP, "x")),  # type: ignore[arg-type]
        ("or None, not 'BH'", lambda: is_significant(SHOP, adjust="BH")),  # type: ignore[arg-type]
        ("the 27 rows, not 26", lambda: is_significant(SHOP, hypotheses=26)),
        ("items of the rules, not 2", lambda: is_significant(SHOP, items=2)),
        ("no column 'lift'", lambda: p_values(SHOP.drop(columns="lift"))),
        ("rules are a pandas.DataFrame", lambda: p_values([1])),
    ],
)
def test_what_does_not_fit_is_refused(said: str, call: Callable[[], Any]) -> None:
    with pytest.raises(DataError, match=said):
        call()
