"""Which rules a shorter one makes needless, by brute force over exact fractions."""

import itertools
import math
import random
from collections.abc import Callable
from fractions import Fraction
from typing import Any

import numpy as np
import pandas as pd
import pytest

import brute
from basket_miner import (
    DataError,
    improvement,
    is_productive,
    is_redundant,
    rules,
    sets,
)
from basket_miner._redundancy import _best_of_subsets
from basket_miner._shorter import TooManyBetween, best_below


def shop_of(draw: random.Random) -> list[list[str]]:
    return [draw.sample("abcdef", draw.randint(1, 5)) for _ in range(25)]


def shorter(left: frozenset[str]) -> list[frozenset[str]]:
    """The proper subsets, the empty one too."""
    return [
        frozenset(part)
        for size in range(len(left))
        for part in itertools.combinations(left, size)
    ]


def listed_pairs(frame: pd.DataFrame) -> list[tuple[frozenset[str], frozenset[str]]]:
    return [*zip(frame["antecedents"], frame["consequents"])]


@pytest.mark.parametrize("least", [0, Fraction(1, 3), Fraction(3, 5)])
def test_a_rule_is_redundant_if_a_shorter_one_has_its_confidence(
    least: Fraction,
) -> None:
    draw = random.Random(4)
    found = [0, 0]
    for _ in range(12):
        shop = shop_of(draw)
        known = brute.rules(shop, 2, Fraction(least))
        # Of a part of the rules few are shorter than a long one.
        for share in (1, 0.1):
            frame = rules(shop, 2, least).sample(frac=share, random_state=1)
            listed = {*listed_pairs(frame)}
            mask = is_redundant(frame)
            assert mask.index.equals(frame.index)
            for label, (left, right) in zip(frame.index, listed_pairs(frame)):
                others = [(part, right) for part in shorter(left)]
                own = known[left, right][1]
                assert mask[label] == any(
                    known[other][1] >= own for other in others if other in listed
                )
                found[int(mask[label])] += 1
    assert min(found) > 50


@pytest.mark.parametrize("least", [0, Fraction(1, 2)])
def test_an_improvement_is_the_least_gain_over_a_shorter_rule(least: Fraction) -> None:
    draw = random.Random(5)
    unknown = 0
    for _ in range(12):
        shop = shop_of(draw)
        counts = brute.supports(shop)
        frame = rules(shop, 2, least)
        gains = improvement(frame)
        listed = {*zip(frame["antecedents"], frame["consequents"])}
        for label, left, right in frame[["antecedents", "consequents"]].itertuples():
            parts = shorter(left)
            if len(left) > 1 and not any((part, right) in listed for part in parts):
                assert math.isnan(gains[label])
                unknown += 1
                continue
            best = max(Fraction(counts[part | right], counts[part]) for part in parts)
            own = Fraction(counts[left | right], counts[left])
            assert gains[label] == float(own - best)
    assert (unknown > 10) == (least > 0)


def best_of_all(lefts: list[Any], rights: list[Any], ranks: list[int]) -> list[int]:
    """For each rule the highest rank of a shorter one, or -1, by a look at all pairs."""
    return [
        max(
            (
                rank
                for other, of_other, rank in zip(lefts, rights, ranks)
                if of_other == right and other < left
            ),
            default=-1,
        )
        for left, right in zip(lefts, rights)
    ]


@pytest.mark.parametrize("best_of", [best_below, _best_of_subsets])
def test_the_best_shorter_rule_is_found_where_those_between_are_missing(
    best_of: Callable[..., Any]
) -> None:
    draw = random.Random(8)
    for _ in range(200):
        items = range(draw.randrange(1, 7))
        size = draw.randrange(40)
        lefts = [
            frozenset(draw.sample(items, draw.randint(0, len(items))))
            for _ in range(size)
        ]
        rights = [frozenset(draw.choice("xy")) for _ in range(size)]
        ranks = [draw.randrange(6) for _ in range(size)]
        found = best_of(lefts, rights, np.array(ranks, dtype=np.int64)).tolist()
        told = [-1 if place < 0 else ranks[place] for place in found]
        assert told == best_of_all(lefts, rights, ranks)
        assert all(
            lefts[place] < left and rights[place] == right
            for place, left, right in zip(found, lefts, rights)
            if place >= 0
        )


def test_a_rule_of_forty_antecedents_is_compared_with_those_that_are_there() -> None:
    lefts = [frozenset({0}), frozenset(range(40))]
    rights = [frozenset({"x"})] * 2
    with pytest.raises(TooManyBetween):
        best_below(lefts, rights, np.array([1, 0]))
    frame = pd.DataFrame(
        {
            "antecedents": lefts,
            "consequents": rights,
            "count": [4, 1],
            "support": [0.4, 0.1],
            "confidence": [0.8, 0.5],
            "lift": [1.6, 1.0],
        }
    )
    assert is_redundant(frame).tolist() == [False, True]


def chance(both: int, left: int, right: int, total: int) -> Fraction:
    """Of at least so many with both, by Fisher's exact test."""
    ways = sum(
        math.comb(left, k) * math.comb(total - left, right - k)
        for k in range(both, min(left, right) + 1)
    )
    return Fraction(ways, math.comb(total, right))


@pytest.mark.parametrize(("adjust", "tenths"), [(None, 1), ("bonferroni", 9)])
def test_a_rule_is_productive_if_each_antecedent_adds_to_it(
    adjust: Any, tenths: int
) -> None:
    draw = random.Random(6)
    found = [0, 0]
    for _ in range(6):
        # Who has a and b has c more often than who has one of them.
        shop = [
            sorted({*basket, "c"} if {"a", "b"} <= {*basket} else {*basket})
            for basket in shop_of(draw)
        ]
        counts = brute.supports(shop)
        whole, some = rules(shop, 4, 0), rules(shop, 4, "2/3")
        mask = is_productive(whole, tenths / 10, adjust)
        for label, left, right in whole[["antecedents", "consequents"]].itertuples():
            p = max(
                chance(
                    counts[left | right],
                    counts[left],
                    counts[left - {item} | right],
                    counts[left - {item}],
                )
                for item in left
            )
            tests = len(whole) if adjust else 1
            assert mask[label] == (p * tests <= Fraction(tenths, 10))
            found[int(mask[label])] += 1
        few = is_productive(some, 0.1, sets=sets(shop, 4))
        key = ["antecedents", "consequents"]
        wanted = whole.assign(mask=is_productive(whole, 0.1)).merge(some[key], on=key)
        assert few.sum() == wanted["mask"].sum()
    assert found[0] > 50 and found[1] > (1 if adjust else 10)


def test_rules_of_a_high_confidence_need_the_counts_of_sets_beside_them() -> None:
    shop = [["a", "b", "c"], ["a", "c"], ["b", "c"], ["a"], ["b"]]
    found = rules(shop, 1, 1.0)
    assert found["antecedents"].tolist() == [frozenset("ab")]
    with pytest.raises(DataError, match="confidence of 0, or give sets="):
        is_productive(found)
    # Of the three baskets with a two have c, and so of those with b: chance 2/3.
    known = sets(shop, 1)
    assert not is_productive(found, 0.66, sets=known).any()
    assert is_productive(found, 0.67, sets=known).all()


def test_no_rule_and_repeated_rules_are_told_as_well() -> None:
    frame = rules([["a", "b"], ["a", "b", "c"], ["a"]], 1, 0)
    calls: list[Callable[..., pd.Series]] = [is_redundant, improvement, is_productive]
    for call in calls:
        assert call(frame.head(0)).empty
        twice = call(pd.concat([frame, frame]))
        once = call(frame)
        assert twice.equals(pd.concat([once, once])) and len(once) == 12


@pytest.mark.parametrize("call", [is_redundant, improvement, is_productive])
def test_what_does_not_fit_is_refused(call: Callable[..., Any]) -> None:
    frame = rules([["a", "b"], ["a", "b", "c"]], 1, 0)
    with pytest.raises(DataError, match="rules are a pandas.DataFrame"):
        call([1])
    with pytest.raises(DataError, match="not those of one number of baskets"):
        call(frame.assign(lift=frame["lift"] * 2))
