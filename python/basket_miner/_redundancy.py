"""Which rules say more than shorter ones."""

import itertools
import math
from collections import defaultdict
from collections.abc import Iterator
from typing import Any

import numpy as np
import pandas as pd

from ._baskets import Array
from ._columns import quotients_of
from ._errors import DataError
from ._fisher import upper_tail
from ._frames import column_of
from ._given_sets import demand_frame, itemsets_of
from ._keywords import Adjust
from ._measures import MOST_TOTAL_OF_FLOATS
from ._minimum import proportion_of
from ._ranks import places_by_quotient
from ._rule_counts import RuleCounts, counts_of
from ._shorter import TooManyBetween, best_below
from ._significance import adjusted

Itemset = frozenset[Any]


def is_redundant(rules: pd.DataFrame) -> pd.Series:
    """Whether a shorter rule says as much as each: `rules[~is_redundant(rules)]` are those without repetition.

    A rule is redundant if another of the frame has a proper subset of its antecedents, the same
    consequents, and at least its confidence, compared as exact fractions. The lift is the confidence over
    the support of the consequents, which are the same, so it decides alike.

    Takes a frame of `rules` or of `association_rules`, and returns a series of true and false on its
    index. A frame of all rules of a least confidence has each shorter rule that counts. Raises `DataError`
    where the figures of the frame are not those of one number of baskets.

    Bayardo, Agrawal and Gunopulos, Constraint-based rule mining in large, dense databases, 1999.
    """
    counts = counts_of(rules)
    ranks = places_by_quotient(counts.both, counts.left)
    best = _best_shorter(rules, ranks)
    found = (best >= 0) & (ranks[best] >= ranks)
    return pd.Series(found, rules.index, name="is_redundant")


def improvement(rules: pd.DataFrame) -> pd.Series:
    """By how much each rule's confidence is above those of all shorter rules: the least gain over one.

    A shorter rule has a proper subset of the antecedents and the same consequents. The empty set is such a
    subset too, and its confidence is the support of the consequents:

        confidence(X => Y) - max over X' < X of confidence(X' => Y)

    Takes a frame as `is_redundant` does, and returns a series on its index of the floats nearest to the
    exact values. The frame should have all rules of a least confidence, which a rule that is not there
    lies below. Where it has none of a rule's shorter ones, though there are some, the gain isn't known
    and is NaN; with a least confidence of 0 the frame has all.

    Bayardo, Agrawal and Gunopulos, Constraint-based rule mining in large, dense databases, 1999.
    """
    counts = counts_of(rules)
    best = _best_shorter(rules, places_by_quotient(counts.both, counts.left))
    both, left, right = _wide(counts)
    # Of a single item the empty set alone is a proper subset.
    sizes = np.array([*map(len, itemsets_of(rules, "antecedents"))], dtype=np.int64)
    has_best = best >= 0
    tops, bottoms = (np.where(has_best, part[best], 0) for part in (both, left))
    is_less = ~has_best | (tops * counts.total < right * bottoms)
    tops = np.where(is_less, right, tops)
    bottoms = np.where(is_less, counts.total, bottoms)
    gains = quotients_of((both * bottoms - tops * left, left * bottoms))
    gains[~has_best & (sizes > 1)] = np.nan
    return pd.Series(gains, rules.index, name="improvement")


def is_productive(
    rules: pd.DataFrame,
    alpha: float = 0.05,
    adjust: Adjust | None = None,
    *,
    sets: pd.DataFrame | None = None,
) -> pd.Series:
    """Whether each item among a rule's antecedents significantly raises its confidence.

    For each item z of the antecedents X, Fisher's exact test, one-sided, compares the baskets that have X
    with those that have X without z: the chance that of those with X - z at least `count` have both z and
    the consequents Y, if z says nothing of Y among these. A rule is productive if the greatest of these
    p-values is at most `alpha`. For an antecedent alone the test is that of `p_values`.

    Args:
        rules: a frame as `is_redundant` takes it.
        alpha: the level of the test.
        adjust: corrects for the rules of the frame as in `is_significant`: "holm", "bonferroni" or "bh".
        sets: a frame of `sets` over the same baskets, by the same minimum. The test needs the counts of
            X - z, with and without Y. The rules have them if they were asked for with a least confidence
            of 0; if they lack one, `DataError` is raised without this frame.

    Returns a series of true and false on the frame's index.

    Webb, Discovering significant patterns, 2007.
    """
    level = float(proportion_of(alpha, "alpha"))
    counts = counts_of(rules)
    places, both, left = _without_each(rules, counts, sets)
    chances = upper_tail(counts.both[places], counts.left[places], both, left)
    greatest = np.zeros(len(rules))
    np.maximum.at(greatest, places, chances)
    found = adjusted(greatest, adjust, len(rules)) <= level
    return pd.Series(found, rules.index, name="is_productive")


def _wide(counts: RuleCounts) -> tuple[Array, Array, Array]:
    """The counts, such that products of two are exact, and their differences."""
    parts = counts.both, counts.left, counts.right
    if counts.total < MOST_TOTAL_OF_FLOATS:
        return parts
    both, left, right = (part.astype(object) for part in parts)
    return both, left, right


def _best_shorter(rules: pd.DataFrame, ranks: Array) -> Array:
    """For each rule the place of the best one with fewer antecedents, or -1: that of the highest rank."""
    lefts, rights = (
        itemsets_of(rules, name) for name in ("antecedents", "consequents")
    )
    try:
        return best_below(lefts, rights, ranks)
    except TooManyBetween:
        return _best_of_subsets(lefts, rights, ranks)


def _best_of_subsets(
    lefts: list[Itemset], rights: list[Itemset], ranks: Array
) -> Array:
    """The same, by a look at the subsets of the antecedents, or at all shorter antecedents if these are fewer."""
    by_left: dict[Itemset, dict[Itemset, int]] = defaultdict(dict)
    order = ranks.tolist()
    for place, (left, right) in enumerate(zip(lefts, rights)):
        same = by_left[left]
        # Of equal rules the better one counts.
        if right not in same or order[same[right]] < order[place]:
            same[right] = place
    by_size: dict[int, list[Itemset]] = defaultdict(list)
    for items in by_left:
        by_size[len(items)].append(items)
    best = np.full(len(lefts), -1)
    for place, (left, right) in enumerate(zip(lefts, rights)):
        for other in _subsets(left, by_left, by_size):
            found = by_left[other].get(right, -1)
            if found >= 0 and (best[place] < 0 or order[best[place]] < order[found]):
                best[place] = found
    return best


def _subsets(
    items: Itemset, known: dict[Itemset, Any], by_size: dict[int, list[Itemset]]
) -> Iterator[Itemset]:
    """The proper subsets of a set that are known, by whichever way is shorter."""
    for size, others in by_size.items():
        if size >= len(items):
            continue
        if len(others) < math.comb(len(items), size):
            yield from (other for other in others if other < items)
        else:
            made = map(frozenset, itertools.combinations(items, size))
            yield from (other for other in made if other in known)


def _without_each(
    rules: pd.DataFrame, counts: RuleCounts, sets: pd.DataFrame | None
) -> tuple[Array, Array, Array]:
    """For each rule and each of its antecedents: the rule's place, and how many baskets have both sides without that
    item, and the antecedents without it.
    """
    lefts, rights = (
        itemsets_of(rules, name) for name in ("antecedents", "consequents")
    )
    # Rules have few different sets beside their number, and each is made once.
    made: dict[Itemset, Itemset] = {}
    unions = [made.setdefault(own, own) for own in map(frozenset.union, lefts, rights)]
    known: dict[Itemset, int] = {frozenset(): counts.total}
    if sets is not None:
        demand_frame(sets, "sets")
        known |= zip(itemsets_of(sets, "itemsets"), column_of(sets, "count").tolist())
    known |= zip(unions, counts.both.tolist())
    known |= zip(lefts, counts.left.tolist())
    known |= zip(rights, counts.right.tolist())
    without = {
        own: {item: known.get(own - {item}, -1) for item in own}
        for own in {*unions, *lefts}
    }
    places = np.repeat(np.arange(len(lefts)), [*map(len, lefts)])
    both, left = (
        np.array([without[own][item] for own, items in pairs for item in items])
        for pairs in (zip(unions, lefts), zip(lefts, lefts))
    )
    if (both < 0).any() or (left < 0).any():
        raise DataError(
            "the rules do not have the counts of all rules that are shorter by an item: ask for them "
            "with a least confidence of 0, or give sets="
        )
    return places, both, left
