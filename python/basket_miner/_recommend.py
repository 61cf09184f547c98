"""Offers by rules."""

import itertools
from collections.abc import Hashable, Iterable, Sequence
from typing import Any

import numpy as np
import pandas as pd

from ._baskets import Array
from ._columns import fractions_of, labels_column
from ._data import Data
from ._keywords import Key
from ._measures import measures
from ._named_baskets import named_baskets
from ._offers import Fill, Index, Wish, wish_of
from ._popular import popular_items, with_popular
from ._ranks import ranked
from ._rule_counts import RuleCounts, counts_of

# A column, several, or nothing for the order of the frame.
By = Hashable | Sequence[Hashable] | None


def recommend(
    rules: pd.DataFrame,
    baskets: Data,
    top: int = 5,
    by: By = "confidence",
    *,
    basket: Key | None = None,
    item: Hashable | None = None,
    exact: bool = False,
    fill: Fill | None = None,
    only: Iterable[Any] | None = None,
    exclude: Iterable[Any] = (),
) -> pd.DataFrame:
    """What rules say of baskets that lack an item: for each basket the items to offer, the best first.

    A rule speaks of a basket that has all its antecedents and none of its consequents. Each of the
    consequents is an item to offer, once for a basket, by the best rule that has it: the one that is
    first by `by`, then by the lift, the confidence and the count, all as exact numbers, and then by its
    place among the rules.

    Args:
        rules: a frame of `rules`, or of `association_rules` in `basket_miner.frequent_patterns`.
        baskets: a data frame with a row for each item of a basket, of which `basket` and `item` name
            the columns; one with a row for each basket and a column of true and false for each item;
            or an iterable of baskets, each an iterable of labels, as a series of lists. Items are
            labelled as in the rules.
        top: how many items a basket gets at most, from 1 on.
        by: the column whose higher values make a rule better, or a list of columns, of which the later
            decide where the earlier are equal; None takes the rules in the order of the frame. The
            confidence says what a basket most probably lacks, and the lift what it lacks more than
            others do, which are rare things. `evaluate` tells which finds more.
        exact: adds `exact_confidence` and `exact_lift`, of `Fraction`.
        fill: "popular" offers the most frequent items that a basket lacks where rules have fewer than
            `top`, as far as they are a side of a rule by themselves. Their `rule` is None, their `count`
            that of the item, their `confidence` its support and their `lift` 1.
        only: the items that may be offered, as those in stock.
        exclude: items that may not.

    Returns a row for each offer, in the order of the baskets: `basket` (its id, the label of its row in
    a frame or a series, or its place in another iterable), `item`, `rule` (the label of the rule's row),
    `count`, `confidence` and `lift`. Raises `DataError` where the rules, the baskets or an argument do
    not fit.
    """
    wish = wish_of(top, fill, only, exclude)
    return Recommender(rules, by)._frame(baskets, wish, basket, item, exact)


class Recommender:
    """Rules that are made ready once, for baskets that come one after another.

    Takes `rules` and `by` as `recommend` does. What becomes of the frame later changes no offer.
    """

    def __init__(self, rules: pd.DataFrame, by: By = "confidence") -> None:
        counts = counts_of(rules)
        sold = popular_items(rules, counts)
        order = ranked(rules, counts, by)
        self._index = Index(rules, order.tolist())
        # The popular items stand as rules behind the others.
        self._rules = len(order)
        self._popular = {label: rank for rank, label in enumerate(sold, len(order))}
        self._order = np.r_[order, len(order) + np.arange(len(sold))]
        self._counts = with_popular(counts, sold)
        self._labels = [*rules.index.tolist(), *[None] * len(sold)]

    def recommend(
        self,
        baskets: Data,
        top: int = 5,
        *,
        basket: Key | None = None,
        item: Hashable | None = None,
        exact: bool = False,
        fill: Fill | None = None,
        only: Iterable[Any] | None = None,
        exclude: Iterable[Any] = (),
    ) -> pd.DataFrame:
        """What the call `recommend` returns by these rules."""
        wish = wish_of(top, fill, only, exclude)
        return self._frame(baskets, wish, basket, item, exact)

    def offers(
        self,
        items: Iterable[Any],
        top: int = 5,
        *,
        fill: Fill | None = None,
        only: Iterable[Any] | None = None,
        exclude: Iterable[Any] = (),
    ) -> list[Any]:
        """The items to offer to one basket, the best first, as a list: for a service that has no use for a frame."""
        wish = wish_of(top, fill, only, exclude)
        ((_, basket),) = named_baskets([items], None, None)
        return [label for label, _ in self._offers(basket, wish)]

    def by_rules(self, items: frozenset[Any], wish: Wish) -> list[Any]:
        """The items that rules offer to a basket."""
        return [label for label, _ in self._index.offers(items, wish)]

    def by_sales(self, items: frozenset[Any], wish: Wish) -> list[Any]:
        """The most frequent items that a basket lacks."""
        allowed = (
            label
            for label in self._popular
            if label not in items and wish.allows(label)
        )
        return [*itertools.islice(allowed, wish.top)]

    def _offers(self, items: frozenset[Any], wish: Wish) -> list[tuple[Any, int]]:
        """The offers to a basket, each with the rank of its rule."""
        found = self._index.offers(items, wish)
        if wish.fill is None or len(found) == wish.top:
            return found
        known = dict(found)
        for label in self.by_sales(items | known.keys(), wish):
            known[label] = self._popular[label]
        return [*known.items()][: wish.top]

    def _frame(
        self,
        baskets: Data,
        wish: Wish,
        basket: Key | None,
        item: Hashable | None,
        exact: bool,
    ) -> pd.DataFrame:
        known: dict[frozenset[Any], list[tuple[Any, int]]] = {}
        rows = []
        for name, items in named_baskets(baskets, basket, item):
            if items not in known:
                known[items] = self._offers(items, wish)
            rows += [(name, *offer) for offer in known[items]]
        if all(rank >= self._rules for *_, rank in rows):
            self._index.refuse_other_types(set().union(*known))
        places = self._order[np.array([rank for *_, rank in rows], dtype=np.intp)]
        found = {
            "basket": labels_column([name for name, _, _ in rows]),
            "item": labels_column([offered for _, offered, _ in rows]),
            "rule": labels_column([self._labels[place] for place in places.tolist()]),
            **_figures(self._counts, places, exact),
        }
        return pd.DataFrame(found)


def _figures(counts: RuleCounts, places: Array, exact: bool) -> dict[str, Any]:
    """The figures of the rules at some places."""
    both, left, right = (
        part[places] for part in (counts.both, counts.left, counts.right)
    )
    known = measures(both, left, right, counts.total)
    found = {"count": both, "confidence": known["confidence"], "lift": known["lift"]}
    if exact:
        wide = both.astype(object) * counts.total, left.astype(object) * right
        found["exact_confidence"] = fractions_of((both, left))
        found["exact_lift"] = fractions_of(wide)
    return found
