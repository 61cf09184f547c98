"""The offers of ranked rules to a basket."""

import itertools
import numbers
from collections import Counter, defaultdict
from collections.abc import Collection, Iterable
from dataclasses import dataclass
from functools import cached_property
from typing import Any, Literal

import numpy as np
import pandas as pd

from ._errors import DataError
from ._given_sets import itemsets_of
from ._minimum import whole_of
from ._numbering import by_text
from ._rule_bits import RuleBits, pays

Fill = Literal["popular"]


@dataclass(frozen=True)
class Wish:
    """How many offers are wanted, and of what.

    Args:
        top: how many at most.
        fill: what follows where rules have too few.
        only: the items that may be offered, or nothing for all.
        exclude: items that may not.
    """

    top: int
    fill: Fill | None
    only: Collection[Any] | None
    exclude: Collection[Any]

    def allows(self, label: Any) -> bool:
        return label not in self.exclude and (self.only is None or label in self.only)


def wish_of(
    top: int, fill: Fill | None, only: Iterable[Any] | None, exclude: Iterable[Any]
) -> Wish:
    """What a caller wants, or `DataError` where it can't be wanted."""
    if (most := whole_of(top)) is None or most < 1:
        raise DataError(f"top is a number of at least 1, not {top!r}")
    if fill not in (None, "popular"):
        raise DataError(f"fill is 'popular' or None, not {fill!r}")
    for name, items in (("only", only), ("exclude", exclude)):
        if isinstance(items, (str, bytes)):
            raise DataError(f"{name} is an iterable of items, not {items!r}")
    try:
        kept = None if only is None else frozenset(only)
        return Wish(most, fill, kept, frozenset(exclude))
    except TypeError as fault:
        raise DataError(f"only and exclude are iterables of items: {fault}") from fault


class Index:
    """Rules by what a basket must have. A rule's rank is its number from the best on."""

    def __init__(self, rules: pd.DataFrame, order: list[int]) -> None:
        left, right = (
            itemsets_of(rules, name) for name in ("antecedents", "consequents")
        )
        self._antecedents = [left[place] for place in order]
        self._consequents = [right[place] for place in order]
        ranks: dict[frozenset[Any], list[int]] = defaultdict(list)
        for rank, items in enumerate(self._antecedents):
            ranks[items].append(rank)
        # Antecedents stand at the one of their items that the fewest of them have.
        frequencies = Counter(itertools.chain.from_iterable(ranks))
        self._by_item: dict[Any, list[tuple[frozenset[Any], list[int]]]]
        self._by_item = defaultdict(list)
        self._rules_at: Counter[Any] = Counter()
        for items, found in ranks.items():
            if items:
                rarest = min(items, key=frequencies.__getitem__)
                self._by_item[rarest].append((items, found))
                self._rules_at[rarest] += len(found)

    @cached_property
    def _items(self) -> frozenset[Any]:
        return frozenset().union(*{*self._antecedents, *self._consequents})

    @cached_property
    def _bits(self) -> RuleBits:
        return RuleBits(self._antecedents, self._consequents)

    def refuse_other_types(self, items: set[Any]) -> None:
        """Raises `DataError` if no item can be in a rule, since the rules' items are of other types."""
        types, own = _types_of(self._items), _types_of(items)
        if types and own and types.keys().isdisjoint(own):
            labels = [next(iter(side.values())) for side in (types, own)]
            told = [f"{type(label).__name__}, as {label!r}" for label in labels]
            raise DataError(
                f"no item of the baskets is in a rule: the rules have {told[0]}, the baskets {told[1]}"
            )

    def offers(self, items: frozenset[Any], wish: Wish) -> list[tuple[Any, int]]:
        """The first items to offer to a basket, each with the rank of its rule."""
        offers: dict[Any, int] = {}
        for rank in self._speaking(items):
            consequents = self._consequents[rank]
            if consequents.isdisjoint(items):
                for label in by_text(consequents):
                    if label not in offers and wish.allows(label):
                        offers[label] = rank
                if len(offers) >= wish.top:
                    break
        return [*offers.items()][: wish.top]

    def _speaking(self, items: frozenset[Any]) -> Iterable[int]:
        """The ranks of the rules whose antecedents a basket has, perhaps without those whose consequents it has."""
        near = sum(self._rules_at[label] for label in items)
        if pays(near, len(self._items), len(self._consequents)):
            return self._bits.speaking(items)
        speaking = [
            ranks
            for label in items
            for antecedents, ranks in self._by_item.get(label, ())
            if antecedents <= items
        ]
        return sorted(itertools.chain.from_iterable(speaking))


def _types_of(labels: Collection[Any]) -> dict[type, Any]:
    """The types of labels, with one label of each; one type for all numbers and one for all texts, which may be equal."""
    return {_type_of(label): label for label in by_text(frozenset(labels))}


def _type_of(label: Any) -> type:
    plain = label.item() if isinstance(label, np.generic) else label
    kinds: tuple[type, ...] = (str, numbers.Number)
    return next((kind for kind in kinds if isinstance(plain, kind)), type(plain))
