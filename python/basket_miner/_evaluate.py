"""How good offers are, on baskets of which some items are hidden."""

import math
import random
from collections.abc import Hashable, Iterator
from statistics import NormalDist
from typing import Any

import pandas as pd

from ._data import Data
from ._errors import DataError
from ._keywords import Key
from ._minimum import whole_of
from ._named_baskets import named_baskets
from ._numbering import by_text
from ._offers import wish_of
from ._recommend import Recommender

# A basket without the hidden items, and these.
_Case = tuple[frozenset[Any], frozenset[Any]]


def evaluate(
    rules: pd.DataFrame | Recommender,
    baskets: Data,
    top: int = 5,
    hide: int = 1,
    *,
    seed: int = 0,
    basket: Key | None = None,
    item: Hashable | None = None,
) -> pd.DataFrame:
    """How often offers are what a basket had, after some of its items were hidden.

    Of each basket with more than `hide` items so many are hidden, drawn at random, and `top` items are
    offered to the rest. The rules should come from other baskets, as `split` makes them. What nobody
    bought without an offer isn't seen so: only a trial in the shop shows what offers bring.

    Args:
        rules: a frame, ranked by confidence, or a `Recommender`, ranked by what it was made for.
        baskets: as `recommend` takes them, with `basket` and `item`.
        top: how many items a basket is offered.
        hide: how many items of a basket are hidden, from 1 on.
        seed: of the drawing; the same seed hides the same items.

    Returns a frame with a row for the offers by `rules`, and one for the most frequent items that a basket
    lacks (`popular`), which rules should beat: they are those of `fill="popular"`. Its columns, where H are
    the hidden items of a basket and r the place of the first of them among its offers:

        baskets: how many were asked.
        hit_rate: the share of baskets with a hidden item among the offers.
        hit_rate_low, hit_rate_high: its interval of 95%, where p is the hit rate, n the baskets and
            z = 1.96: (p + z^2/2n -+ z sqrt(p(1-p)/n + z^2/4n^2)) / (1 + z^2/n) (Wilson, Probable
            inference, the law of succession, and statistical inference, 1927).
        mrr: the mean of 1/r, which is 0 without a hit (Voorhees, The TREC-8 question answering track
            report, 1999).
        recall: the mean share of H among the offers.
        with_offer: the share of baskets with an offer.
        coverage: the share of the items of all baskets that were offered at least once.

    Raises `DataError` where no basket has enough items, or an argument does not fit.
    """
    hidden = whole_of(hide)
    if hidden is None or hidden < 1:
        raise DataError(f"hide is a number of at least 1, not {hide!r}")
    if whole_of(seed) is None:
        raise DataError(f"seed is a whole number, not {seed!r}")
    ready = rules if isinstance(rules, Recommender) else Recommender(rules)
    wish = wish_of(top, None, None, ())
    owned = [items for _, items in named_baskets(baskets, basket, item)]
    cases = [*_cases(owned, hidden, random.Random(seed))]
    if not cases:
        raise DataError(f"no basket has more items than the {hidden} to hide")
    all_items = frozenset().union(*owned)
    rows = {
        name: _row(cases, [offer(left, wish) for left, _ in cases], all_items)
        for name, offer in (("rules", ready.by_rules), ("popular", ready.by_sales))
    }
    return pd.DataFrame.from_dict(rows, orient="index")


def _cases(
    baskets: list[frozenset[Any]], hide: int, chance: random.Random
) -> Iterator[_Case]:
    for items in baskets:
        if len(items) > hide:
            # Sets have another order in each process.
            hidden = frozenset(chance.sample(by_text(items), hide))
            yield items - hidden, hidden


def _row(
    cases: list[_Case], offers: list[list[Any]], items: frozenset[Any]
) -> dict[str, float]:
    number, hits, places, found = len(cases), 0, 0.0, 0.0
    for (_, hidden), offered in zip(cases, offers):
        at = [place for place, label in enumerate(offered, 1) if label in hidden]
        hits += bool(at)
        places += 1 / at[0] if at else 0
        found += len(at) / len(hidden)
    low, high = _interval(hits, number)
    ever = items & {*(label for offered in offers for label in offered)}
    return {
        "baskets": number,
        "hit_rate": hits / number,
        "hit_rate_low": low,
        "hit_rate_high": high,
        "mrr": places / number,
        "recall": found / number,
        "with_offer": sum(map(bool, offers)) / number,
        "coverage": len(ever) / len(items),
    }


def _interval(hits: int, number: int) -> tuple[float, float]:
    """Wilson's interval of a share."""
    z, share = NormalDist().inv_cdf(0.975), hits / number
    middle = share + z * z / (2 * number)
    half = z * math.sqrt(share * (1 - share) / number + (z / (2 * number)) ** 2)
    whole = 1 + z * z / number
    return max((middle - half) / whole, 0.0), min((middle + half) / whole, 1.0)
