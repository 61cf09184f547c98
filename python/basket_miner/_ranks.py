"""The order of rules by exact figures."""

from collections.abc import Mapping, Sequence
from fractions import Fraction
from typing import Any

import numpy as np
import pandas as pd

from ._baskets import Array
from ._errors import DataError
from ._frames import floats_of
from ._measures import MOST_TOTAL_OF_FLOATS
from ._rule_counts import RuleCounts

FIGURES = ("lift", "confidence", "count")


def ranked(rules: pd.DataFrame, counts: RuleCounts, by: Any) -> Array:
    """The places of rules from the best on: by a column, by several, or with None as they stand."""
    if by is None:
        return np.arange(len(rules))
    names = by if isinstance(by, list) else [by]
    others = {name: floats_of(rules, name) for name in names if name not in FIGURES}
    for name, values in others.items():
        if np.isnan(values).any():
            raise DataError(f"column {name!r} has missing values, so by= has no order")
    return best_first(counts, names, others)


def best_first(
    counts: RuleCounts, by: Sequence[Any], others: Mapping[Any, Array] | None = None
) -> Array:
    """The places of rules by falling figures: first those that are named, then lift, confidence and count.

    Args:
        counts: of the rules.
        by: the names, those of `others` too.
        others: more figures than these three, for each rule.
    """
    parts: tuple[Array, ...] = (counts.both, counts.left, counts.right)
    if counts.total >= MOST_TOTAL_OF_FLOATS:
        parts = tuple(part.astype(object) for part in parts)
    both, left, right = parts
    quotients = {
        "lift": (both * counts.total, left * right),
        "confidence": (both, left),
        "count": (both, np.ones_like(both)),
    }
    keys: list[Array] = []
    for name in dict.fromkeys((*by, *FIGURES)):
        is_exact = name in quotients
        found = _keys(*quotients[name]) if is_exact else ((others or {})[name],)
        keys += [-key for key in found]
    order: Array = np.lexsort(keys[::-1])
    return order


def places_by_quotient(tops: Array, bottoms: Array) -> Array:
    """For each quotient its place among all different ones, from the least on, as exact numbers."""
    keys = _keys(tops, bottoms)
    order = np.lexsort(keys[::-1])
    is_other = np.zeros(len(order), dtype=bool)
    for key in keys:
        is_other[1:] |= np.diff(key[order]) != 0
    places = np.empty(len(order), dtype=np.int64)
    places[order] = is_other.cumsum()
    return places


def _keys(tops: Array, bottoms: Array) -> tuple[Array, Array]:
    """For each quotient its float, and its place among different ones that have this float.

    There are seldom any, so floats decide nearly always, in a fraction of the time.
    """
    shared = np.gcd(tops, bottoms)
    tops, bottoms = tops // shared, bottoms // shared
    floats = np.asarray(tops / bottoms, dtype=np.float64)
    order = np.argsort(floats)
    ordered = floats[order]
    is_other = (np.diff(tops[order]) != 0) | (np.diff(bottoms[order]) != 0)
    several = ordered[1:][is_other & (np.diff(ordered) == 0)]
    at = np.flatnonzero(np.isin(floats, several))
    exact = [*map(Fraction, tops[at].tolist(), bottoms[at].tolist())]
    numbers = {value: number for number, value in enumerate(sorted({*exact}))}
    places = np.zeros(len(floats), dtype=np.int64)
    places[at] = [numbers[value] for value in exact]
    return floats, places
