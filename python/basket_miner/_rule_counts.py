"""The counts of baskets behind the figures of rules."""

from dataclasses import dataclass

import numpy as np
import pandas as pd

from ._baskets import Array
from ._errors import DataError
from ._frames import floats_of
from ._given_sets import demand_frame
from ._measures import measures
from ._mlxtend import ROUNDED_HINT, TRANSACTIONS

_FIGURES = ["support", "confidence", "lift"]
# How far figures may be from the exact ones, and up to which total counts can still be told by them: our own floats,
# those of 32 bits, and those that JSON cuts after ten digits.
_ROUNDINGS = (
    (1e-12, 0.0, 2**40),
    (2**-21, 1e-15, 2**20),
    (2**-21, 1e-10, 2**16),
)


@dataclass(frozen=True)
class RuleCounts:
    """How many baskets have both sides of each rule, its antecedents and its consequents, and how
    many there are.
    """

    both: Array
    left: Array
    right: Array
    total: int


def counts_of(rules: pd.DataFrame) -> RuleCounts:
    """The counts of a frame of `rules` or `association_rules`.

    A figure is the float nearest to a quotient of counts, which gives them back by rounding.

    Raises:
        DataError: a column is missing, or the figures are not those of one number of baskets.
    """
    demand_frame(rules, "rules")
    given = [floats_of(rules, name) for name in _FIGURES]
    support, confidence, lift = given
    if not len(rules):
        none = np.empty(0, dtype=np.int64)
        return RuleCounts(none, none, none, 0)
    both = _both(rules, support)
    with np.errstate(all="ignore"):
        # The largest count tells the total best.
        total = np.rint(both / support)[both.argmax()]
        left = np.rint(both / confidence)
        right = np.rint(both / left * total / lift)
    table = np.array([both, left, right, np.full(len(both), total)])
    if np.isfinite(table).all() and table.min() >= 1:
        whole = table.astype(np.int64)
        again = measures(whole[0], whole[1], whole[2], int(total))
        if _agree([again[name] for name in _FIGURES], given, total):
            return RuleCounts(whole[0], whole[1], whole[2], int(total))
    raise DataError(
        "the count, support, confidence and lift of the rules are not those of one number of baskets"
        f"{ROUNDED_HINT}"
    )


def _both(rules: pd.DataFrame, support: Array) -> Array:
    """How many baskets have both sides of each rule, as its frame says or knows."""
    if "count" in rules.columns:
        return floats_of(rules, "count")
    if TRANSACTIONS in rules.attrs:
        return np.asarray(np.rint(support * rules.attrs[TRANSACTIONS]))
    raise DataError(
        "the frame of rules has no column 'count', and its attrs, which had the number n of all "
        'baskets, are lost: add rules["count"] = (rules["support"] * n).round()'
    )


def _agree(exact: list[Array], given: list[Array], total: float) -> bool:
    """Whether figures are those that the counts have, as far as they are rounded."""
    return any(
        total <= most
        and all(
            np.allclose(one, other, rtol=relative, atol=absolute)
            for one, other in zip(exact, given)
        )
        for relative, absolute, most in _ROUNDINGS
    )
