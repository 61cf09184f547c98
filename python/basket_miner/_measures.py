"""The measures of rules, by mlxtend's names, from counts of baskets."""

from fractions import Fraction
from typing import Any

import numpy as np

from ._baskets import Array

# Below this total, sums of two products of counts are whole numbers that a float holds.
MOST_TOTAL_OF_FLOATS = 2**26
MEASURES = (
    "antecedent support",
    "consequent support",
    "support",
    "confidence",
    "lift",
    "representativity",
    "leverage",
    "conviction",
    "zhangs_metric",
    "jaccard",
    "certainty",
    "kulczynski",
)


def measures(both: Array, left: Array, right: Array, total: int) -> dict[str, Array]:
    """For each rule its measures, each the float nearest to the exact value.

    Args:
        both: how many baskets have both sides.
        left: how many have the antecedents.
        right: how many have the consequents.
        total: how many baskets there are.

    Where a measure divides by zero, the conviction of a rule that always holds is infinite, and
    Zhang's metric and the certainty of one that tells nothing are 0.
    """
    if total >= MOST_TOTAL_OF_FLOATS:
        both, left, right = (part.astype(object) for part in (both, left, right))
    # What the baskets with both sides are more than by chance, times the total.
    excess = both * total - left * right
    zhang = np.maximum(both * (total - left), left * (right - both))
    return {
        "antecedent support": _quotients(left, total),
        "consequent support": _quotients(right, total),
        "support": _quotients(both, total),
        "confidence": _quotients(both, left),
        "lift": _quotients(both * total, left * right),
        # No value is missing, so all baskets speak of each rule.
        "representativity": np.ones(len(both)),
        "leverage": _quotients(excess, total * total),
        "conviction": _quotients(
            left * (total - right), total * (left - both), by_zero=np.inf
        ),
        "zhangs_metric": _quotients(excess, zhang),
        "jaccard": _quotients(both, left + right - both),
        "certainty": _quotients(excess, left * (total - right)),
        "kulczynski": _quotients(both * (left + right), 2 * left * right),
    }


def least_confidence(metric: str, threshold: Fraction, share: Fraction) -> Fraction:
    """A confidence that no rule lies below whose measure is at least a threshold.

    Args:
        metric: the name of the measure.
        threshold: of it.
        share: of all baskets, that each side of a rule is in at least.
    """
    if threshold <= 0:
        return Fraction(0)
    bounds = {
        **dict.fromkeys(("confidence", "jaccard", "certainty"), threshold),
        "lift": threshold * share,
        "leverage": threshold + share,
        "conviction": 1 - (1 - share) / threshold,
        "kulczynski": 2 * threshold - 1,
    }
    return min(max(bounds.get(metric, Fraction(0)), Fraction(0)), Fraction(1))


def _quotients(tops: Array, bottoms: Any, by_zero: float = 0.0) -> Array:
    """The floats nearest to quotients: whole numbers of Python divide so, whatever their size."""
    is_zero = np.asarray(bottoms == 0)
    found = np.asarray(tops / np.where(is_zero, 1, bottoms), dtype=np.float64)
    return np.where(is_zero, by_zero, found)
