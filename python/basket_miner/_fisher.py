"""Chances of Fisher's exact test, of many tables at once.

`scipy.stats.hypergeom` has the same chances, by a loop over the tables that takes a thousand times as long.
"""

import math

import numpy as np

from ._baskets import Array

# So many tables fit into a processor's cache together.
_AT_ONCE = 1 << 14
_STEPS = 16
# A term that adds less than this share of the sum changes no digit.
_LEAST_SHARE = 2.0**-60


def upper_tail(both: Array, left: Array, right: Array, total: Array | int) -> Array:
    """For each table the chance of at least so many baskets with both sides, if these are independent.

    Of `total` baskets `left` have one side and `right` the other, and all ways to place them are equally
    likely: with k baskets that have both, C(left, k) * C(total - left, right - k) / C(total, right).
    The chance is the sum of these from `both` on (Fisher, The Design of Experiments, 1935).
    """
    found = np.empty(len(both))
    totals = np.broadcast_to(total, len(both))
    for start in range(0, len(both), _AT_ONCE):
        part = slice(start, start + _AT_ONCE)
        found[part] = _upper_tail(both[part], left[part], right[part], totals[part])
    return found


def two_sided(both: Array, left: Array, right: Array, total: Array | int) -> Array:
    """Twice the lesser chance of the two sides, and at most 1 (Yates, Tests of significance for 2 x 2
    contingency tables, 1984).
    """
    sides = (
        upper_tail(both, left, right, total),
        upper_tail(right - both, total - left, right, total),
    )
    return np.minimum(2 * np.minimum(*sides), 1.0)


def _upper_tail(both: Array, left: Array, right: Array, total: Array) -> Array:
    # Terms fall away from the mean alone. On its other side the rest is summed: fewer than `both`.
    is_high = both * total.astype(float) >= left * right.astype(float)
    first = np.where(is_high, both, right - both + 1).astype(float)
    side = np.where(is_high, left, total - left)
    cells = np.array([first, side - first, right - first, total - side - right + first])
    chance = np.zeros(len(both))
    can_be = (cells >= 0).all(axis=0)
    kept = cells[:, can_be]
    chance[can_be] = np.exp(_log_chance(kept)) * _sum(kept)
    return np.clip(np.where(is_high, chance, 1 - chance), 0.0, 1.0)


def _sum(cells: Array) -> Array:
    """The sum of a table's chance and those of the tables after it, over the first of these."""
    sums, at = np.ones(cells.shape[1]), np.arange(cells.shape[1])
    both, left, right, neither = cells.copy()
    terms = sums.copy()
    while len(at):
        for _ in range(_STEPS):
            both += 1
            neither += 1
            terms *= left * right / (both * neither)
            left -= 1
            right -= 1
            sums[at] += terms
        on = terms > _LEAST_SHARE * sums[at]
        parts = (at, both, left, right, neither, terms)
        at, both, left, right, neither, terms = (part[on] for part in parts)
    return sums


def _log_chance(cells: Array) -> Array:
    """The logarithm of a table's chance.

    With log n! = n log n - n + r(n) it is the sum of r over the margins, less that over the cells and the
    total, less the sum of n log(n / m) over the cells n of mean m: no large numbers cancel, as factorials
    do (Loader, Fast and accurate computation of binomial probabilities, 2000).
    """
    both, left, right, neither = cells
    total = cells.sum(axis=0)
    margins = np.array([both + left, right + neither, both + right, left + neither])
    found: Array = _rest(margins).sum(axis=0) - _rest(cells).sum(axis=0) - _rest(total)
    excess = (both * neither - left * right) / total
    with np.errstate(divide="ignore", invalid="ignore"):
        for cell, row, column, sign in zip(
            cells, margins[[0, 0, 1, 1]], margins[[2, 3, 2, 3]], (1, -1, -1, 1)
        ):
            logarithm = np.log1p(sign * excess * total / (row * column))
            found -= np.where(cell > 0, cell * logarithm, 0.0)
    return found


# Below this many Stirling's series is not exact enough.
_FEW = [math.lgamma(n + 1) + n - (n * math.log(n) if n else 0.0) for n in range(32)]


def _rest(numbers: Array) -> Array:
    """log n! - n log n + n, by Stirling's series where n is large."""
    few = np.array(_FEW)
    large = np.maximum(numbers, len(few))
    square = large * large
    series = (
        1 / 12 - (1 / 360 - (1 / 1260 - 1 / 1680 / square) / square) / square
    ) / large
    found: Array = np.log(2 * np.pi * large) / 2 + series
    is_few = numbers < len(few)
    found[is_few] = few[numbers[is_few].astype(np.intp)]
    return found
