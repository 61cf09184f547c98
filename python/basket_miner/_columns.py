"""Columns of the frames of reports."""

from collections.abc import Sequence
from fractions import Fraction
from typing import Any

import numpy as np
import pandas as pd

from ._baskets import Array

# Numerators and denominators, place by place.
Fractions = tuple[Array, Array]

_PLAIN = {bool, float, int, str, pd.Timedelta, pd.Timestamp}


def objects_of(values: Sequence[object]) -> Any:
    return pd.Series(values, dtype=object)


def labels_column(labels: Sequence[object]) -> Any:
    """Labels by a type that keeps each of them as it is, which pandas' own guess may not."""
    kinds = {type(label) for label in labels}
    is_plain = len(kinds) == 1 and kinds <= _PLAIN
    return pd.Series(labels, dtype=None if is_plain else object)


def supports_of(counts: Array, weight: int) -> dict[str, Any]:
    # Without baskets a support is not a number.
    with np.errstate(invalid="ignore"):
        return {"count": counts, "support": counts / weight}


def shares_of(counts: Array, weight: int) -> Any:
    if weight == 0:
        return objects_of([None] * len(counts))
    return objects_of([Fraction(count, weight) for count in counts.tolist()])


def quotients_of(fractions: Fractions) -> Array:
    """The floats nearest to fractions: whole numbers of Python divide so, whatever their size."""
    return np.asarray(fractions[0] / fractions[1], dtype=np.float64)


def fractions_of(fractions: Fractions) -> Any:
    tops, bottoms = (part.tolist() for part in fractions)
    return objects_of([*map(Fraction, tops, bottoms)])
