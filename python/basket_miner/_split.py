"""Baskets in two lots: one to find rules in, and one to try them on."""

import itertools
import math
import random
from collections.abc import Hashable
from typing import Any

import numpy as np
import pandas as pd

from ._baskets import Array
from ._data import Data
from ._errors import DataError
from ._frames import column_of, columns_of_key
from ._keywords import Key
from ._lists import each
from ._minimum import proportion_of, whole_of
from ._numbering import numbered, together
from ._tables import frame_of, is_table


def split(
    baskets: Data,
    share: float = 0.5,
    *,
    basket: Key | None = None,
    time: Hashable | None = None,
    seed: int | None = 0,
) -> tuple[Any, Any]:
    """Two lots of baskets: rules that are found in the first are tried on the second.

    Args:
        baskets: a data frame with a row for each item of a basket, of which `basket` names the column or
            the columns; one with a row for each basket; or an iterable of baskets.
        share: how many of the baskets are in the first lot, from 0 to 1, rounded up.
        basket: the rows of one basket stay together.
        time: a column of a frame: the first lot has the earlier baskets. Those of one time stay together,
            in the second lot if need be. Of a basket with several times the first counts.
        seed: of the drawing where there is no `time`; the same seed draws the same baskets. None draws
            none: the first lot is what stands first.

    Returns two frames, series or lists, as what is given, with baskets and rows in their order. Raises
    `DataError` where an argument does not fit.
    """
    part = proportion_of(share, "share")
    if seed is not None and whole_of(seed) is None:
        raise DataError(f"seed is a whole number or None, not {seed!r}")
    if is_table(baskets):
        baskets = frame_of(baskets)
    is_frame = isinstance(baskets, pd.DataFrame)
    if not is_frame and (basket is not None or time is not None):
        raise DataError("basket= and time= go with a data frame")
    if not isinstance(baskets, (pd.DataFrame, pd.Series)):
        listed = [*each(baskets)]
        is_first = _drawn(len(listed), math.ceil(part * len(listed)), seed)
        first = itertools.compress(listed, is_first)
        return [*first], [*itertools.compress(listed, ~is_first)]
    places, size = np.arange(len(baskets)), len(baskets)
    if basket is not None:
        places, size = _places(baskets, basket)
    number = math.ceil(part * size)
    if time is None:
        is_first = _drawn(size, number, seed)
    else:
        is_first = _earlier(column_of(baskets, time), places, number, time)
    return baskets[is_first[places]], baskets[~is_first[places]]


def _places(frame: pd.DataFrame, basket: Key) -> tuple[Array, int]:
    """For each row the place of its basket, and how many baskets there are."""
    keys = columns_of_key(basket)
    if any(column_of(frame, name).isna().any() for name in keys):
        raise DataError(f"{' and '.join(map(repr, keys))} have missing values")
    places, names = together([numbered(column_of(frame, key), key) for key in keys])
    return places, len(names)


def _drawn(size: int, number: int, seed: int | None) -> Array:
    """For each place whether it is one of the first lot."""
    if seed is None:
        return np.arange(size) < number
    chosen = random.Random(seed).sample(range(size), number)
    return np.isin(np.arange(size), chosen)


def _earlier(times: pd.Series, places: Array, number: int, name: Hashable) -> Array:
    """For each place whether its first time is before that of the basket of a number."""
    if times.isna().any():
        raise DataError(f"column {name!r} has missing values")
    try:
        first = times.groupby(places).min()
        ordered = first.sort_values()
    except TypeError as fault:
        raise DataError(
            f"column {name!r} has times of no one order: {fault}"
        ) from fault
    if number == len(ordered):
        return np.ones(len(ordered), dtype=bool)
    return np.asarray(first < ordered.iloc[number])
