"""Baskets from iterables of iterables of labels."""

import itertools
import os
from collections.abc import Hashable, Iterable, Iterator, Mapping
from numbers import Real
from typing import Any

import numpy as np
import pandas as pd

from ._baskets import Array, Baskets, baskets_of
from ._errors import DataError
from ._numbering import in_order, is_missing
from ._warnings import warn

_USUAL = {list, tuple, set, frozenset}
_TABLE_HINT = "; a table is given as a pandas.DataFrame"
_COLUMN_HINT = "; give the frame, with basket= and item="
_FILES_HINT = "; files of parts of the baskets are put together in one, or given to basket_miner.cluster"
_MATRIX_HINT = (
    "a table of these is given as a pandas.DataFrame, with a row for each basket and a column for "
    "each item"
)


def listed(baskets: Any, drop: bool) -> Baskets:
    """Baskets of an iterable of iterables of labels, which are numbered as they come."""
    numbering: dict[Hashable, int] = {}
    numbers: list[int] = []
    sizes: list[int] = []
    has_sets = False
    for basket in each(baskets):
        before = len(numbers)
        is_set = isinstance(basket, (set, frozenset))
        has_sets |= is_set
        try:
            numbers += [
                numbering.setdefault(item, len(numbering))
                for item in (in_order(basket) if is_set else basket)
            ]
        except TypeError as fault:
            raise _no_items(fault) from fault
        sizes.append(len(numbers) - before)
    places = np.repeat(np.arange(len(sizes)), sizes)
    pairs = places, np.array(numbers, np.int64)
    labels = [*numbering]
    _refuse_truths(*pairs, labels)
    if not has_sets:
        _warn_of_rows(pairs[1], sizes, labels)
    return _without_missing(*pairs, labels, drop)


def each(baskets: Any) -> Iterator[Iterable[Hashable]]:
    """The baskets of an iterable, or `DataError` where it, or what it has, are none."""
    refuse_tables(baskets)
    try:
        found = iter(baskets)
    except TypeError as fault:
        raise _no_items(fault) from fault
    for basket in found:
        if type(basket) not in _USUAL:
            _refuse_no_basket(basket, isinstance(baskets, pd.Series))
        yield basket


def _refuse_no_basket(basket: Any, is_column: bool) -> None:
    """Raises `DataError` if one of what shall be baskets is a text, a file, a frame or a row of a table."""
    said = "a basket is an iterable of items, not"
    if isinstance(basket, os.PathLike):
        raise DataError(f"{said} {basket!r}{_FILES_HINT}")
    if isinstance(basket, (str, bytes, bytearray, Mapping)):
        hint = _COLUMN_HINT if is_column else _TABLE_HINT
        raise DataError(f"{said} {basket!r}{_hint_of_text(basket, is_column) or hint}")
    if isinstance(basket, pd.DataFrame):
        raise DataError(
            f"{said} a DataFrame; frames with a row for each item are given with basket= and item=, and others as "
            "one frame, by pandas.concat"
        )
    has_names = hasattr(basket, "keys") and not isinstance(basket, pd.Series)
    if has_names or hasattr(basket, "_fields") or isinstance(basket, np.record):
        raise DataError(f"{said} the row {basket!r} of a table{_TABLE_HINT}")


def _hint_of_text(text: Any, is_column: bool) -> str | None:
    """What to do with a text that has several items, or names a file."""
    if not isinstance(text, str):
        return None
    for separator in ",;|\t":
        if separator in text:
            way = (
                ".str.split({0!r})"
                if is_column
                else "[text.split({0!r}) for text in data]"
            )
            return (
                f"; a text with several items is split first: {way.format(separator)}"
            )
    return _FILES_HINT if "\0" not in text and os.path.isfile(text) else None


def _no_items(fault: TypeError) -> DataError:
    """What is raised where a basket can't be iterated over, or an item has no hash."""
    return DataError(f"baskets are iterables of hashable items: {fault}{_TABLE_HINT}")


def refuse_tables(baskets: Any) -> None:
    """Raises `DataError` if what something iterates over are columns, keys, bytes or lines, and no baskets."""
    hint = None
    if hasattr(baskets, "ngroups"):
        hint = "; groups are given as lists, by .agg(list)"
    elif hasattr(baskets, "get_chunk"):
        hint = "; chunks of a frame with a row for each item are given with basket= and item="
    elif hasattr(baskets, "fetchall"):
        hint = "; what a database returns is given as a pandas.DataFrame, as pandas.read_sql reads it"
    elif isinstance(baskets, np.ndarray):
        is_table = baskets.ndim > 1 or baskets.dtype.names is not None
        hint = _TABLE_HINT if is_table else None
    elif isinstance(baskets, Mapping):
        hint = f"; baskets by their ids are given as .values(){_TABLE_HINT}"
    if hint is not None:
        name = type(baskets).__name__
        raise DataError(f"{name} is not an iterable of baskets{hint}")


def _refuse_truths(places: Array, numbers: Array, labels: list[Hashable]) -> None:
    """Raises `DataError` if the items are the values of a table: true and false, or 0 and 1 again and again."""
    if labels and all(isinstance(label, (bool, np.bool_)) for label in labels):
        raise DataError(
            f"all items of the baskets are true or false: {labels}; {_MATRIX_HINT}"
        )
    are_bits = len(labels) in (1, 2) and all(
        isinstance(label, Real) and label in (0, 1) for label in labels
    )
    if are_bits and len(np.unique(2 * places + numbers)) < len(places):
        raise DataError(
            f"all items of the baskets are 0 or 1, and a basket has one of them twice; {_MATRIX_HINT}"
        )


def _warn_of_rows(numbers: Array, sizes: list[int], labels: list[Hashable]) -> None:
    """Warns if all baskets look like rows of a table, of which a column has a basket's id."""
    if len(sizes) < 2 or len({*sizes}) != 1 or sizes[0] < 2:
        return
    rows = numbers.reshape(len(sizes), -1)
    kinds = np.array([id(type(label)) for label in labels])[rows]
    are_columns = (kinds == kinds[0]).all() and len({*kinds[0].tolist()}) > 1
    if are_columns or not np.isin(rows[:, 0], rows[:, 1:]).any():
        row = [labels[number] for number in rows[0, :5]]
        warn(
            f"each basket has {sizes[0]} items, as {row}, and looks like a row of a table: rows of a "
            "basket's id and an item are given as a pandas.DataFrame, with basket= and item="
        )


def _without_missing(
    places: Array, numbers: Array, labels: list[Hashable], drop: bool
) -> Baskets:
    is_good = np.array([not is_missing(label) for label in labels], dtype=bool)
    if is_good.all():
        return baskets_of(places, numbers, labels)
    if not drop:
        raise DataError('a basket has a missing item; missing="drop" leaves them out')
    kept = is_good[numbers]
    left = list(itertools.compress(labels, is_good))
    return baskets_of(places[kept], (is_good.cumsum() - 1)[numbers[kept]], left)
