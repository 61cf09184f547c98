"""Baskets from data frames with a row for each item, and from sparse matrices; columns by their names."""

import contextlib
from collections.abc import Hashable, Iterable
from dataclasses import dataclass
from typing import Any

import numpy as np
import pandas as pd

from ._baskets import Array, Baskets, Labels, baskets_of, checked_weights, grouped
from ._errors import DataError
from ._keywords import Key
from ._numbering import is_missing, numbered, together

# What may help, after a fault. The calls of mlxtend have no such keywords.
DROP_HINT = '; missing="drop" leaves them out'
LONG_HINT = (
    "; a frame with a row for each item of a basket needs basket= and item=, and one of quantities "
    "is given as frame > 0"
)


@dataclass(frozen=True)
class Rows:
    """Rows of a frame, each with an item of a basket, none of which misses a value.

    Args:
        places: for each row the place of its basket, by first appearance.
        ids: those of the baskets, by place.
        numbers: for each row the number of its item, by first appearance.
        labels: those of the items, by number.
        weights: those of the baskets, by place, if they have weights.
    """

    places: Array
    ids: pd.Index | Array
    numbers: Array
    labels: Labels
    weights: Array | None


def long_frame(rows: Rows) -> Baskets:
    """Baskets of rows, of which those of one basket need not stand together."""
    places, numbers = rows.places, rows.numbers
    if (places[1:] < places[:-1]).any():
        places, numbers = grouped(places, numbers)
    return baskets_of(places, numbers, rows.labels, rows.weights)


def long_rows(
    frame: pd.DataFrame,
    basket: Key,
    item: Hashable,
    weight: Hashable | None,
    drop: bool,
) -> Rows:
    """The rows of a frame with a row for each item of a basket."""
    names = [*columns_of_key(basket), item]
    numbering = [numbered(column_of(frame, name), name) for name in names]
    are_there = [numbers >= 0 for numbers, _ in numbering]
    if weight is not None:
        names.append(weight)
        are_there.append(there(column_of(frame, weight)))
    refuse_gaps(are_there, names, drop)
    if not all(is_there.all() for is_there in are_there):
        kept = frame[np.logical_and.reduce(are_there)]
        return long_rows(kept, basket, item, weight, drop)
    *keys, (numbers, items) = numbering
    places, ids = together(keys)
    weights = None
    if weight is not None:
        values = checked_weights(plain(column_of(frame, weight)))
        weights = weights_by_place(places, values, f"column {weight!r}")
    return Rows(places, ids, numbers, items.tolist(), weights)


def columns_of_key(basket: Key) -> list[Hashable]:
    """The columns whose values are a basket's id."""
    if not isinstance(basket, list):
        return [basket]
    if not basket:
        raise DataError(
            "basket= is a column or a list of columns, and this list is empty"
        )
    return basket


def without_drop(fault: DataError, hint: str) -> DataError:
    """A fault of a frame, for a call that has no `missing=`: what else helps against gaps."""
    said = str(fault)
    is_gap = said.endswith(DROP_HINT)
    return DataError(said.removesuffix(DROP_HINT) + (hint if is_gap else ""))


def matrix(values: Any, names: Labels | None) -> Baskets:
    """Baskets of a `scipy.sparse` matrix of ones: a row for each basket, a column for each item."""
    rows = values.tocsr()
    if not rows.has_canonical_format:
        rows = rows.copy()
        rows.sum_duplicates()
    labels: Labels = range(rows.shape[1])
    if names is not None:
        labels = distinct(_names(names), "name")
    if len(labels) != rows.shape[1]:
        raise DataError(f"{len(labels)} names for {rows.shape[1]} columns")
    is_in = ones(rows.data, "the matrix")
    places = np.repeat(np.arange(rows.shape[0]), np.diff(rows.indptr))
    return baskets_of(places[is_in], rows.indices[is_in], labels)


def _names(given: Any) -> list[Hashable]:
    """The names of columns, or `DataError` where they have no order, or are none."""
    if not isinstance(given, (str, bytes, set, frozenset)):
        with contextlib.suppress(TypeError):
            return list(given)
    raise DataError(
        f"names= are the labels of the columns in their order, as a list, not {type(given).__name__}"
    )


def column_of(frame: pd.DataFrame, name: Hashable) -> pd.Series:
    """The column of a name, or `DataError` where there is none or several."""
    try:
        return frame.iloc[:, place_of(frame.columns, name)]
    except DataError as fault:
        is_index = isinstance(name, str) and name in frame.index.names
        hint = ", but an index: give frame.reset_index()" if is_index else ""
        raise DataError(f"{fault}{hint}") from None


def floats_of(frame: pd.DataFrame, name: Hashable) -> Array:
    """The column of a name as floats, or `DataError` where it has something else."""
    try:
        return np.asarray(column_of(frame, name).astype(np.float64))
    except (TypeError, ValueError) as fault:
        if isinstance(fault, DataError):
            raise
        said = f"column {name!r} has values that are no numbers: {fault}"
        raise DataError(said) from fault


def place_of(labels: Iterable[Hashable], name: Hashable) -> int:
    """The place of a name among the labels of columns, or `DataError` likewise."""
    try:
        hash(name)
    except TypeError as fault:
        said = f"a column is given by its name, not as {type(name).__name__}"
        raise DataError(said) from fault
    found = [at for at, label in enumerate(labels) if _are_same(label, name)]
    if len(found) != 1:
        how_many = "several columns" if found else "no column"
        raise DataError(f"the frame has {how_many} {name!r}")
    return found[0]


def _are_same(label: Hashable, name: Hashable) -> bool:
    """Whether a column's label is a name. The label may be `NA`, which nothing is equal to."""
    return label is name or (not is_missing(label) and bool(label == name))


def distinct(labels: list[Hashable], what: str) -> list[Hashable]:
    """The labels, or `DataError` where one is missing or stands twice."""
    seen: set[Hashable] = set()
    for label in labels:
        if is_missing(label):
            raise DataError(f"a {what} has no label, but {label}")
        if label in seen:
            raise DataError(f"{what} {label!r} stands twice")
        seen.add(label)
    return labels


def there(column: pd.Series) -> Array:
    """For each row whether the column has a value."""
    return np.asarray(column.notna())


def refuse_gaps(
    are_there: Iterable[Array], names: Iterable[Hashable], drop: bool
) -> None:
    """`DataError` where a column misses values that are not to be dropped."""
    for is_there, name in zip(are_there, names):
        if not drop and not is_there.all():
            raise DataError(
                f"column {name!r} has missing values, {(~is_there).sum()} of them"
                f"{DROP_HINT}"
            )


def plain(column: pd.Series) -> Array:
    """The values of a column without missing ones, by a type of numpy."""
    values: Array = column.to_numpy()
    return np.array(values.tolist(), dtype=None) if values.dtype == object else values


def weights_by_place(places: Array, values: Array, what: str) -> Array:
    """The weights of baskets from those of their rows, or `DataError` where rows of one basket differ."""
    weights = np.zeros(places.max(initial=-1) + 1, dtype=np.int64)
    weights[places] = values
    if (weights[places] != values).any():
        raise DataError(f"{what} has several weights in one basket")
    return weights


def ones(values: Array, what: str) -> Array:
    """For each value whether it is one, or true."""
    is_one = values == 1
    if not (is_one | (values == 0)).all():
        raise DataError(f"{what} has values other than 0 and 1, false and true")
    return np.asarray(is_one, dtype=bool)
