"""Baskets from data frames with a row for each basket and a column of truth for each item."""

from collections.abc import Hashable
from typing import Any

import numpy as np
import pandas as pd

from ._baskets import Array, Baskets, Labels, baskets_of, checked_weights, grouped
from ._errors import DataError
from ._frames import LONG_HINT, column_of, distinct, ones, plain, refuse_gaps, there
from ._numbering import addresses


def wide_frame(frame: pd.DataFrame, weight: Hashable | None, drop: bool) -> Baskets:
    """Baskets of such a frame, of which `weight` may name a column that is no item."""
    weights = None
    if weight is not None:
        column = column_of(frame, weight)
        refuse_gaps([there(column)], [weight], False)
        weights = checked_weights(plain(column))
        frame = frame.drop(columns=[weight])
    return baskets_of(*wide_pairs(frame, drop), weights)


def wide_pairs(frame: pd.DataFrame, drop: bool) -> tuple[Array, Array, Labels]:
    """For each true value of such a frame the places of its row and its column, by rows, and the
    labels of the columns."""
    labels = distinct(frame.columns.tolist(), "column")
    if not labels:
        raise DataError("the frame has no column of an item")
    if (table := _table(frame, drop)) is not None:
        rows, columns = np.nonzero(table)
        return rows, columns, labels
    trues = [_trues(frame.iloc[:, at], drop) for at in range(len(labels))]
    numbers = np.repeat(np.arange(len(labels)), [len(places) for places in trues])
    places, numbers = grouped(np.concatenate(trues), numbers)
    return places, numbers, labels


def _table(frame: pd.DataFrame, drop: bool) -> Array | None:
    """For each row and column whether it is true, or 1; nothing where this takes a look at each
    column by itself, as at a sparse one, or to say what is refused.
    """
    kinds: dict[Any, list[int]] = {}
    for at, dtype in enumerate(frame.dtypes):
        kinds.setdefault(dtype, []).append(at)
    if len(kinds) == 1:
        return _table_of_one_type(frame, drop)
    table = np.empty(frame.shape, dtype=bool, order="F")
    for places in kinds.values():
        part = _table_of_one_type(frame.iloc[:, places], drop)
        if part is None:
            return None
        table[:, places] = part
    return table


def _table_of_one_type(frame: pd.DataFrame, drop: bool) -> Array | None:
    dtype = frame.dtypes.iloc[0]
    if isinstance(dtype, pd.SparseDtype) or dtype.kind not in "biufO":
        return None
    if dtype == object:
        return _truths_of_objects(frame.to_numpy(), drop)
    if isinstance(dtype, np.dtype):
        values = frame.to_numpy()
    elif not hasattr(dtype, "numpy_dtype") or (
        not drop and frame.isna().any(axis=None)
    ):
        return None
    else:
        values = frame.to_numpy(dtype=dtype.numpy_dtype, na_value=0)
    if dtype.kind == "b":
        return np.asarray(values)
    is_one = values == 1
    is_good = is_one | (values == 0)
    if drop and dtype.kind == "f":
        is_good |= np.isnan(values)
    return is_one if is_good.all() else None


def _truths_of_objects(values: Array, drop: bool) -> Array | None:
    """For each object whether it is true, or 1; nothing where one is no usual one.

    Each of the usual objects has one address in memory, and addresses are compared as numbers are,
    which takes a small part of the time.
    """
    at = addresses(values)
    is_one = (at == id(True)) | (at == id(1))
    is_good = is_one | (at == id(False)) | (at == id(0))
    if drop:
        for gap in (None, np.nan, pd.NA):
            is_good |= at == id(gap)
    return is_one if is_good.all() else None


def _trues(column: pd.Series, drop: bool) -> Array:
    """The places of the rows where the column is true, or 1."""
    if not isinstance(column.dtype, pd.SparseDtype) or column.dtype.fill_value:
        return np.flatnonzero(_truth(column, drop))
    held = column.array
    is_true = _truth(pd.Series(held.sp_values, name=column.name), drop)
    return np.asarray(held.sp_index.to_int_index().indices[is_true])


def _truth(column: pd.Series, drop: bool) -> Array:
    """For each row whether the column is true there, or 1."""
    if column.dtype == bool:
        return np.asarray(column)
    is_there = there(column)
    refuse_gaps([is_there], [column.name], drop)
    values = column.to_numpy() if column.dtype.kind in "biuf" else None
    if values is None or isinstance(column.dtype, pd.api.extensions.ExtensionDtype):
        values = np.asarray(column, dtype=object)
    try:
        return ones(np.where(is_there, values, 0), f"column {column.name!r}")
    except DataError as fault:
        raise DataError(f"{fault}{LONG_HINT}") from None
