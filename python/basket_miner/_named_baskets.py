"""Baskets with their names, as offers are made to them."""

import itertools
import os
from collections.abc import Hashable, Iterator
from typing import Any

import pandas as pd

from ._baskets import Baskets
from ._data import Data
from ._errors import DataError
from ._frames import column_of, columns_of_key, without_drop
from ._keywords import Key
from ._lists import each
from ._numbering import numbered, together
from ._tables import frame_of, is_table
from ._wide_frames import wide_pairs


def named_baskets(
    data: Data, basket: Key | None, item: Hashable | None
) -> Iterator[tuple[Hashable, frozenset[Any]]]:
    """The baskets with their names."""
    if is_table(data):
        data = frame_of(data)
    if isinstance(data, pd.DataFrame):
        if (basket is None) != (item is None):
            raise DataError(
                "a frame with a row for each item needs both basket= and item="
            )
        yield from _wide(data) if basket is None else _long(data, basket, item)
        return
    if basket is not None or item is not None:
        raise DataError("basket= and item= go with a data frame")
    if isinstance(data, (str, os.PathLike, Baskets)) or hasattr(data, "tocsr"):
        raise DataError("baskets are a data frame or an iterable of baskets")
    # Only a series has labels of its own.
    names = data.index.tolist() if isinstance(data, pd.Series) else itertools.count()
    for name, labels in zip(names, each(data)):
        try:
            yield name, frozenset(labels)
        except TypeError as fault:
            said = f"a basket is an iterable of hashable items: {fault}"
            raise DataError(said) from fault


def _wide(frame: pd.DataFrame) -> Iterator[tuple[Hashable, frozenset[Any]]]:
    """The rows, by the reader that each question has."""
    try:
        rows, columns, labels = wide_pairs(frame, drop=False)
    except DataError as fault:
        raise without_drop(fault, "; fill them with False first") from None
    items: list[list[Any]] = [[] for _ in range(len(frame))]
    for row, column in zip(rows.tolist(), columns.tolist()):
        items[row].append(labels[column])
    yield from zip(frame.index.tolist(), map(frozenset, items))


def _long(
    frame: pd.DataFrame, basket: Key, item: Hashable
) -> Iterator[tuple[Hashable, frozenset[Any]]]:
    keys = [*columns_of_key(basket), item]
    if any(column_of(frame, name).isna().any() for name in keys):
        told = " and ".join(map(repr, keys))
        raise DataError(f"columns {told} have missing values")
    *parts, (numbers, labels) = (numbered(column_of(frame, key), key) for key in keys)
    places, names = together(parts)
    items: list[list[Any]] = [[] for _ in names]
    for place, label in zip(places.tolist(), map(labels.tolist().__getitem__, numbers)):
        items[place].append(label)
    yield from zip(names.tolist(), map(frozenset, items))
