"""Numbers for the values of a column."""

from collections.abc import Hashable, Iterable, Sequence
from types import SimpleNamespace

from typing import Any

import numpy as np
import pandas as pd

from ._baskets import Array
from ._errors import DataError

# So many first rows tell whether few objects stand in many rows.
_FIRST = 1 << 16


def numbered(column: pd.Series, name: Hashable) -> tuple[Array, pd.Index | Array]:
    """For each row the number of its value by first appearance, below 0 where it is missing,
    and the values by number.

    A column of objects keeps its values. An index would make its numbers floats.

    Raises:
        DataError: a value has no hash, or two texts got one number: pandas numbers texts by what
            stands before a zero byte, "a" and "a\\0b" alike.
    """
    dtype = column.dtype
    try:
        if dtype == object or getattr(dtype, "storage", "") == "python":
            return _of_objects(np.asarray(column, dtype=object), name)
        if isinstance(dtype, np.dtype) and dtype.kind in "iu":
            return _of_numbers(column.to_numpy())
        numbers, values = pd.factorize(column)
    except TypeError as fault:
        raise DataError(
            f"column {name!r} has values without a hash: {fault}"
        ) from fault
    return numbers, values


def together(
    columns: Sequence[tuple[Array, pd.Index | Array]]
) -> tuple[Array, pd.Index | Array]:
    """For each row the number of its values in several numbered columns, and the tuples of these
    values by number. One column stays as it is."""
    if len(columns) == 1:
        return columns[0]
    places = columns[0][0]
    for numbers, values in columns[1:]:
        places, found = pd.factorize(places * len(values) + numbers)
    rows = _first_rows(places, len(found))
    parts = [values.take(numbers[rows]).tolist() for numbers, values in columns]
    return places, pd.Index([*zip(*parts)], dtype=object, tupleize_cols=False)


def _first_rows(places: Array, size: int) -> Array:
    """The row in which each number stands first."""
    rows = np.empty(size, dtype=np.intp)
    # The first row comes last here, and stays.
    rows[places[::-1]] = np.arange(len(places) - 1, -1, -1)
    return rows


def _of_numbers(given: Array) -> tuple[Array, Array]:
    if not len(given) or (given[1:] < given[:-1]).any():
        numbers, values = pd.factorize(given)
        return numbers, values
    # In ascending order, as the ids of a till often are, a number is new or that of the row before.
    is_new = np.ones(len(given), dtype=bool)
    np.not_equal(given[1:], given[:-1], out=is_new[1:])
    return np.cumsum(is_new) - 1, given[is_new]


def _of_objects(given: Array, name: Hashable) -> tuple[Array, Array]:
    """Objects are numbered by their addresses first, where few of them stand in many rows, as
    those that pandas reads from a file: addresses take less time than texts.
    """
    first = addresses(given[:_FIRST])
    if 2 * len(np.unique(first)) > len(first):
        numbers, values = pd.factorize(given)
        _refuse_zero_bytes(given, numbers, values, name)
        return numbers, values
    places, at = pd.factorize(addresses(given))
    objects = given[_first_rows(places, len(at))]
    numbers, values = pd.factorize(objects)
    _refuse_zero_bytes(objects, numbers, values, name)
    return numbers[places], values


def addresses(values: Array) -> Array:
    """The addresses in memory of the objects of an array, as `id` tells that of one."""
    interface = {**values.__array_interface__, "typestr": np.dtype(np.intp).str}
    del interface["descr"]
    # The objects stay as long as the array of their addresses does.
    return np.asarray(SimpleNamespace(__array_interface__=interface, kept=values))


def in_order(labels: Iterable[Hashable]) -> list[Any]:
    """The labels of a set in ascending order, or that of their texts where they can't be compared.

    That in which Python goes through a set of texts differs from process to process.
    """
    try:
        return sorted(labels)
    except TypeError:
        return by_text(labels)


def by_text(labels: Iterable[Hashable]) -> list[Any]:
    """Labels in the order of their texts; a number comes before the text that it prints."""
    return sorted(labels, key=lambda label: (str(label), isinstance(label, str)))


def is_missing(label: object) -> bool:
    """Whether a label is what pandas takes for missing: `None`, `NaN`, `NaT`, `NA`."""
    return pd.api.types.is_scalar(label) and bool(pd.isna(label))


def _refuse_zero_bytes(
    given: Array, numbers: Array, values: pd.Index | Array, name: Hashable
) -> None:
    """`DataError` where two texts got one number."""
    if (numbers < 0).any():
        # Missing values have no number.
        given, numbers = given[numbers >= 0], numbers[numbers >= 0]
    if not len(given):
        return
    is_other = np.asarray(values, dtype=object)[numbers] != given
    # Values that are no texts may differ and rightly be one value for pandas, as tuples with NaN.
    if any(isinstance(value, str) for value in given[is_other.astype(bool)]):
        raise DataError(f"column {name!r} has texts with a zero byte")
