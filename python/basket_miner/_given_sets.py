"""Itemsets of frames, as this package makes them or as files give them back."""

import ast
import re
from collections.abc import Iterable, Mapping
from typing import Any

import pandas as pd

from ._errors import DataError
from ._frames import column_of

_TEXT = re.compile(r"frozenset\((.*)\)", re.DOTALL)


def demand_frame(given: object, what: str) -> None:
    """`DataError` where what shall be a data frame is none."""
    if not isinstance(given, pd.DataFrame):
        raise DataError(f"{what} are a pandas.DataFrame, not {type(given).__name__}")


def itemsets_of(frame: pd.DataFrame, name: str) -> list[frozenset[Any]]:
    """The itemsets of a column, also as lists, which JSON and Parquet make of them, or as CSV's texts."""
    return [
        value if isinstance(value, frozenset) else _read(value, name)
        for value in column_of(frame, name)
    ]


def _read(value: Any, name: str) -> frozenset[Any]:
    try:
        if isinstance(value, str):
            return frozenset(_of_text(value))
        # Bytes and keys are no items.
        if not isinstance(value, (bytes, Mapping)):
            return frozenset(value)
    except (TypeError, ValueError, SyntaxError):
        pass
    raise DataError(
        f"column {name!r} has itemsets as frozensets, lists, or texts of these with names and "
        f"numbers, and not {value!r}"
    )


def _of_text(text: str) -> Iterable[Any]:
    """The items of the text of a frozenset, a list or a tuple, or `ValueError`."""
    if found := _TEXT.fullmatch(text):
        items: Iterable[Any] = ast.literal_eval(found[1] or "()")
        return items
    listed = ast.literal_eval(text)
    # An array's text is not this: "['a' 'b']" is one name to Python.
    if not isinstance(listed, (list, tuple)) or repr(listed) != text:
        raise ValueError(text)
    return listed
