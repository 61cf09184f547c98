"""What a caller may give as baskets."""

import numbers
import os
import re
from collections.abc import Iterator
from dataclasses import replace
from pathlib import Path
from typing import Any, Unpack

import pandas as pd

from ._baskets import Baskets
from ._errors import DataError
from ._frames import Rows, long_frame, long_rows, matrix
from ._keywords import BasketsOptions, Layout, filled, refuse_others
from ._lists import listed, refuse_tables
from ._look import Look
from ._paths import baskets_of_look, baskets_of_path, refuse_words, words_said
from ._recipes import separator_of
from ._signatures import BasketsCall
from ._streams import baskets_of_stream, is_stream, rows_of_chunks
from ._tables import frame_of, is_table
from ._typed import Typed
from ._wide_frames import wide_frame

# A data frame or another table, several of one form, a sparse matrix, an iterable of iterables of labels, a path, what
# `look` returns of one, bytes, an open file, or `Baskets`.
Data = Any


def read(data: Data, keywords: Layout) -> Baskets:
    """The baskets of whatever a public call takes.

    Raises:
        DataError: the data are none of these, or a keyword does not go with them.
    """
    layout = filled(Layout, keywords)
    drop = _drops(layout)
    if isinstance(data, Baskets):
        refuse_others(layout, "", "prepared baskets")
        return data
    if isinstance(data, (str, os.PathLike)):
        _refuse_no_path(data)
        return baskets_of_path(Path(os.path.expanduser(data)), layout)
    if isinstance(data, Look):
        refuse_others(layout, "", "what look returns")
        return baskets_of_look(data)
    if isinstance(data, pd.DataFrame):
        if layout["basket"] is None and layout["item"] is None:
            refuse_others(
                layout, "weight missing", "a frame with a column for each item"
            )
            return wide_frame(data, layout["weight"], drop)
        return long_frame(rows_of(data, layout))
    if is_table(data):
        return read(frame_of(data), keywords)
    if hasattr(data, "tocsr"):
        refuse_others(layout, "names", "a sparse matrix")
        return matrix(data, layout["names"])
    if is_stream(data):
        refuse_words(layout)
        words = words_said(layout, separator_of(Path(), layout))
        return baskets_of_stream(data, layout, words)
    if layout["basket"] is not None or layout["item"] is not None:
        return long_frame(rows_of_chunks(_chunks(data, layout)))
    refuse_tables(data)
    refuse_others(layout, "missing", "an iterable of baskets")
    return listed(data, drop)


def _chunks(data: Any, layout: Layout) -> Iterator[Rows]:
    """The rows of frames that come one after another."""
    try:
        chunks = iter(data)
    except TypeError as fault:
        raise DataError(
            f"basket= and item= go with a data frame or several: {fault}"
        ) from fault
    for chunk in chunks:
        frame = frame_of(chunk) if is_table(chunk) else chunk
        if not isinstance(frame, pd.DataFrame):
            name = "item" if layout["basket"] is None else "basket"
            raise DataError(
                f"{name}= does not go with an iterable of baskets, but with a data frame or several"
            )
        yield rows_of(frame, layout)


def rows_of(frame: pd.DataFrame, keywords: Layout) -> Rows:
    """The rows of a frame with a row for each item."""
    layout = filled(Layout, keywords)
    refuse_others(layout, "basket item weight missing", "a frame")
    basket, item = layout["basket"], layout["item"]
    if basket is None or item is None:
        raise DataError("a frame with a row for each item needs both basket= and item=")
    return long_rows(frame, basket, item, layout["weight"], _drops(layout))


def _drops(layout: Layout) -> bool:
    """Whether missing values are left out."""
    if layout["missing"] not in ("refuse", "drop"):
        raise DataError(f'missing is "refuse" or "drop", not {layout["missing"]!r}')
    return layout["missing"] == "drop"


@Typed[BasketsCall]()
def baskets(data: Data, **keywords: Unpack[BasketsOptions]) -> Baskets:
    """Baskets that many questions are asked of, made for the program once.

    Takes the baskets as the package's documentation says, and returns what each question takes in
    their place, without a keyword that says how they lie. A path is looked at, and kept: each
    question reads the file.

    `total` is what all baskets weigh together, also those without an item and those that were
    left out before: supports, minimums and lifts are then shares of it. A question raises
    `DataError` if the baskets that it sees weigh more. Prepared baskets keep their total, unless
    another is given.
    """
    total = keywords.get("total")
    is_whole = isinstance(total, numbers.Integral) and not isinstance(total, bool)
    if total is not None and (not is_whole or total < 1):
        raise DataError(f"total is a number from 1 on, not {total!r}")
    made = read(data, keywords)
    return made if total is None else replace(made, total=int(total))


def _refuse_no_path(path: str | os.PathLike[str]) -> None:
    """Raises `DataError` if a text is an address, as `s3://shop/a.csv`, or can't be a path."""
    if isinstance(path, str) and re.match(r"[A-Za-z][A-Za-z0-9+.-]*://", path):
        raise DataError(
            f"{path} is no path of a file: fetch it first, or read it by pandas or Dask and "
            "give the frame"
        )
    if "\0" in os.fspath(path):
        raise DataError("a path has no zero byte")
    try:
        os.fsencode(path)
    except UnicodeEncodeError as fault:
        raise DataError(f"a path can't have this character: {fault}") from fault
    if "\n" in os.fspath(path):
        raise DataError(
            f"a path of a file is given, and {os.fspath(path)[:30]!r}.. is text of several lines: "
            "write it to a file, or give a list of baskets"
        )
