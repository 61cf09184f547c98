# mypy: allow-untyped-calls
"""What workers make of a part of the baskets: its labels, and its text by the numbers of all parts."""

from typing import Any, NamedTuple

import numpy as np
import pandas as pd

from .._baskets import Baskets, baskets_of, grouped
from .._data import read, rows_of
from .._errors import DataError
from .._frames import weights_by_place
from .._keywords import Layout
from .._numbering import numbered
from .._tables import frame_of, is_table
from ._keys import keys_of
from ._labels import Numbering, packed

KEY, BASKET, ITEM, WEIGHT = "key", "basket", "item", "weight"


class Coded(NamedTuple):
    """A part with a row for each item, and its labels, packed.

    A row has a number that equal ids of baskets share, the basket's id and weight, and the place of its
    item among the labels.
    """

    rows: pd.DataFrame
    labels: bytes


def same(piece: bytes) -> bytes:
    return piece


def read_part(part: Any, layout: Layout) -> Baskets:
    """The baskets of a part, which is refused where its baskets are."""
    made = read(part, layout)
    if not isinstance(made.source, bytes) or made.labels is None:
        raise DataError("a part has baskets or is a data frame, and no name of a file")
    return made


def labels_of(part: Baskets) -> bytes:
    return packed(part.labels or ())


def text_of(part: Baskets, numbering: Numbering) -> bytes:
    """The lines of a part's baskets, with the numbers that all parts have."""
    assert isinstance(part.source, bytes)
    numbers = numbering.of(labels_of(part)).tolist()
    own = {b"%d" % at: b"%d" % number for at, number in enumerate(numbers)}
    # A weight, as 3x, stays.
    lines = (
        b" ".join(own.get(word, word) for word in line.split())
        for line in part.source.splitlines()
    )
    return b"".join(b"%s\n" % line for line in lines)


def coded(part: Any, name: str, layout: Layout) -> Coded:
    """The rows of a part, or `DataError` with its name."""
    try:
        return _coded(part, layout)
    except DataError as fault:
        raise DataError(f"{fault} ({name})") from None


def _coded(part: Any, layout: Layout) -> Coded:
    frame = frame_of(part) if is_table(part) else part
    if not isinstance(frame, pd.DataFrame):
        raise DataError(
            f"a part with a row for each item is a data frame, not {type(part).__name__}"
        )
    found = rows_of(frame, layout)
    columns = {
        KEY: keys_of(found.ids)[found.places],
        BASKET: found.ids.take(found.places),
        ITEM: found.numbers,
    }
    if found.weights is not None:
        columns[WEIGHT] = found.weights[found.places]
    return Coded(pd.DataFrame(columns), packed(found.labels))


def labels_of_rows(part: Coded) -> bytes:
    return part.labels


def numbered_rows(part: Coded, numbering: Numbering) -> pd.DataFrame:
    """The rows of a part, with the numbers that items have in all parts."""
    numbers = numbering.of(part.labels)[part.rows[ITEM].to_numpy()]
    return part.rows.assign(**{ITEM: numbers})


def no_rows(is_weighted: bool) -> pd.DataFrame:
    """The columns of numbered rows."""
    columns = [KEY, BASKET, ITEM, *[WEIGHT] * is_weighted]
    return pd.DataFrame(columns=columns, dtype=np.int64).astype({BASKET: object})


def text_of_rows(part: pd.DataFrame) -> bytes:
    """The lines of the baskets of a part that has all rows of each."""
    places, _ = numbered(part[BASKET], BASKET)
    weights = None
    if WEIGHT in part:
        values = part[WEIGHT].to_numpy()
        weights = weights_by_place(places, values, "the frame of all parts")
    places, numbers = grouped(places, part[ITEM].to_numpy())
    labels = range(numbers.max(initial=-1) + 1)
    made = baskets_of(places, numbers, labels, weights)
    assert isinstance(made.source, bytes)
    return made.source
