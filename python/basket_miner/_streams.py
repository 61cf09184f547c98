"""Baskets from bytes, from what is read as bytes, and from frames that come one after another."""

import io
from collections.abc import Hashable, Iterable, Iterator
from typing import Any

import numpy as np
import pandas as pd

from ._baskets import MOST_BYTES, SEPARATORS, Baskets
from ._errors import DataError
from ._foreign import refuse_foreign
from ._frames import Rows
from ._keywords import Layout, refuse_others

_BYTES = (bytes, bytearray, memoryview)
_BLOCK = 1 << 20


def is_stream(data: Any) -> bool:
    """Whether something is bytes, or read as such: an open file, a socket's file, a `copy` of psycopg."""
    is_of_frames = hasattr(data, "get_chunk") or hasattr(data, "tocsr")
    return isinstance(data, _BYTES) or (
        callable(getattr(data, "read", None)) and not is_of_frames
    )


def baskets_of_stream(data: Any, layout: Layout, words: list[str]) -> Baskets:
    """The baskets of bytes that are written as `form=` says, and `words` of the program.

    Raises:
        DataError: nothing says how they are written, or they are of a file that the program can't read.
    """
    if layout["form"] is None:
        raise DataError(
            'bytes and open files are not looked at: give form="fimi", form="baskets" (a record of CSV is a '
            'basket) or form="single" (a record is a basket\'s id and an item); a path is a str or a pathlib.Path'
        )
    is_fimi = layout["form"] == "fimi"
    said = "form" if is_fimi else "form sep header weighted"
    refuse_others(layout, said, "bytes or an open file")
    content = bytes(data) if isinstance(data, _BYTES) else b"".join(_blocks(data))
    refuse_foreign(io.BytesIO(content), "what is given")
    if is_fimi:
        return Baskets(content)
    sep = next(word[6:] for word in words if word.startswith("--sep="))
    return Baskets(content, tuple(words), separator=SEPARATORS[sep])


def _blocks(stream: Any) -> Iterator[bytes]:
    """What is left of a stream, up to what the program refuses as too long."""
    rest = MOST_BYTES
    # A copy of psycopg has blocks of its own.
    size = (_BLOCK,) if isinstance(stream, io.IOBase) else ()
    while rest > 0 and (block := stream.read(*size)):
        if isinstance(block, str):
            raise DataError('a file is opened for bytes: open(path, "rb")')
        rest -= len(block)
        yield bytes(block)


def rows_of_chunks(chunks: Iterable[Rows]) -> Rows:
    """The rows of frames of which a basket may stand in several, by first appearance in all.

    Raises:
        DataError: a basket has several weights.
    """
    ids: dict[Hashable, int] = {}
    labels: dict[Hashable, int] = {}
    weights: dict[int, int] = {}
    places, numbers = [np.empty(0, np.int64)], [np.empty(0, np.int64)]
    for rows in chunks:
        own = _numbers(ids, rows.ids.tolist())
        places.append(own[rows.places])
        numbers.append(_numbers(labels, rows.labels)[rows.numbers])
        if rows.weights is not None:
            for place, weight in zip(own.tolist(), rows.weights.tolist()):
                if weights.setdefault(place, weight) != weight:
                    raise DataError("the chunks have several weights in one basket")
    given = np.fromiter(weights.values(), np.int64, len(weights)) if weights else None
    return Rows(
        np.concatenate(places),
        pd.Index([*ids], dtype=object, tupleize_cols=False),
        np.concatenate(numbers),
        [*labels],
        given,
    )


def _numbers(known: dict[Hashable, int], labels: Iterable[Hashable]) -> Any:
    """The numbers of labels, of which new ones get the next."""
    found = (known.setdefault(label, len(known)) for label in labels)
    return np.fromiter(found, np.int64)
