"""The numbers of reports, and itemsets of them."""

import itertools
from typing import Any

import numpy as np

from ._baskets import Array, Labels

Itemset = frozenset[Any]

_BLANKS = bytes.maketrans(b"()/=>", b"     ")


def places_of(report: bytes, byte: bytes) -> Array:
    return np.flatnonzero(np.frombuffer(report, dtype=np.uint8) == byte[0])


def numbers_of(report: bytes, is_large: bool = False) -> Array:
    """All numbers of a report of numbers, of 64 bits or as large as they come."""
    if not report:
        return np.empty(0, dtype=np.int64)
    text = report.translate(_BLANKS)
    if is_large:
        return np.array([int(word) for word in text.split()], dtype=object)
    return np.fromstring(text, dtype=np.int64, sep=" ")


def split(items: Array, sizes: Array, labels: Labels | None) -> list[Itemset]:
    """The labels of items, cut into sets of these sizes."""
    values = iter(items.tolist())
    if labels is not None:
        values = map(labels.__getitem__, values)
    parts = map(itertools.islice, itertools.repeat(values), sizes.tolist())
    return [frozenset(part) for part in parts]


def shared(items: Array, sizes: Array, labels: Labels | None) -> list[Itemset]:
    """As `split`, but each different set is made once: rules have few beside their number."""
    whole = items.astype(np.int64)
    content, width = whole.tobytes(), whole.itemsize
    stops = (width * np.cumsum(sizes)).tolist()
    keys = [content[start:stop] for start, stop in zip([0, *stops], stops)]
    made: dict[bytes, Itemset] = {}
    for key in {*keys}:
        numbers = np.frombuffer(key, dtype=np.int64).tolist()
        made[key] = frozenset(
            numbers if labels is None else map(labels.__getitem__, numbers)
        )
    return [*map(made.__getitem__, keys)]
