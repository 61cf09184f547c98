"""Baskets as the program reads them, and the labels that its numbers stand for."""

from collections.abc import Hashable, Sequence
from dataclasses import dataclass, field
from io import FileIO
from pathlib import Path
from typing import Any

import numpy as np

from ._errors import DataError

Labels = Sequence[Hashable]
# Bytes, the path of a file, or a file in memory.
Source = bytes | Path | FileIO
Array = np.ndarray[Any, np.dtype[Any]]

MOST_WEIGHT = 2**32 - 1
# The program refuses an input of so many bytes.
MOST_BYTES = 2**32
# Of CSV, by the program's words.
SEPARATORS = {"comma": ",", "semicolon": ";", "tab": "\t", "pipe": "|"}
SEPARATOR_WORDS = {character: word for word, character in SEPARATORS.items()}
_TOKENS_AT_ONCE = 1 << 20


@dataclass(frozen=True)
class Baskets:
    """An input of the program, as `basket_miner.baskets` returns it.

    Args:
        source: its bytes, or its file.
        words: the options that say how it is written.
        labels: the label of each item by its number; without them the report's own items,
            numbers or names, are the labels.
        weight: what all baskets weigh together, where it is known without the program.
        separator: of a report that is CSV, else nothing.
        total: how many baskets there are, if those without an item count too.
        pairs: the words of `basket pairs` that rewrites the file before it is read, if it has to be.
    """

    source: Source = field(repr=False)
    words: tuple[str, ...] = ()
    labels: Labels | None = field(default=None, repr=False)
    weight: int | None = None
    separator: str | None = None
    total: int | None = None
    pairs: tuple[str, ...] = ()

    def whole(self, weight: int) -> int:
        """What supports are shares of: the total, or where there is none the weight of the baskets."""
        if self.total is None:
            return weight
        if weight > self.total:
            raise DataError(
                f"the total is {self.total}, but the baskets with an item weigh {weight}"
            )
        return self.total


def baskets_of(
    places: Array, numbers: Array, labels: Labels, weights: Array | None = None
) -> Baskets:
    """Baskets from pairs of a basket's place and an item's number.

    Args:
        places: for each pair the place of its basket; the pairs of one basket are neighbours.
        numbers: for each pair the number of its item, below the number of labels.
        labels: of the items.
        weights: by place, where baskets have weights.
    """
    ends = np.ones(len(places), dtype=bool)
    ends[:-1] = places[1:] != places[:-1]
    given = None if weights is None else weights[places[ends]]
    weight = int(ends.sum()) if given is None else int(given.sum())
    return Baskets(_fimi(numbers, ends, len(labels), given), (), labels, weight)


def _fimi(numbers: Array, ends: Array, size: int, weights: Array | None) -> bytes:
    """The lines of baskets, whose last numbers are those at `ends`, all below `size`.

    Each number with what stands after it, and each weight, is taken from a table of texts
    that zero bytes make equally long, unless the table would be longer than the lines.
    """
    if weights is None and len(numbers) < 2 * size:
        after = np.where(ends, ord("\n"), ord(" "))
        return _texts(numbers, after).tobytes().translate(None, b"\0")
    texts = [_texts(np.arange(size), ord(after)) for after in " \n"]
    if weights is not None:
        distinct, places = np.unique(weights, return_inverse=True)
        starts = np.flatnonzero(np.r_[True, ends][:-1])
        numbers = np.insert(numbers + size * ends, starts, 2 * size + places)
        ends = np.zeros(len(numbers), dtype=bool)
        texts.append(np.array([b"%dx " % weight for weight in distinct], dtype=bytes))
    table = np.concatenate(texts)

    def portion(start: int) -> bytes:
        part = slice(start, start + _TOKENS_AT_ONCE)
        content: bytes = table[numbers[part] + size * ends[part]].tobytes()
        return content.translate(None, b"\0")

    return b"".join(map(portion, range(0, len(numbers), _TOKENS_AT_ONCE)))


def _texts(numbers: Array, after: Array | int) -> Array:
    """Numbers as texts with a byte after each, and zero bytes in front."""
    width = len(str(numbers.max(initial=0)))
    rest, table = numbers, np.zeros((len(numbers), width + 1), dtype=np.uint8)
    for column in range(width)[::-1]:
        table[:, column] = np.where(rest > 0, rest % 10 + ord("0"), 0)
        rest = rest // 10
    table[numbers == 0, -2], table[:, -1] = ord("0"), after
    return table.view(f"S{width + 1}").ravel()


def grouped(places: Array, numbers: Array) -> tuple[Array, Array]:
    """The pairs of places, below 2**31, and numbers, below 2**32, with equal places together.

    A pair is sorted as one number, which takes a third of the time of an order by places.
    """
    pairs = places.astype(np.int64) << 32
    pairs |= numbers
    pairs.sort()
    sorted_places = pairs >> 32
    pairs &= 2**32 - 1
    return sorted_places, pairs


def checked_weights(values: Array) -> Array:
    """Weights as whole numbers, or `DataError` where one is none from 1 to 4,294,967,295."""
    is_number = values.dtype.kind in "iuf"
    if not is_number or not ((values >= 1) & (values <= MOST_WEIGHT)).all():
        raise DataError(f"weights are whole numbers from 1 to {MOST_WEIGHT}")
    whole = values.astype(np.int64)
    if not (whole == values).all():
        raise DataError(f"weights are whole numbers from 1 to {MOST_WEIGHT}")
    return whole
