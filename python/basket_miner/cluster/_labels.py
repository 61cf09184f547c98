# mypy: allow-untyped-calls
"""Labels on their way between the processes of a cluster.

They move as bytes: the engine would go through a list of texts one by one, which takes some hundred times as long.
"""

from collections.abc import Hashable, Sequence
from dataclasses import dataclass
from functools import cached_property
from itertools import chain

import numpy as np
from distributed.protocol.pickle import dumps, loads

from .._baskets import Array

Labels = list[Hashable]

# Values of these types are equal to their copies.
_PLAIN = {bool, bytes, int, str}
# What texts that are put together begin with, and what is pickled doesn't.
_TEXTS = b"\0"


@dataclass(frozen=True)
class _Copy:
    """Stands for a label that is not equal to its own copy, as a tuple with NaN, by the copy's bytes."""

    content: bytes


class Numbering:
    """The labels of all parts, numbered from 0 in their order.

    It moves as the bytes that it was made of. A process finds the numbers by a dictionary, which it makes once for
    all of its parts.
    """

    def __init__(self, *content: bytes) -> None:
        self._content = b"".join(content)

    def __reduce__(self) -> tuple[type["Numbering"], tuple[bytes]]:
        return Numbering, (self._content,)

    @cached_property
    def _places(self) -> dict[Hashable, int]:
        keys = _loaded(self._content)
        return dict(zip(keys, range(len(keys))))

    def of(self, labels: bytes) -> Array:
        """The number of each of some labels of a part, which are packed."""
        keys = _loaded(labels)
        places = map(self._places.__getitem__, keys)
        return np.fromiter(places, dtype=np.int64, count=len(keys))


def packed(labels: Sequence[Hashable]) -> bytes:
    """Labels as bytes. One that is not equal to its copy becomes bytes first, which are the same in each process."""
    listed = [*labels]
    if {*map(type, listed)} <= _PLAIN or (copies := loads(dumps(listed))) == listed:
        return _dumped(listed)
    return _dumped(
        [
            label if label == copy else _Copy(bytes(dumps(label)))
            for label, copy in zip(listed, copies)
        ]
    )


def unpacked(content: bytes) -> Labels:
    """The labels of bytes."""
    return [
        loads(key.content) if isinstance(key, _Copy) else key
        for key in _loaded(content)
    ]


def joined(*parts: bytes) -> bytes:
    """The labels of some parts, each once, by first appearance."""
    return _dumped([*dict.fromkeys(chain.from_iterable(map(_loaded, parts)))])


def _dumped(keys: Labels) -> bytes:
    """Texts are put together, which takes a third of the time that to pickle them takes."""
    if {*map(type, keys)} == {str}:
        text = "\0".join(keys)  # type: ignore[arg-type]
        if text.count("\0") == len(keys) - 1:
            return _TEXTS + text.encode(errors="surrogatepass")
    return bytes(dumps(keys))


def _loaded(content: bytes) -> Labels:
    if content.startswith(_TEXTS):
        return [*content[1:].decode(errors="surrogatepass").split("\0")]
    keys: Labels = loads(content)
    return keys
