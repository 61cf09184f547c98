"""Numbers by which a cluster brings the rows of a basket together."""

import datetime
import numbers
import struct
import zlib
from typing import Any

import numpy as np
import pandas as pd

from .._baskets import Array
from .._numbering import is_missing

_SECOND = datetime.timedelta(seconds=1)


def keys_of(ids: pd.Index | Array) -> Array:
    """For each id a number, the same for ids that are equal, whatever their types, in each process.

    The engine's own numbers differ for 1 and 1.0, which are one basket. Different ids may share a
    number: that only brings more baskets to one part. Ids that are no numbers, texts, dates or
    tuples of these all share one.
    """
    if isinstance(ids.dtype, np.dtype) and ids.dtype.kind in "biuf":
        return _bits(np.asarray(ids))
    return np.array([_key(value) for value in ids.tolist()], dtype=np.int64)


def _bits(values: Any) -> Array:
    # Minus zero becomes zero.
    return (np.asarray(values).astype(np.float64) + 0.0).view(np.int64)


def _key(value: Any) -> int:
    if isinstance(value, str):
        return zlib.crc32(value.encode(errors="surrogatepass"))
    if is_missing(value):
        return 0
    if isinstance(value, tuple):
        return hash(tuple(map(_key, value)))
    if isinstance(value, datetime.datetime):
        zone = None if value.tzinfo is None else datetime.timezone.utc
        return (value - datetime.datetime(1970, 1, 1, tzinfo=zone)) // _SECOND
    if isinstance(value, datetime.date):
        return (value - datetime.date(1970, 1, 1)) // _SECOND
    if isinstance(value, (numbers.Number, np.bool_)):
        return _number_key(value)
    return 0


def _number_key(value: Any) -> int:
    """The bits of the number as a float, as `_bits` has them."""
    try:
        nearest = float(getattr(value, "real", value)) + 0.0
    except OverflowError:
        return 0
    return int(struct.unpack("=q", struct.pack("=d", nearest))[0])
