"""The calls that list items and itemsets."""

from typing import Unpack, cast

import pandas as pd

from ._calls import asked
from ._data import Data, read
from ._keywords import SetsOptions, SizedOptions, Work, keywords_of
from ._levels import sized
from ._minimum import Minimum
from ._signatures import ItemsetsCall, SetsCall
from ._typed import Typed


@Typed[ItemsetsCall]()
def items(
    data: Data, minimum: Minimum, **keywords: Unpack[SetsOptions]
) -> pd.DataFrame:
    """The items that are in enough baskets, as itemsets of one item each.

    Takes and returns what `sets` does; `miner` and `limit` have no effect.
    """
    return asked("items", data, minimum, keywords)


@Typed[SetsCall]()
def sets(
    data: Data, minimum: Minimum, **keywords: Unpack[SizedOptions]
) -> pd.DataFrame:
    """The frequent itemsets: those that are in enough baskets.

    Takes the baskets as the package's documentation says, and the least support of an itemset,
    `minimum`: an `int` from 1 on is a count of baskets, and all else is a share of all baskets, from
    0 to 1. A `float` or a `decimal.Decimal` means what it prints, so 0.005 is 1/200 exactly, a
    `fractions.Fraction` itself. A text is one of "20", "5%", "0.5%", "1/200", "0.005", of which the
    first is a count.

    Returns a row for each itemset, those of fewer items first: `itemsets` (a `frozenset` of the
    caller's labels), `count` (of the baskets that have all its items) and `support` (this count
    as a share of all baskets, from 0 to 1), and with `exact` also `exact_support`.

    Raises `DataError` where the data or the minimum do not fit, `TooManySets` where there are
    more itemsets than `limit`, else what the program ends with (`BasketError`).

    Agrawal and Srikant, Fast algorithms for mining association rules, 1994.
    """
    if (most := keywords.get("max_items")) is None:
        return asked("sets", data, minimum, keywords)
    work = {
        name: value for name, value in keywords.items() if name in keywords_of(Work)
    }
    return sized(read(data, keywords), minimum, most, cast(Work, work))


@Typed[ItemsetsCall]()
def closed(
    data: Data, minimum: Minimum, **keywords: Unpack[SetsOptions]
) -> pd.DataFrame:
    """The closed frequent itemsets: no larger itemset has the same count.

    Takes and returns what `sets` does; each of its itemsets has the count of the smallest
    closed one around it.

    Pasquier, Bastide, Taouil and Lakhal, Discovering frequent closed itemsets for association
    rules, 1999.
    """
    return asked("closed", data, minimum, keywords)


@Typed[ItemsetsCall]()
def maximal(
    data: Data, minimum: Minimum, **keywords: Unpack[SetsOptions]
) -> pd.DataFrame:
    """The maximal frequent itemsets: no larger itemset is frequent.

    Takes and returns what `sets` does; its itemsets are these and all their parts.

    Bayardo, Efficiently mining long patterns from databases, 1998.
    """
    return asked("maximal", data, minimum, keywords)
