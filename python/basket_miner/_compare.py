"""What changed from some baskets to others."""

import math
from collections.abc import Mapping
from typing import Any, Unpack

import numpy as np
import pandas as pd

from ._baskets import Array
from ._columns import objects_of, quotients_of, shares_of
from ._data import Data, read
from ._errors import DataError
from ._fisher import two_sided
from ._itemsets import sets
from ._keywords import Adjust, Layout, Run, SizedOptions, keywords_of
from ._minimum import Minimum
from ._rules import count
from ._significance import HYPOTHESES, adjusted
from ._signatures import CompareCall
from ._typed import Typed


@Typed[CompareCall]()
def compare(
    before: Data,
    after: Data,
    minimum: Minimum,
    adjust: Adjust | None = "holm",
    hypotheses: int | None = None,
    **keywords: Unpack[SizedOptions],
) -> pd.DataFrame:
    """What changed: each itemset that is frequent in either of two lots of baskets, with its counts in both.

    Takes the baskets and `minimum` as `sets` does, and the keywords for both. Of one frame with a column
    of periods the lots are its parts, as `sale[sale["month"] == 5]`.

    `adjust` corrects the p-values as in `is_significant`: "holm", "bonferroni", "bh", or None. Without
    `hypotheses` m is the number of itemsets that could have been listed: with n items that are frequent
    in either and up to s in a set, the sum over u from 1 to s of C(n, u). The frame has it as
    `attrs["hypotheses"]`.

    Returns a row for each itemset, first those that are frequent before: `itemsets`, `count_before` and
    `count_after`, `support_before` and `support_after`, `difference` (of the supports, after less before),
    `ratio` (after over before, infinite where it was never there), `p_value`, and `p_adjusted`, which is
    at most alpha where the change is significant. With `exact` also `exact_support_before`,
    `exact_support_after`, `exact_difference` and `exact_ratio` (None where `ratio` is infinite).

    The p-value is that of Fisher's exact test, two-sided: twice the lesser of the chances that so many
    or more, and so many or fewer, of the baskets with the itemset are those after, if they are as likely as
    all others to be so. Baskets of a weight count so many times.

    Raises `DataError` where either has no baskets, else what `sets` does.

    Fisher, The Design of Experiments, 1935; the doubling as in Yates, Tests of significance for 2 x 2
    contingency tables, 1984.
    """
    lots = [read(data, _of(Layout, keywords)) for data in (before, after)]
    known = keywords_of(Layout)
    work: Any = {name: value for name, value in keywords.items() if name not in known}
    found = [sets(lot, minimum, **work)["itemsets"] for lot in lots]
    listed = [*dict.fromkeys(itemset for frame in found for itemset in frame)]
    counts = [
        count(lot, listed, **_of(Run, work))["count"].to_numpy(object) for lot in lots
    ]
    # The first row of each is the empty set.
    total, total_after = (int(own[0]) for own in counts)
    if not (total and total_after):
        raise DataError("there are no baskets before, or none after")
    if hypotheses is None:
        hypotheses = _possible_sets(listed)
    given = counts[0][1:], counts[1][1:], total, total_after
    columns = _figures(*given)
    columns["p_adjusted"] = adjusted(columns["p_value"], adjust, hypotheses)
    if work.get("exact"):
        columns |= _exact_figures(*given)
    frame = pd.DataFrame({"itemsets": objects_of(listed), **columns})
    frame.attrs[HYPOTHESES] = hypotheses
    return frame


def _of(kind: type, keywords: Mapping[str, Any]) -> Any:
    """The keywords that are of a kind."""
    known = keywords_of(kind)
    return {name: value for name, value in keywords.items() if name in known}


def _possible_sets(listed: list[frozenset[Any]]) -> int:
    items = sum(len(itemset) == 1 for itemset in listed)
    size = max(map(len, listed), default=0)
    return max(sum(math.comb(items, u) for u in range(1, size + 1)), len(listed))


def _figures(
    before: Array, after: Array, total: int, total_after: int
) -> dict[str, Any]:
    """The figures of counts, which are objects, so that no product of them is too large."""
    gain = after * total - before * total_after
    is_new = before == 0
    ratio = after * total, np.where(is_new, 1, before * total_after)
    was, now = before.astype(np.int64), after.astype(np.int64)
    left = np.full(len(now), total_after)
    return {
        "count_before": was,
        "count_after": now,
        "support_before": was / total,
        "support_after": now / total_after,
        "difference": np.asarray(gain / (total * total_after), dtype=np.float64),
        "ratio": np.where(is_new, np.inf, quotients_of(ratio)),
        "p_value": two_sided(now, left, was + now, total + total_after),
    }


def _exact_figures(
    before: Array, after: Array, total: int, total_after: int
) -> dict[str, Any]:
    shares, shares_after = shares_of(before, total), shares_of(after, total_after)
    pairs = [*zip(shares, shares_after)]
    return {
        "exact_support_before": shares,
        "exact_support_after": shares_after,
        "exact_difference": objects_of([now - was for was, now in pairs]),
        "exact_ratio": objects_of([now / was if was else None for was, now in pairs]),
    }
