"""The most popular items, as far as rules tell."""

from typing import Any

import numpy as np
import pandas as pd

from ._given_sets import itemsets_of
from ._numbering import by_text
from ._rule_counts import RuleCounts


def popular_items(rules: pd.DataFrame, counts: RuleCounts) -> dict[Any, int]:
    """The items that are a side of a rule by themselves, with their counts, the most frequent first."""
    known: dict[Any, int] = {}
    for name, own in (("antecedents", counts.left), ("consequents", counts.right)):
        for items, count in zip(itemsets_of(rules, name), own.tolist()):
            if len(items) == 1:
                (label,) = items
                known[label] = count
    order = sorted(by_text(frozenset(known)), key=known.__getitem__, reverse=True)
    return {label: known[label] for label in order}


def with_popular(counts: RuleCounts, popular: dict[Any, int]) -> RuleCounts:
    """The counts of rules, and then of the rules that offer each popular item to whoever comes."""
    own = np.fromiter(popular.values(), np.int64, len(popular))
    return RuleCounts(
        np.concatenate((counts.both, own)),
        np.concatenate((counts.left, np.full(len(own), counts.total))),
        np.concatenate((counts.right, own)),
        counts.total,
    )
