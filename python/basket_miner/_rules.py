"""The calls that list rules, and that count given itemsets."""

from collections.abc import Hashable, Iterable
from typing import Unpack

import pandas as pd

from ._calls import asked, counted
from ._data import Data
from ._given_sets import itemsets_of
from ._keywords import CountOptions, SetsOptions
from ._minimum import Confidence, Minimum, confidence_word
from ._signatures import CountCall, RulesCall
from ._typed import Typed


@Typed[RulesCall]()
def rules(
    data: Data,
    minimum: Minimum,
    confidence: Confidence,
    **keywords: Unpack[SetsOptions],
) -> pd.DataFrame:
    """The association rules between the two sides of frequent itemsets.

    Takes and raises what `sets` does. `confidence` is the least confidence of a rule: a share as
    a `float` (the decimal that it prints), a `Fraction`, or a text as "60%" or "2/3".

    Returns a row for each rule: `antecedents` and `consequents` (each a `frozenset`), `count`
    (of the baskets that have both sides), `support` (this count as a share of all baskets),
    `confidence` (as a share of those that have the antecedents) and `lift` (the confidence over
    the share of all baskets that have the consequents), with `exact` also `exact_support`,
    `exact_confidence` and `exact_lift`; then `antecedent support` and `consequent support` (the
    shares of all baskets that have each side), with `exact` also `exact_antecedent_support` and
    `exact_consequent_support`.

    Agrawal and Srikant, 1994; the lift is the interest of Brin, Motwani, Ullman and Tsur, 1997.
    """
    words = ["--conf=" + confidence_word(confidence)]
    return asked("rules", data, minimum, keywords, words)


@Typed[CountCall]()
def count(
    data: Data,
    sets: pd.DataFrame | Iterable[Iterable[Hashable]],
    **keywords: Unpack[CountOptions],
) -> pd.DataFrame:
    """The supports of given itemsets, frequent or not.

    Takes the baskets as `sets` does, and itemsets of their labels, or a frame that has them in
    its column `itemsets`. A label that no basket has is no error: its count is 0. But an item of a
    FIMI file is a number, and one of a CSV file a text that is not empty and has no space or tab
    at its ends; what can be none is refused.

    Returns the columns of `sets`. The first row is the empty itemset, whose count is the weight
    of all baskets; then comes each other itemset once, in the order given.

    Raises `DataError` where the data or the itemsets do not fit, else what the program ends with.
    """
    given: Iterable[Iterable[Hashable]] = sets
    if isinstance(sets, pd.DataFrame):
        given = itemsets_of(sets, "itemsets")
    return counted(data, given, keywords)
