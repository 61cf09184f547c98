"""What the calls of mlxtend share: frames of itemsets, by the program and for it."""

import itertools
import math
import numbers
from dataclasses import replace
from fractions import Fraction
from typing import Any

import numpy as np
import pandas as pd

from ._baskets import Array, Baskets
from ._data import read
from ._ending import end_of
from ._errors import DataError, InputError
from ._frames import LONG_HINT, column_of, distinct, floats_of, without_drop
from ._given_sets import itemsets_of
from ._keywords import Work
from ._levels import not_above, sized
from ._measures import least_confidence, measures
from ._minimum import MOST_COUNT
from ._program import run
from ._report import rules_frame, sets_frame

# What confidences are fractions of.
_PARTS = 10**9
# So many rules take some gigabytes and minutes.
_MOST_RULES = 5_000_000
# Neighbouring floats of 32 bits are less than half a basket of so many apart.
_MOST_OF_SINGLES = 2**22

# What may help where figures are those of no number of baskets.
ROUNDED_HINT = (
    "; if they were rounded, as by .round(3), give the frame as it was before"
)

# The attribute of a frame that tells how many baskets its supports are shares of.
TRANSACTIONS = "basket_miner_transactions"


def frequent(
    command: str,
    df: pd.DataFrame,
    min_support: float,
    use_colnames: bool,
    max_len: int | None,
    work: Work,
) -> pd.DataFrame:
    """The frame of what a command of the program reports."""
    until = end_of(work["timeout"])
    is_whole = isinstance(max_len, numbers.Integral) and not isinstance(max_len, bool)
    if max_len is not None and (not is_whole or max_len < 1):
        raise DataError(f"max_len is a number from 1 on, not {max_len!r}")
    is_number = isinstance(min_support, numbers.Real)
    if not is_number or not 0 < min_support <= 1:
        raise DataError(f"min_support is above 0 and at most 1: {min_support!r}")
    if not isinstance(df, pd.DataFrame):
        raise DataError(f"a pandas.DataFrame is needed, not {type(df).__name__}")
    baskets = _baskets(df if use_colnames else _told_apart(df))
    if not use_colnames:
        baskets = replace(baskets, labels=range(len(df.columns)))
    least = _least(float(min_support), len(df))
    if max_len is not None and command == "sets":
        shares = replace(baskets, total=len(df))
        frame = sized(shares, least, max_len, work)[["support", "itemsets"]]
    else:
        words = [command, f"--min={least}", f"--miner={work['miner']}"]
        report = run(words, baskets.source, progress=work["progress"], until=until)
        frame = sets_frame(report, baskets, len(df))[["support", "itemsets"]]
        if max_len is not None:
            frame = not_above(frame, max_len)
    frame.attrs.clear()
    frame.attrs[TRANSACTIONS] = len(df)
    return frame


def _told_apart(df: pd.DataFrame) -> pd.DataFrame:
    """The frame, with places as labels where its own are missing or stand twice."""
    try:
        distinct(df.columns.tolist(), "column")
    except DataError:
        return df.set_axis(range(len(df.columns)), axis="columns")
    return df


def _baskets(df: pd.DataFrame) -> Baskets:
    try:
        return read(df, {})
    except DataError as fault:
        said = str(without_drop(fault, "; fill them with False first"))
        raise DataError(said.removesuffix(LONG_HINT)) from None


def _least(min_support: float, transactions: int) -> int:
    """The least count whose support, as a float, is at least `min_support`."""
    count = max(math.floor(min_support * transactions) - 1, 1)
    while transactions and count / transactions < min_support:
        count += 1
    return count


def transactions_of(df: pd.DataFrame, num_itemsets: int | None) -> int:
    """How many baskets the supports of a frame of itemsets are shares of."""
    if missing := {"support", "itemsets"} - set(df.columns):
        raise DataError(f"the frame of itemsets has no column {missing.pop()!r}")
    if TRANSACTIONS in df.attrs:
        return int(df.attrs[TRANSACTIONS])
    if num_itemsets is None:
        raise DataError(
            "the frame does not say how many rows it was made from: give num_itemsets="
        )
    if not 1 <= num_itemsets <= MOST_COUNT:
        raise DataError(
            f"num_itemsets is a number of rows from 1 to {MOST_COUNT}, not {num_itemsets}"
        )
    return int(num_itemsets)


def counted(
    df: pd.DataFrame, transactions: int
) -> tuple[Baskets, dict[frozenset[Any], int]]:
    """The itemsets with their counts, as the program takes them and by themselves."""
    counts = _counts(df, transactions)
    itemsets = itemsets_of(df, "itemsets")
    by_itemset = dict(zip(itemsets, counts.astype(np.int64).tolist()))
    if len(by_itemset) != len(itemsets) or frozenset() in by_itemset:
        raise DataError("the frame has an itemset twice, or one without an item")
    numbering: dict[Any, int] = {}
    lines = [b"(%d)\n" % transactions]
    for itemset, count in by_itemset.items():
        places = [numbering.setdefault(item, len(numbering)) for item in itemset]
        lines.append(b"%s (%d)\n" % (" ".join(map(str, places)).encode(), count))
    baskets = Baskets(b"".join(lines), labels=[*numbering], weight=transactions)
    return baskets, by_itemset


def _counts(df: pd.DataFrame, transactions: int) -> Array:
    """The counts of itemsets by their supports.

    One rounding of the quotient is all that may lie between a support and its share. Floats of 32
    bits tell counts of some million baskets alone.
    """
    is_single = column_of(df, "support").dtype == np.float32
    is_single &= transactions <= _MOST_OF_SINGLES
    shares = floats_of(df, "support")
    counts: Array = np.rint(shares * transactions)
    rounding = 2**-23 if is_single else 1e-12
    are_near = np.allclose(counts / transactions, shares, rtol=rounding, atol=0)
    if not are_near or not (counts <= transactions).all():
        raise DataError(
            f"the supports are no shares of {transactions} baskets{ROUNDED_HINT}"
        )
    if (counts < 1).any():
        raise DataError("a support is above 0")
    return counts


def rules_that_hold(
    baskets: Baskets, least: int, metric: str, threshold: float, until: float | None
) -> pd.DataFrame:
    """The rules whose metric is at least a threshold.

    Args:
        baskets: the counts of itemsets, as `counted` makes them.
        least: no count lies below it.
        metric: the name of a measure.
        threshold: of it.
        until: the time at which the program is ended.
    """
    total = baskets.weight or 1
    # Infinite ones have no fraction.
    near = Fraction(min(max(threshold, 0), _PARTS))
    confidence = least_confidence(metric, near, Fraction(least, total))
    # A little less, since the threshold is compared with floats.
    share = max(math.floor(confidence * _PARTS) - 1, 0)
    if metric in ("support", "leverage"):
        # The leverage is the support without a part.
        least = max(least, math.floor(min(near, Fraction(1)) * total) - 1)

    def holds(both: Array, left: Array, right: Array) -> Array:
        known = measures(both, left, right, total)[metric]
        return np.asarray(known >= threshold)

    words = ["rules", "--form=counts", f"--min={least}", f"--conf={share}/{_PARTS}"]
    report = _rules_report(words, baskets, until)
    return rules_frame(report, baskets, total, holds=holds)


def _rules_report(words: list[str], baskets: Baskets, until: float | None) -> bytes:
    try:
        return run(words, baskets.source, until=until)
    except InputError as fault:
        raise DataError(
            "the frame lacks parts of its itemsets, or their supports do not agree: it must "
            "be a whole frame of apriori or fpgrowth, not of fpmax; support_only=True takes "
            f"such a frame ({fault})"
        ) from fault


def by_support(df: pd.DataFrame, least: float, figures: list[str]) -> pd.DataFrame:
    """The rules of all itemsets of a support, which is all that is known of them.

    An itemset of n items has 2**n - 2 rules: `DataError` where that is more than memory takes.
    """
    supports = floats_of(df, "support").tolist()
    itemsets = [*zip(itemsets_of(df, "itemsets"), supports)]
    itemsets = [(itemset, support) for itemset, support in itemsets if support >= least]
    how_many = sum(max(2 ** len(itemset) - 2, 0) for itemset, _ in itemsets)
    if how_many > _MOST_RULES:
        raise DataError(
            f"these itemsets have {how_many} rules, and support_only=True lists at most {_MOST_RULES}: raise "
            "min_threshold=, or leave out long itemsets, of which one of n items has 2**n - 2 rules"
        )
    rows = [
        (frozenset(left), itemset.difference(left), support)
        for itemset, support in itemsets
        for size in range(len(itemset) - 1, 0, -1)
        for left in itertools.combinations(itemset, size)
    ]
    rules = pd.DataFrame(rows, columns=["antecedents", "consequents", "support"])
    names = dict.fromkeys(["antecedents", "consequents", *figures, "support"])
    return rules.astype({"support": np.float64}).reindex(columns=[*names])
