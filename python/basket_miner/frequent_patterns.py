"""The calls of `mlxtend.frequent_patterns`, carried out by the program basket.

`from basket_miner.frequent_patterns import apriori, association_rules` instead of
`from mlxtend.frequent_patterns import ..` is the only change. Names, arguments and columns are
mlxtend's. As there, each row of the frame is a basket, also one without an item, and a set is
frequent where the float of its support is at least `min_support`. Not here are missing values,
which `null_values` is for: they are refused (`DataError`). Without them that argument, `df_orig`
and `num_itemsets` change nothing.

The rows stand in the program's order. `apriori`, `fpgrowth` and `hmine` return the same rows, and
`low_memory` changes nothing. `timeout=` is an argument of this package alone. All figures are the
floats nearest to the exact values, so a last digit may be another than where floats are divided by
floats.

Raschka, MLxtend: providing machine learning and data science utilities and extensions to
Python's scientific computing stack, Journal of Open Source Software 3 (24), 2018.
"""

from collections.abc import Sequence

import numpy as np
import pandas as pd

from ._ending import end_of
from ._errors import DataError
from ._given_sets import demand_frame
from ._keywords import Miner, Work
from ._measures import MEASURES, measures
from ._mlxtend import (
    TRANSACTIONS,
    by_support,
    counted,
    frequent,
    rules_that_hold,
    transactions_of,
)
from ._mlxtend_words import figures_of, refuse_metrics, refuse_nulls, threshold_of


def apriori(
    df: pd.DataFrame,
    min_support: float = 0.5,
    use_colnames: bool = False,
    max_len: int | None = None,
    verbose: int = 0,
    low_memory: bool = False,
    *,
    timeout: float | None = None,
) -> pd.DataFrame:
    """The frequent itemsets of a frame of true and false (or 1 and 0), a row for each basket.

    Returns the columns `support` (`float64`) and `itemsets` (`frozenset` of the columns'
    places, or with `use_colnames` of their labels). Itemsets of more than `max_len` items are left
    out, and not looked for if there are more than 100,000 in all: the sizes are then found one by
    one. `verbose` above 0 tells each second what runs. `timeout`: after so many seconds the program is
    ended, and `TimedOut` raised. Raises `DataError` where an argument or the frame does not fit.
    """
    work = _work("apriori", verbose, timeout)
    return frequent("sets", df, min_support, use_colnames, max_len, work)


def fpgrowth(
    df: pd.DataFrame,
    min_support: float = 0.5,
    null_values: bool = False,
    use_colnames: bool = False,
    max_len: int | None = None,
    verbose: int = 0,
    *,
    timeout: float | None = None,
) -> pd.DataFrame:
    """The frequent itemsets, as `apriori` returns them, by FP-growth.

    `timeout`: after so many seconds the program is ended, and `TimedOut` raised.
    """
    refuse_nulls(null_values, df)
    work = _work("fpgrowth", verbose, timeout)
    return frequent("sets", df, min_support, use_colnames, max_len, work)


def hmine(
    df: pd.DataFrame,
    min_support: float = 0.5,
    use_colnames: bool = False,
    max_len: int | None = None,
    verbose: int = 0,
    *,
    timeout: float | None = None,
) -> pd.DataFrame:
    """The frequent itemsets, as `apriori` returns them. The program finds them by FP-growth.

    `timeout`: after so many seconds the program is ended, and `TimedOut` raised.
    """
    work = _work("fpgrowth", verbose, timeout)
    return frequent("sets", df, min_support, use_colnames, max_len, work)


def fpmax(
    df: pd.DataFrame,
    min_support: float = 0.5,
    null_values: bool = False,
    use_colnames: bool = False,
    max_len: int | None = None,
    verbose: int = 0,
    *,
    timeout: float | None = None,
) -> pd.DataFrame:
    """The maximal frequent itemsets, of which no larger one is frequent, as `apriori` does.

    A larger itemset that `max_len` leaves out still keeps its parts from being maximal. `timeout`: after
    so many seconds the program is ended, and `TimedOut` raised.
    """
    refuse_nulls(null_values, df)
    work = _work("fpgrowth", verbose, timeout)
    return frequent("maximal", df, min_support, use_colnames, max_len, work)


def _work(miner: Miner, verbose: int, timeout: float | None) -> Work:
    if not isinstance(verbose, (int, np.integer)):
        raise DataError(f"verbose is a number, as 0 or 1, not {verbose!r}")
    return Work(miner=miner, progress=bool(verbose > 0), timeout=timeout)


def association_rules(
    df: pd.DataFrame,
    num_itemsets: int | None = None,
    df_orig: pd.DataFrame | None = None,
    null_values: bool = False,
    metric: str = "confidence",
    min_threshold: float = 0.8,
    support_only: bool = False,
    return_metrics: str | Sequence[str] | None = None,
    *,
    timeout: float | None = None,
) -> pd.DataFrame:
    """The rules between the sides of frequent itemsets whose metric is at least a threshold.

    Takes a frame of `apriori`, `fpgrowth` or `hmine`, from here or from mlxtend; for the latter
    `num_itemsets` must be the number of rows that it was made from. A frame from here knows that
    number, and `num_itemsets` is not looked at.

    Returns `antecedents`, `consequents` and the figures in `return_metrics`, else all: `antecedent
    support`, `consequent support`, `support`, `confidence`, `lift`, `representativity`, `leverage`,
    `conviction`, `zhangs_metric`, `jaccard`, `certainty` and `kulczynski`. Each may be the `metric`.

    With `support_only` the metric is the support, the other figures are missing, and the frame may
    lack parts of its itemsets, as that of `fpmax` does; more than 5,000,000 rules are refused.
    `timeout`: after so many seconds the program is ended, and `TimedOut` raised. Raises `DataError`
    where an argument or the frame does not fit.
    """
    until = end_of(timeout)
    demand_frame(df, "itemsets")
    if not isinstance(num_itemsets, (int, np.integer, type(None))):
        raise DataError(
            f"num_itemsets is a number of rows, not {num_itemsets!r}; give metric= and "
            "min_threshold= by name"
        )
    threshold = threshold_of(min_threshold)
    figures = figures_of(return_metrics)
    refuse_metrics([metric, *figures])
    refuse_nulls(null_values, df_orig)
    if support_only:
        return by_support(df, threshold, figures)
    transactions = transactions_of(df, num_itemsets)
    baskets, counts = counted(df, transactions)
    least = min(counts.values(), default=1)
    found = rules_that_hold(baskets, least, metric, threshold, until)
    left, right = (
        np.array([*map(counts.__getitem__, found[side])], dtype=np.int64)
        for side in ("antecedents", "consequents")
    )
    known = measures(found["count"].to_numpy(), left, right, transactions)
    rules = found[["antecedents", "consequents"]].assign(**known)
    answer = rules[["antecedents", "consequents", *figures]]
    answer.attrs[TRANSACTIONS] = transactions
    return answer
