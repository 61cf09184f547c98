"""Which rules are more than chance."""

import math
from typing import get_args

import numpy as np
import pandas as pd

from ._baskets import Array
from ._errors import DataError
from ._fisher import upper_tail
from ._given_sets import itemsets_of
from ._keywords import Adjust
from ._minimum import proportion_of, whole_of
from ._rule_counts import counts_of

# The attribute of a frame or a mask that tells their number.
HYPOTHESES = "hypotheses"


def p_values(rules: pd.DataFrame) -> pd.Series:
    """The p-value of each rule by Fisher's exact test, one-sided.

    It is the chance that at least `count` baskets have both sides, if all ways are equally likely to place
    the consequents in as many of the n baskets as have them, whatever has the antecedents:

        sum over k >= count of C(left, k) * C(n - left, right - k) / C(n, right)

    where `left` baskets have the antecedents and `right` the consequents. A basket of weight 3 counts as
    three, so weights must be numbers of baskets: where they are not, the p-values are too small.

    Takes a frame of `rules` or of `association_rules`, and returns a series on its index. Raises
    `DataError` where the figures of the frame are not those of one number of baskets.

    Fisher, The Design of Experiments, 1935.
    """
    counts = counts_of(rules)
    found = upper_tail(counts.both, counts.left, counts.right, counts.total)
    return pd.Series(found, rules.index, name="p_value")


def is_significant(
    rules: pd.DataFrame,
    alpha: float = 0.05,
    adjust: Adjust | None = "holm",
    *,
    items: int | None = None,
    hypotheses: int | None = None,
) -> pd.Series:
    """Whether each rule is significant: `rules[is_significant(rules)]` are those that are more than chance.

    Args:
        rules: a frame as `p_values` takes it.
        alpha: with "bonferroni" and "holm" the chance to call any rule significant whose sides are
            independent, and with "bh" the share of such rules among the significant ones, at most.
        adjust: with the p-values p1 <= p2 <= .. and m hypotheses, "bonferroni" takes the rules with
            pi <= alpha / m; "holm" those before the first with pi > alpha / (m - i + 1); "bh" those up to
            the last with pi <= alpha * i / m. None takes those with pi <= alpha, and corrects nothing.
        items: how many items could be in a rule, as `len(items(data, minimum))`. Without it all items of
            the baskets count, which the frame has as `attrs["items"]`. Where it has not, as that of baskets
            by a path, of mlxtend's calls, of a cluster, or what was read from a file, only the items of
            the rules count, which are too few: then give the number.
        hypotheses: m itself, in place of what follows.

    m is the number of rules that could have been listed: those whose sides have together up to as many of
    the items as the largest rule has. Rules that are not listed were looked at too, so the number of rows
    is too few. With n items and up to s in a rule m is the sum over u from 2 to s of
    C(n, u) * (2**u - 2). The series that is returned has it in `attrs["hypotheses"]`.

    Returns a series of true and false on the frame's index. Raises `DataError` where an argument or the
    frame does not fit.

    Holm, A simple sequentially rejective multiple test procedure, 1979; Benjamini and Hochberg,
    Controlling the false discovery rate, 1995; the number of hypotheses as in Webb, Discovering
    significant patterns, 2007.
    """
    level = float(proportion_of(alpha, "alpha"))
    if hypotheses is None:
        hypotheses = _possible_rules(rules, items)
    p = p_values(rules)
    found = pd.Series(adjusted(p.to_numpy(), adjust, hypotheses) <= level, rules.index)
    found.attrs[HYPOTHESES] = hypotheses
    return found


def adjusted(p: Array, adjust: Adjust | None, hypotheses: int) -> Array:
    """The least alpha at which each p-value is significant, where the others of the hypotheses are not."""
    if adjust is None:
        return p
    if adjust not in get_args(Adjust):
        told = ", ".join(map(repr, get_args(Adjust)))
        raise DataError(f"adjust is one of {told} or None, not {adjust!r}")
    whole = whole_of(hypotheses)
    if whole is None or whole < len(p):
        raise DataError(
            f"hypotheses is a number of at least the {len(p)} rows, not {hypotheses!r}"
        )
    # A float has no larger number, and no p-value times it is below 1 but 0.
    m = float(min(whole, 10**300))
    if adjust == "bonferroni":
        return np.minimum(p * m, 1.0)
    order = np.argsort(p)
    if adjust == "holm":
        steps = np.maximum.accumulate(p[order] * (m - np.arange(len(p))))
    else:
        steps = p[order] * (m / np.arange(1, len(p) + 1))
        steps = np.minimum.accumulate(steps[::-1])[::-1]
    found = np.empty(len(p))
    found[order] = np.minimum(steps, 1.0)
    return found


def _possible_rules(rules: pd.DataFrame, items: int | None) -> int:
    sides = [itemsets_of(rules, name) for name in ("antecedents", "consequents")]
    size: int = max((len(left) + len(right) for left, right in zip(*sides)), default=0)
    in_rules: int = len(frozenset().union(*{*sides[0], *sides[1]}))
    if items is None:
        items = max(rules.attrs.get("items", 0), in_rules)
    whole = whole_of(items)
    if whole is None or whole < in_rules:
        raise DataError(
            f"items is a number of at least the {in_rules} items of the rules, not {items!r}"
        )
    sizes = range(2, size + 1)
    possible = sum(math.comb(whole, u) * ((1 << u) - 2) for u in sizes)
    # Where rules stand twice, each row counts.
    return max(possible, len(sides[0]))
