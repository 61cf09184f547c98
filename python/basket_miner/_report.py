"""The program's reports as data frames."""

import contextlib
import csv
import gc
import io
from collections.abc import Callable, Iterable, Iterator
from dataclasses import dataclass

import numpy as np
import pandas as pd

from ._baskets import Array, Baskets, Labels
from ._columns import (
    Fractions,
    fractions_of,
    objects_of,
    quotients_of,
    shares_of,
    supports_of,
)
from ._errors import DataError
from ._numbers import Itemset, numbers_of, places_of, shared, split

# Below it, products of two weights are whole numbers that a float holds.
_MOST_WEIGHT_OF_FLOATS = 2**26


# For each rule whether it is wanted, by the weights of the baskets that have both sides, the antecedents, the consequents.
Holds = Callable[[Array, Array, Array], Array]


@dataclass(frozen=True)
class _Figures:
    """Those of rules."""

    counts: Array
    confidences: Fractions
    lifts: Fractions

    def at(self, kept: Array) -> "_Figures":
        """Those of some of the rules."""
        (sure, of_sure), (lift, of_lift) = self.confidences, self.lifts
        return _Figures(
            self.counts[kept],
            (sure[kept], of_sure[kept]),
            (lift[kept], of_lift[kept]),
        )

    def of_sides(self, weight: int) -> tuple[Array, Array]:
        """What the baskets weigh that have the antecedents of each rule, and those with its consequents.

        The confidence and the lift are quotients of these weights and the count, which give them back.
        """
        (sure, of_sure), (lift, of_lift) = self.confidences, self.lifts
        both = self.counts.astype(sure.dtype)
        left = both * of_sure // sure
        if both.dtype == object:
            right = both * weight * of_lift // (left * lift)
        else:
            # Floats, since the product above may have more than 64 bits; the weights are small here.
            right = np.rint(both / left * weight / (lift / of_lift))
        return left.astype(np.int64), right.astype(np.int64)


@dataclass(frozen=True)
class _Rules:
    antecedents: list[Itemset]
    consequents: list[Itemset]
    figures: _Figures


@contextlib.contextmanager
def _without_collections() -> Iterator[None]:
    """Keeps Python from looking for cycles, as it does again and again while many objects are
    made, which takes more time than to make the sets of a report. They have no cycles.
    """
    was_enabled = gc.isenabled()
    gc.disable()
    try:
        yield
    finally:
        if was_enabled:
            gc.enable()


@_without_collections()
def sets_frame(
    report: bytes, baskets: Baskets, weight: int | None = None, *, exact: bool = False
) -> pd.DataFrame:
    """The frame of a report of `items`, `sets`, `closed`, `maximal` or `count`.

    Args:
        report: its bytes.
        baskets: what was asked; their labels stand in the frame.
        weight: of all baskets, which supports are shares of; else the first count of the
            report, as `count` writes it.
        exact: adds `exact_support`, of `Fraction`.

    The columns are `itemsets` (`frozenset`), `count` (`int64`) and `support` (`float64`, the
    float nearest to the exact share). The rows stand as in the report.
    """
    if baskets.separator is None:
        itemsets, counts = _numbered_sets(report, baskets.labels)
    else:
        itemsets, counts = _named_sets(report, baskets.separator)
    whole = int(counts[0]) if weight is None else weight
    columns = {"itemsets": objects_of(itemsets), **supports_of(counts, whole)}
    if exact:
        columns["exact_support"] = shares_of(counts, whole)
    return pd.DataFrame(columns)


@_without_collections()
def rules_frame(
    report: bytes,
    baskets: Baskets,
    weight: int,
    *,
    exact: bool = False,
    holds: Holds | None = None,
) -> pd.DataFrame:
    """The frame of a report of `rules`, of a report by numbers only those rules that hold.

    The columns are `antecedents` and `consequents` (`frozenset`), `count` (`int64`) and
    `support`, `confidence` and `lift` (`float64`, the floats nearest to the exact values); with
    `exact` also `exact_support`, `exact_confidence` and `exact_lift`, of `Fraction`. Behind these
    are `antecedent support` and `consequent support`, and with `exact` the same as `Fraction`.
    """
    if baskets.separator is None:
        found = _numbered_rules(report, baskets.labels, weight, holds)
    else:
        found = _named_rules(report, baskets.separator)
    figures = found.figures
    whole, lifts = baskets.whole(weight), figures.lifts
    if whole != weight:
        lifts = lifts[0].astype(object) * whole, lifts[1].astype(object) * weight
    columns = {
        "antecedents": objects_of(found.antecedents),
        "consequents": objects_of(found.consequents),
        **supports_of(figures.counts, whole),
        "confidence": quotients_of(figures.confidences),
        "lift": quotients_of(lifts),
    }
    if exact:
        columns["exact_support"] = shares_of(figures.counts, whole)
        columns["exact_confidence"] = fractions_of(figures.confidences)
        columns["exact_lift"] = fractions_of(lifts)
    sides = dict(zip(("antecedent", "consequent"), figures.of_sides(weight)))
    columns |= {f"{side} support": counts / whole for side, counts in sides.items()}
    if exact:
        for side, counts in sides.items():
            columns[f"exact_{side}_support"] = shares_of(counts, whole)
    return pd.DataFrame(columns)


def _numbered_sets(report: bytes, labels: Labels | None) -> tuple[list[Itemset], Array]:
    """Sets and counts of lines as `1 2 (7)`."""
    blanks, ends = places_of(report, b" "), places_of(report, b"\n")
    sizes = np.diff(np.searchsorted(blanks, ends), prepend=0)
    numbers = numbers_of(report)
    counts_at = np.cumsum(sizes + 1) - 1
    items = np.delete(numbers, counts_at)
    return split(items, sizes, labels), numbers[counts_at]


def _numbered_rules(
    report: bytes, labels: Labels | None, weight: int, holds: Holds | None
) -> _Rules:
    """Rules of lines as `1 2 => 3 (7) 7/10 7/8`."""
    blanks, ends = places_of(report, b" "), places_of(report, b"\n")
    until_end = np.searchsorted(blanks, ends)
    until_arrow = np.searchsorted(blanks, places_of(report, b"="))
    in_line = np.diff(until_end, prepend=0)
    left = until_arrow - (until_end - in_line)
    right = in_line - left - 3
    numbers = numbers_of(report, is_large=weight >= _MOST_WEIGHT_OF_FLOATS)
    stops = np.cumsum(left + right + 5)
    parts = [numbers[stops - back] for back in (5, 4, 3, 2, 1)]
    figures = _Figures(
        parts[0].astype(np.int64), (parts[1], parts[2]), (parts[3], parts[4])
    )
    parts_at = (stops[:, None] - np.arange(5, 0, -1)).ravel()
    items, sizes = np.delete(numbers, parts_at), np.column_stack((left, right))
    if holds is not None:
        # Before the sides are made, which takes most of the time.
        kept = holds(figures.counts, *figures.of_sides(weight))
        items = items[np.repeat(kept, left + right)]
        figures, sizes = figures.at(kept), sizes[kept]
    sides = shared(items, sizes.ravel(), labels)
    return _Rules(sides[0::2], sides[1::2], figures)


def _named_sets(report: bytes, separator: str) -> tuple[list[Itemset], Array]:
    """Sets and counts of records as `7,bread,milk`."""
    rows = _records(report, separator)
    counts = np.array([int(row[0]) for row in rows], dtype=np.int64)
    return [frozenset(row[1:]) for row in rows], counts


def _named_rules(report: bytes, separator: str) -> _Rules:
    """Rules of records as `7,7/10,7/8,1,bread,milk`."""
    rows = _records(report, separator)
    lefts = [int(row[3]) for row in rows]
    return _Rules(
        [frozenset(row[4 : 4 + left]) for row, left in zip(rows, lefts)],
        [frozenset(row[4 + left :]) for row, left in zip(rows, lefts)],
        _Figures(
            np.array([int(row[0]) for row in rows], dtype=np.int64),
            _parts(row[1] for row in rows),
            _parts(row[2] for row in rows),
        ),
    )


def _records(report: bytes, separator: str) -> list[list[str]]:
    text = io.StringIO(report.decode(), newline="")
    try:
        return [*csv.reader(text, delimiter=separator)]
    except csv.Error as fault:
        raise DataError(
            f"a name is too long for Python's csv: {fault}; csv.field_size_limit() sets "
            "the limit"
        ) from fault


def _parts(texts: Iterable[str]) -> Fractions:
    pairs = [text.split("/") for text in texts]
    tops = np.array([int(top) for top, _ in pairs], dtype=object)
    return tops, np.array([int(bottom) for _, bottom in pairs], dtype=object)
