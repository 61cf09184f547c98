"""Frequent itemsets up to a size, without mining larger ones where these are many.

One run may find some sets, of which the larger ones are left out. If there are more, the sizes are found one by one, as
Apriori does: each set is counted whose parts are all frequent. The program counts either way.
"""

import itertools
import time
from dataclasses import replace
from typing import Any

import pandas as pd

from ._baskets import Baskets
from ._calls import asked, counted, weight_of, words_of
from ._ending import end_of
from ._errors import DataError, FileError, TooManySets
from ._files import state_of
from ._keywords import Work
from ._minimum import Minimum, whole_of
from ._pairs import ready

# So many sets take less time in one run than a run for each size.
_FEW = 100_000
# To write and count so many takes more time than most questions do.
_MOST_CANDIDATES = 2_000_000

_Places = tuple[int, ...]


def sized(baskets: Baskets, minimum: Minimum, most: int, options: Work) -> pd.DataFrame:
    """The frame of `sets` without those of more than `most` items."""
    if (whole := whole_of(most)) is None or whole < 1:
        raise DataError(f"max_items is a number from 1 on, not {most!r}")
    # Runs have limits of their own here.
    words_of(options)
    until = end_of(options.get("timeout"))
    with ready(baskets, until) as source:
        before = state_of(source)
        weight = weight_of(baskets, source, until)
        one = replace(baskets, source=source, weight=weight, pairs=())
        found = _Sizes(one, minimum, options, until).up_to(whole)
        if state_of(source) != before:
            raise FileError(f"{source!s} was changed while it was read")
    limit = options.get("limit")
    if limit is not None and len(found) > limit:
        raise TooManySets(f"basket: more than {limit} frequent itemsets")
    return found


class _Sizes:
    """A question for sets of limited size."""

    def __init__(
        self, baskets: Baskets, minimum: Minimum, options: Work, until: float | None
    ) -> None:
        self._baskets, self._minimum = baskets, minimum
        self._options, self._until = options, until

    def up_to(self, most: int) -> pd.DataFrame:
        if most == 1:
            return self._asked("items")
        try:
            found = self._asked("sets", limit=_FEW)
        except TooManySets:
            found = self._by_level(most)
        return not_above(found, most)

    def _by_level(self, most: int) -> pd.DataFrame:
        frames = [self._asked("items")]
        least = frames[0].attrs["minimum"]
        labels = [label for itemset in frames[0]["itemsets"] for label in itemset]
        level: list[_Places] = [(place,) for place in range(len(labels))]
        for _ in range(most - 1):
            if _pairs(level) > _MOST_CANDIDATES:
                return self._asked("sets")
            if not (level := _joined(level)):
                break
            sets = [[labels[place] for place in places] for places in level]
            # The first row is the empty set.
            work = self._work(miner=None, limit=None)
            found = counted(self._baskets, sets, work)[1:]
            is_frequent = (found["count"] >= least).tolist()
            level = [*itertools.compress(level, is_frequent)]
            frames.append(found[is_frequent])
        whole = pd.concat(frames, ignore_index=True)
        whole.attrs["minimum"] = least
        return whole

    def _asked(self, command: str, limit: int | None = None) -> pd.DataFrame:
        return asked(command, self._baskets, self._minimum, self._work(limit=limit))

    def _work(self, **changed: Any) -> Any:
        """The options of a run, with what is left of the time."""
        work: dict[str, Any] = {**self._options, **changed}
        if self._until is not None:
            work["timeout"] = max(self._until - time.monotonic(), 1e-3)
        return work


def not_above(found: pd.DataFrame, most: int) -> pd.DataFrame:
    """The itemsets of at most so many items."""
    return found[found["itemsets"].map(len) <= most].reset_index(drop=True)


def _pairs(level: list[_Places]) -> int:
    """How many pairs of sets of equal size differ in their last items alone."""
    sizes = [len([*group]) for _, group in itertools.groupby(level, _all_but_last)]
    return sum(size * (size - 1) // 2 for size in sizes)


def _joined(level: list[_Places]) -> list[_Places]:
    """The sets of one item more all of whose parts are among some sets of equal size, in order."""
    known = {*level}
    found = []
    for _, group in itertools.groupby(level, _all_but_last):
        for one, other in itertools.combinations(group, 2):
            places = (*one, other[-1])
            if all(part in known for part in itertools.combinations(places, len(one))):
                found.append(places)
    return found


def _all_but_last(places: _Places) -> _Places:
    return places[:-1]
