"""How the public calls run the program."""

import csv
import io
import os
from collections.abc import Hashable, Iterable, Iterator, Mapping, Sequence
from dataclasses import replace
from typing import Any, get_args

import pandas as pd

from ._baskets import Baskets, Source
from ._data import Data, read
from ._ending import end_of
from ._errors import DataError, FileError, UsageError
from ._files import state_of
from ._keywords import CountOptions, Miner, SetsOptions, Work, filled, run_of
from ._minimum import (
    Minimum,
    exact_minimum,
    is_short,
    least_count,
    minimum_of,
    whole_of,
    word_of,
)
from ._pairs import ready
from ._program import run
from ._report import rules_frame, sets_frame

_ITEMS = range(2**32)


def words_of(options: Mapping[str, object]) -> list[str]:
    """The options of the program that say how it works."""
    work = filled(Work, options)
    for name, most in (("workers", 64), ("limit", 2**32 - 1)):
        value = work[name]  # type: ignore[literal-required]
        whole = whole_of(value)
        if value is not None and (whole is None or not 1 <= whole <= most):
            raise UsageError(
                f"{name} is a whole number from 1 to {most}, not {value!r}"
            )
    if work["miner"] not in (None, *get_args(Miner)):
        miners = ", ".join(get_args(Miner))
        raise UsageError(f"miner is one of {miners}, not {work['miner']!r}")
    words = [f"--workers={work['workers'] or 1}"]
    words += [] if work["miner"] is None else [f"--miner={work['miner']}"]
    words += [] if work["limit"] is None else [f"--limit={work['limit']}"]
    return words


def asked(
    command: str,
    data: Data,
    minimum: Minimum,
    options: SetsOptions,
    words: Sequence[str] = (),
) -> pd.DataFrame:
    """The frame of the report of a command, with words of its own, over the caller's data."""
    least, words = minimum_of(minimum), [*words, *words_of(options)]
    run_so, until = run_of(options), end_of(options.get("timeout"))
    baskets = read(data, options)
    with ready(baskets, until) as source:
        before = state_of(source)
        weight = None if is_short(least) else weight_of(baskets, source, until)
        whole = weight if baskets.total is None else baskets.total
        if whole is not None and not isinstance(least, str):
            least = least_count(least, whole)
        command_line = [command, f"--min={word_of(least)}", *words, *baskets.words]
        report = run(command_line, source, progress=run_so["progress"], until=until)
        weight = weight_of(baskets, source, until) if weight is None else weight
        if state_of(source) != before:
            raise FileError(f"{source!s} was changed while it was read")
    whole = baskets.whole(weight)
    if command == "rules":
        frame = rules_frame(report, baskets, weight, exact=run_so["exact"])
    else:
        frame = sets_frame(report, baskets, whole, exact=run_so["exact"])
    # Whoever draws the frame sees below which count it has nothing.
    frame.attrs["minimum"] = least_count(exact_minimum(least), whole)
    if baskets.labels is not None:
        # Whoever tests rules sees how many there could have been.
        frame.attrs["items"] = len(baskets.labels)
    return frame


def weight_of(baskets: Baskets, source: Source, until: float | None) -> int:
    """What all baskets weigh together: known, or counted by the program.

    The program counts the empty set, which each basket has.
    """
    if baskets.weight is not None:
        return baskets.weight
    words = ["count", f"--sets={os.devnull}", *baskets.words]
    return int(run(words, source, until=until).strip(b"()\n"))


def counted(
    data: Data, sets: Iterable[Iterable[Hashable]], options: CountOptions
) -> pd.DataFrame:
    """The frame of what the program counts of some sets over the caller's data."""
    run_so, until = run_of(options), end_of(options.get("timeout"))
    baskets = read(data, options)
    given = [_itemset(itemset) for itemset in _iterated(sets)]
    if baskets.separator is None:
        baskets, text = _as_numbers(baskets, given)
    else:
        text = _as_names(given, baskets.separator)
    words = ["count", *words_of(options), *baskets.words]
    progress = run_so["progress"]
    with ready(baskets, until) as source:
        report = run(words, source, sets=text, progress=progress, until=until)
    if baskets.total is not None:
        # The first line is the empty set.
        first, _, others = report.partition(b"\n")
        whole = baskets.whole(int(first.strip(b"()")))
        line = b"(%d)\n" if baskets.separator is None else b"%d\n"
        report = line % whole + others
    return sets_frame(report, baskets, exact=run_so["exact"])


def _iterated(sets: Iterable[Any]) -> Iterator[Any]:
    try:
        return iter(sets)
    except TypeError as fault:
        raise DataError(f"sets are an iterable of itemsets: {fault}") from fault


def _itemset(itemset: Any) -> list[Hashable]:
    if isinstance(itemset, (str, bytes, pd.DataFrame)):
        raise DataError(f"an itemset is an iterable of items, not {itemset!r}")
    try:
        return list(dict.fromkeys(itemset))
    except TypeError as fault:
        raise DataError(f"an itemset is an iterable of items: {fault}") from fault


def _as_numbers(baskets: Baskets, sets: list[list[Hashable]]) -> tuple[Baskets, bytes]:
    """The text of the sets by numbers, and the baskets with all their labels.

    A label that is in no basket gets a number after the others, and the count 0.
    """
    if baskets.labels is None:
        for itemset in sets:
            for item in itemset:
                # A range is quick to ask for Python's own numbers alone.
                whole = whole_of(item)
                if whole is None or whole not in _ITEMS:
                    raise DataError(f"an item of a FIMI file is a number, not {item!r}")
        return baskets, b"".join(b"%s\n" % _joined(itemset) for itemset in sets)
    numbering = {label: number for number, label in enumerate(baskets.labels)}
    lines = [
        b"%s\n"
        % _joined(numbering.setdefault(item, len(numbering)) for item in itemset)
        for itemset in sets
    ]
    return replace(baskets, labels=[*numbering]), b"".join(lines)


def _joined(items: Iterable[object]) -> bytes:
    return " ".join(map(str, items)).encode()


def _as_names(sets: list[list[Hashable]], separator: str) -> bytes:
    """The records of the sets by names, as reports have them: a count first, here always 0."""
    for itemset in sets:
        for item in itemset:
            _refuse_no_name(item)
    text = io.StringIO(newline="")
    # Python leaves a carriage return without quotes, and the program ends a record there.
    writer = csv.writer(
        text, delimiter=separator, lineterminator="\n", quoting=csv.QUOTE_ALL
    )
    writer.writerows([0, *itemset] for itemset in sets)
    return text.getvalue().encode()


def _refuse_no_name(item: Hashable) -> None:
    """Raises `DataError` if an item can't be a name in a CSV file."""
    if not isinstance(item, str):
        raise DataError(f"an item of a CSV file is a text, not {item!r}")
    if not item or item != item.strip(" \t"):
        raise DataError(
            "an item of a CSV file is not empty and has no space or tab at its ends: "
            f"{item!r}"
        )
    try:
        item.encode()
    except UnicodeEncodeError as fault:
        raise DataError(f"an item of a CSV file is UTF-8: {fault}") from fault
