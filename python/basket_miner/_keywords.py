"""The keywords that the public calls share: the type, the default and the meaning of each, once."""

from collections.abc import Hashable, Mapping, Sequence
from typing import (
    Annotated,
    Any,
    Literal,
    NamedTuple,
    TypedDict,
    TypeVar,
    cast,
    get_args,
    get_type_hints,
)

import numpy as np

from ._baskets import Labels
from ._errors import DataError

# A column, or a list of columns.
Key = Hashable | Sequence[Hashable]
Missing = Literal["refuse", "drop"]
Form = Literal["fimi", "baskets", "single"]
Miner = Literal["apriori", "eclat", "eclat-diff", "eclat-bits", "fpgrowth"]
# How p-values are corrected for their number.
Adjust = Literal["holm", "bonferroni", "bh"]

Options = TypeVar("Options")


class Keyword(NamedTuple):
    """What is beside the type of a keyword: its default, and what help says of it."""

    default: Any
    said: str


class PartLayout(TypedDict, total=False):
    """How the baskets lie in a frame, in a file, or in parts of these."""

    basket: Annotated[
        Key | None,
        Keyword(
            None,
            "of a frame or a file with a row for each item: the column of the basket's id, or a list of "
            'the columns that make it, as ["store", "receipt"]. A column of a file is its name in the '
            "header or its place from 0 on, as pandas.read_csv(usecols=) takes them.",
        ),
    ]
    item: Annotated[Hashable | None, Keyword(None, "the column of the item.")]
    weight: Annotated[
        Hashable | None,
        Keyword(
            None,
            "the column of the basket's weight, a whole number from 1 to 4,294,967,295.",
        ),
    ]
    missing: Annotated[
        Missing,
        Keyword(
            "refuse", 'missing values are an error ("refuse") or left out ("drop").'
        ),
    ]
    form: Annotated[
        Form | None,
        Keyword(
            None,
            'of a file: "fimi", or of CSV "baskets" (a record is a basket) or "single" (a record is '
            "a basket's id and an item). Without it, basket= and item= it is read as look(path) shows.",
        ),
    ]
    sep: Annotated[
        str | None,
        Keyword(
            None,
            'of CSV: "comma", "semicolon", "tab" or "pipe", or that character; without it a comma, or a '
            "tab where the name ends in .tsv.",
        ),
    ]
    header: Annotated[bool, Keyword(False, "of CSV: the first record is a header.")]
    weighted: Annotated[
        bool, Keyword(False, 'of CSV "baskets": a record begins with its weight.')
    ]
    encoding: Annotated[
        str | None,
        Keyword(
            None,
            'of a file: "utf-8", "utf-16", "cp1252", "cp850", "mac_roman" or other names that Python has '
            "for these.",
        ),
    ]


class Layout(PartLayout, total=False):
    """How the baskets lie in what is given."""

    names: Annotated[
        Labels | None,
        Keyword(None, "of a sparse matrix: the labels of its columns."),
    ]


class Run(TypedDict, total=False):
    """How the program runs, and what the frame has."""

    workers: Annotated[int, Keyword(1, "how many threads there are, from 1 to 64.")]
    exact: Annotated[
        bool, Keyword(False, "adds columns of fractions.Fraction beside the floats.")
    ]
    progress: Annotated[
        bool,
        Keyword(False, "shows what runs, in a terminal or a notebook."),
    ]
    timeout: Annotated[
        float | None,
        Keyword(
            None,
            "after so many seconds the program is ended, and TimedOut raised; lists and frames are "
            "read to their end first.",
        ),
    ]


class Work(Run, total=False):
    """How the program mines, and what the frame has."""

    miner: Annotated[
        Miner | None,
        Keyword(
            None,
            '"apriori" (the default), "eclat", "eclat-diff", "eclat-bits" or "fpgrowth"; only time '
            "and memory differ.",
        ),
    ]
    limit: Annotated[
        int | None,
        Keyword(
            None, "how many itemsets there may be; with more, TooManySets is raised."
        ),
    ]


class SetsOptions(Layout, Work):
    """The keywords of the calls that list itemsets and rules."""


class SizedOptions(SetsOptions, total=False):
    """The keywords of `sets`."""

    max_items: Annotated[
        int | None,
        Keyword(
            None,
            "how many items an itemset may have; larger ones are not looked for.",
        ),
    ]


class CountOptions(Layout, Run):
    """The keywords of `count`."""


class BasketsOptions(Layout, total=False):
    """The keywords of `baskets`."""

    total: Annotated[
        int | None,
        Keyword(None, "how many baskets there are, those without an item included."),
    ]


class PartOptions(PartLayout, Work):
    """The keywords of the calls that ask parts."""


class PrepareOptions(PartLayout, total=False):
    """The keywords of `cluster.prepare`."""

    progress: Annotated[
        bool, Keyword(False, "shows the engine's bar while a bag or a frame is read.")
    ]
    timeout: Annotated[
        float | None,
        Keyword(
            None, "after so many seconds the reading is given up, and TimedOut raised."
        ),
    ]


def keywords_of(kind: type) -> Mapping[str, tuple[Any, Keyword]]:
    """The type of each keyword of a kind, and what is beside it."""
    hints = get_type_hints(kind, include_extras=True)
    return {name: get_args(hint) for name, hint in hints.items()}  # type: ignore[misc]


def filled(kind: type[Options], given: Mapping[str, object]) -> Options:
    """All keywords of a kind: those that are given, and the defaults of the others."""
    known = keywords_of(kind)
    values = {name: given.get(name, word.default) for name, (_, word) in known.items()}
    return cast(Options, values)


def run_of(given: Mapping[str, object]) -> Run:
    """How the program is run, or `DataError` where what is true or false is something else."""
    run = filled(Run, given)
    for name in ("exact", "progress"):
        value = run[name]  # type: ignore[literal-required]
        if not isinstance(value, (bool, np.bool_)):
            raise DataError(f"{name} is True or False, not {value!r}")
    return run


def changed(kind: type, given: Mapping[str, object]) -> list[str]:
    """The names of the keywords of a kind that are given and don't have their defaults."""
    return [
        name
        for name, (_, word) in keywords_of(kind).items()
        if not _is_default(given.get(name), word.default)
    ]


def refuse_others(layout: Layout, allowed: str, what: str) -> None:
    """Raises `DataError` if a keyword is given that is none of the allowed ones."""
    for name in changed(Layout, layout):
        if name not in allowed.split():
            raise DataError(f"{name}= does not go with {what}")


def _is_default(value: Any, default: Any) -> bool:
    # A column's label or the names of columns may be equal to nothing, or to an array.
    return value is None or (isinstance(value, (bool, str)) and value == default)
