"""Frequent itemsets and association rules, exactly counted by the program basket.

`items`, `sets`, `closed`, `maximal`, `rules` and `count` run the program and return data frames
in the order of its report. All take the baskets as one of these:

- a data frame with a row for each item of a basket: `basket=` and `item=` name its columns (`basket=`
  also several, as a list), and `weight=` one with the weight of the row's basket, if there is one.
  Rows may stand in any order, and repeated rows count once;
- a data frame with a row for each basket and a column of true and false (or 1 and 0, also
  sparse) for each item; `weight=` names a column that is no item;
- several frames with a row for each item, one after another, as `pandas.read_csv(chunksize=)` gives them;
- a table of another package as one of these frames: what has `to_pandas` (Polars, Arrow), `to_df`
  (DuckDB) or `__dataframe__`;
- an iterable of baskets, each an iterable of hashable labels;
- a matrix of `scipy.sparse` with a row for each basket; `names=` are the labels of its columns;
- the path of a file, which is read as `look(path)` shows if that is sure. `basket=` and `item=` name its
  columns, or give their places from 0 on as in `pandas.read_csv(usecols=)`; or `form=` says "fimi", or of
  CSV "baskets" (a record is a basket) or "single" (a record is a basket's id and an item), with `sep=`,
  `header=` and `weighted=` (a record begins with its weight) as the program has them, and `encoding=`. Text
  of numbers alone is FIMI. A pipe or `/dev/stdin` is copied into memory, and not looked at;
- bytes, or what is read as bytes, as an open file, a pipe or a `cursor.copy` of psycopg, with `form=`;
- what `look` returns of a path, to be read as it shows;
- what `baskets` returns of one of these, for many questions.

Labels come back as they were given; those of a FIMI file are `int`, those of CSV `str`. What looks
like a table is refused as a list of baskets (records, named tuples, rows with names, lists of 0 and
1), and baskets of one size that look like rows of a table bring a warning. A weight is a whole number
from 1 to 4,294,967,295, and stands for that many equal baskets. Missing values are refused
(`DataError`), and with `missing="drop"` left out. A basket without an item counts in no support and
no share; `baskets(data, total=..)` counts such baskets too. Rows of a frame are in the order of the
program's report, where items are numbered by their first appearance, those of a set in ascending
order, or by the places of their columns.

`minimum`, the least support, is a count of baskets as an `int` from 1 on, or a share of all
baskets: a `float` or a `decimal.Decimal` from 0 to 1, which means the decimal that it prints (0.005
is 1/200 exactly), a `fractions.Fraction`, or a text: "20" is a count, "5%", "0.5%", "1/200" and
"0.005" are shares. So 1 is one basket, and 1.0 is all of them. A float of twelve digits or more was
computed, as 50 / 300 or one of `numpy.arange`, and is met by the count that it is the share of.

`help(sets)` has all keywords. Those of the program's work, as `miner` and `workers`, change time and
memory, and no report. The floats of a frame are those nearest to the exact values. An interrupt
ends the program, and so do `timeout=`, a task that is cancelled while it waits for `to_thread(sets,
data, ..)`, and the end of Python, however it comes, on Linux with the tool `setpriv` of util-linux.

The program has the package's version, or a later one of the same major version.

`p_values` and `is_significant` say which rules are more than chance, `is_redundant`, `improvement` and
`is_productive` which say more than shorter ones, and `compare` what changed. `recommend` says what to
offer to baskets by rules (`Recommender` makes the rules ready once for many calls), `evaluate` how good
that is on other baskets, and `split` makes these.

`tidy` makes a row for each item, `explore` writes a page that shows rules in a browser, `page` says
where the page lies that mines in a browser, `certify` checks a report of the program against its
baskets by other code, `basket_miner.frequent_patterns` and `basket_miner.preprocessing` have the calls
of mlxtend, and `basket_miner.cluster` asks parts of the baskets on a Dask cluster.

All errors are of the family `BasketError`, except that a keyword that a call doesn't take is a
`TypeError`, as in all of Python, and that `certify` raises a `ValueError`, which is a `WrongReport` if
the report is wrong. Some have advice as a note, which a traceback shows below the
message; `TooManySets.limit` and `InputError.line` are the numbers that the message has.
"""

import importlib
from typing import TYPE_CHECKING

from ._baskets import Baskets
from ._compare import compare
from ._data import baskets
from ._ending import to_thread
from ._errors import (
    BasketError,
    DataError,
    FileError,
    InputError,
    OutOfMemory,
    ProgramMissing,
    TimedOut,
    TooManySets,
    UsageError,
)
from ._evaluate import evaluate
from ._explore import explore
from ._itemsets import closed, items, maximal, sets
from ._look import Look, look
from ._page import page
from ._recommend import Recommender, recommend
from ._redundancy import improvement, is_productive, is_redundant
from ._rules import count, rules
from ._significance import is_significant, p_values
from ._split import split
from ._tidy import tidy
from ._version import __version__
from .certify import WrongReport, certify

__all__ = [
    "BasketError",
    "Baskets",
    "DataError",
    "FileError",
    "InputError",
    "Look",
    "OutOfMemory",
    "ProgramMissing",
    "Recommender",
    "TimedOut",
    "TooManySets",
    "UsageError",
    "WrongReport",
    "__version__",
    "baskets",
    "certify",
    "closed",
    "compare",
    "count",
    "evaluate",
    "explore",
    "improvement",
    "is_productive",
    "is_redundant",
    "is_significant",
    "items",
    "look",
    "maximal",
    "p_values",
    "page",
    "recommend",
    "rules",
    "sets",
    "split",
    "tidy",
    "to_thread",
]

_MODULES = ("cluster", "frequent_patterns", "plot", "preprocessing")

# A type checker would take every name for one that is here.
if not TYPE_CHECKING:

    def __getattr__(name):
        """A module, imported once it is asked for: some need more packages."""
        if name in _MODULES:
            return importlib.import_module(f"{__name__}.{name}")
        raise AttributeError(f"module {__name__!r} has no attribute {name!r}")
