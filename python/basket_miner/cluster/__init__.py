# mypy: allow-untyped-calls
"""The package's questions over parts of the baskets, on a cluster of Dask's distributed engine.

Parts are one of these:

- a list of files, FIMI or CSV, that all workers can read by these names;
- a Dask data frame with a row for each item of a basket, of which `basket=` and `item=` name the
  columns: it is shuffled by its baskets first, so that no basket is cut;
- a list of delayed parts or of futures, each a data frame of such rows;
- without `basket=` and `item=` whole baskets: a `dask.bag` of them, a Dask data frame with a column
  of true and false for each item, or a list of delayed parts or of futures, each of which is what
  `basket_miner.sets` takes, but no file.

Without `client=` the client is the current one, as Dask finds it. The workers need this package, in
one version everywhere. Those that have no program get that of this machine. What is missing is said
with the worker's name (`ProgramMissing`).

Two passes go over the parts. First each part is asked for the sets that are frequent in it at
the share; then the sets that some part has are counted in each, except those whose counts it told
(in CSV files all are). The counts are added up, a few parts at a time, and the question is asked of the sums. Each step is a run of the program. The
report is, byte for byte, that of one run over all parts concatenated: the law of parts,
which is proved of the program, says so of everything but the engine's moving of the bytes from
one run to the next, and of CSV files, that counts by names are read back as they were written,
which is tested. A minimum that is a count takes a pass more, in front: the weights of the
parts, whose sum makes a share of the count.

Items of bags and frames are numbered before the passes, from 0, by first appearance over the
parts in their order. Names of CSV files stay names. A worker that is lost is the engine's to
handle: it runs the lost steps again. If a question is interrupted or fails, its runs of the
program end, on all workers.
"""

from collections.abc import Sequence
from fractions import Fraction
from typing import Any, Unpack

import pandas as pd

from .._extras import demand_package

demand_package("distributed", "cluster")
from distributed import Client

from .._baskets import Baskets
from .._calls import words_of
from .._ending import end_of
from .._keywords import PartOptions, PrepareOptions, run_of
from .._minimum import (
    Confidence,
    Minimum,
    confidence_word,
    is_short,
    least_count,
    minimum_of,
    word_of,
)
from .._report import rules_frame, sets_frame
from .._typed import Typed
from ._parts import Parts, prepared
from ._passes import answered
from ._question import question_of
from ._signatures import PrepareCall, RulesCall, SetsCall
from ._workers import client_of

__all__ = ["Parts", "closed", "maximal", "prepare", "report", "rules", "sets"]


@Typed[PrepareCall]()
def prepare(
    parts: Any, *, client: Client | None = None, **keywords: Unpack[PrepareOptions]
) -> Parts:
    """Parts that several questions can be asked of, without being read and shuffled again.

    Args:
        parts: as this module says. Files are all alike, each with its own header; those of
            `form="single"` may cut a basket, and are refused.
        client: of the cluster; without it the current one, as Dask finds it.

    Returns:
        The parts, for the first argument of the other calls. Their `labels` say what the numbers
        in `report` stand for; of files, which have numbers themselves, they are `None`.

    Raises:
        DataError: the parts are none of these, there is none, they have bad values, or a keyword
            does not go with them.
        TimedOut: the labels of all parts are not known in time.
    """
    asked, until = client_of(client), end_of(keywords.get("timeout"))
    return prepared(parts, asked, keywords, keywords.get("progress", False), until)


def report(
    parts: Any, *words: str, client: Client | None = None, progress: bool = False
) -> bytes:
    """The report of the program over all parts, in its bytes.

    Args:
        parts: as this module says, or what `prepare` returns.
        words: those of the program without a file, as `"rules", "--min", "1%", "--conf", "1/2"`.
            `--form`, `--sep`, `--header` and `--weight` are how files are written; `--miner`,
            `--workers` and `--pieces` how each part is mined; `--limit` bounds the sets of the
            whole.
        client: of the cluster; without it the current one, as Dask finds it.
        progress: shows the engine's bar.

    Raises:
        UsageError: the words are no such question, or the program refuses them.
        BasketError: as the program ends over a part, which is named, or over the counts.
    """
    asked, question = client_of(client), question_of(words)
    ready = prepared(parts, asked, question.layout, progress)
    return answered(asked, ready, question, progress).report


@Typed[SetsCall]()
def sets(
    parts: Any,
    minimum: Minimum,
    *,
    client: Client | None = None,
    **keywords: Unpack[PartOptions],
) -> pd.DataFrame:
    """The frequent itemsets over all parts: the frame that `basket_miner.sets` gives.

    Args:
        parts: as this module says, or what `prepare` returns.
        minimum: a count or a share of all baskets, as `basket_miner.sets` takes it.
        client: of the cluster; without it the current one, as Dask finds it.

    Raises:
        BasketError: as `prepare` and `report` do; `TooManySets` above the limit, which is that of
            the whole.
    """
    return _frame("sets", minimum, parts, client, keywords)


@Typed[SetsCall]()
def closed(
    parts: Any,
    minimum: Minimum,
    *,
    client: Client | None = None,
    **keywords: Unpack[PartOptions],
) -> pd.DataFrame:
    """The closed itemsets over all parts, as `basket_miner.closed`; arguments as in `sets`."""
    return _frame("closed", minimum, parts, client, keywords)


@Typed[SetsCall]()
def maximal(
    parts: Any,
    minimum: Minimum,
    *,
    client: Client | None = None,
    **keywords: Unpack[PartOptions],
) -> pd.DataFrame:
    """The maximal itemsets over all parts, as `basket_miner.maximal`; arguments as in `sets`."""
    return _frame("maximal", minimum, parts, client, keywords)


@Typed[RulesCall]()
def rules(
    parts: Any,
    minimum: Minimum,
    confidence: Confidence,
    *,
    client: Client | None = None,
    **keywords: Unpack[PartOptions],
) -> pd.DataFrame:
    """The rules over all parts, as `basket_miner.rules`; other arguments as in `sets`."""
    words = ["--conf=" + confidence_word(confidence)]
    return _frame("rules", minimum, parts, client, keywords, words)


def _frame(
    command: str,
    minimum: Minimum,
    parts: Any,
    client: Client | None,
    options: PartOptions,
    words: Sequence[str] = (),
) -> pd.DataFrame:
    least, until = minimum_of(minimum), end_of(options.get("timeout"))
    asked, run_so = client_of(client), run_of(options)
    ready = prepared(parts, asked, options, run_so["progress"], until)
    if isinstance(least, Fraction) and not is_short(least):
        # What all baskets weigh together, as each question finds out.
        weighing = question_of(["items", "--min=1/1"])
        least = least_count(least, answered(asked, ready, weighing, until=until).total)
    given = [command, f"--min={word_of(least)}", *words, *words_of(options)]
    answer = answered(asked, ready, question_of(given), run_so["progress"], until)
    baskets = Baskets(b"", labels=ready.labels, separator=ready.separator)
    if command == "rules":
        return rules_frame(answer.report, baskets, answer.total, exact=run_so["exact"])
    return sets_frame(answer.report, baskets, answer.total, exact=run_so["exact"])
