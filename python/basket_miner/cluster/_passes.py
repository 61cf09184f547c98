# mypy: allow-untyped-calls
"""The two passes over parts of the baskets, as tasks of Dask's distributed engine.

Each task is one run of the program over bytes or a file. That the last of them writes what one run over
all parts would write is the law of parts (Savasere, Omiecinski and Navathe 1995), which is proved of the
program; the engine moves the bytes between the tasks.
"""

import os
from collections.abc import Callable, Sequence
from dataclasses import dataclass
from fractions import Fraction
from functools import partial
from pathlib import Path
from typing import Any

from distributed import Client, Future

from .._errors import BasketError
from .._program import run
from ._parts import Parts
from ._question import Question
from ._tasks import Tasks, awaited, tree

# The greatest denominator of a share that the program reads.
MOST = 4_294_967_295


@dataclass(frozen=True)
class Answer:
    """The report over all parts, and the weight of all their baskets."""

    report: bytes
    total: int


def answered(
    client: Client,
    parts: Parts,
    question: Question,
    progress: bool = False,
    until: float | None = None,
) -> Answer:
    """The answer over all parts.

    Raises:
        BasketError: as the program ends over a part, which is named, or over the counts.
        TimedOut: the answer is not there at the time of `time.monotonic` that `until` is.
    """
    tasks = Tasks(client)
    with tasks.given_up():
        answer: Answer = awaited(_submitted(tasks, parts, question), progress, until)
    return answer


def _submitted(tasks: Tasks, parts: Parts, question: Question) -> Future:
    """The future of the answer."""
    size = len(parts.texts)
    names = [f"part {number} of {size}" for number in range(1, size + 1)]

    def over_parts(task: Callable[..., bytes], *given: Any) -> list[Future]:
        return [
            tasks.submit(task, part, name, *given)
            for part, name in zip(parts.texts, names)
        ]

    counting = (*parts.words, *question.counting)
    added, united = partial(_added, parts.counts), partial(_united, parts.words)
    share: Future | str = question.minimum
    if question.minimum.isdecimal():
        weight = tree(tasks.submit, added, over_parts(_counted, b"", counting))
        share = tasks.submit(_share, question.minimum, weight)
    mining = (question.first, *parts.words, *question.mining)
    # All names of a part come first, since a report's order goes by where names first appear.
    naming = None if parts.separator is None else ("items", "--min=0%", *parts.words)
    found = over_parts(_found, share, mining, naming)
    asked = tree(tasks.submit, united, found)
    if naming is None:
        given = zip(parts.texts, names, found)
        own = [tasks.submit(_completed, *part, asked, counting) for part in given]
    else:
        # Names have an order, which the asked sets have.
        own = over_parts(_counted, asked, counting)
    counts = tree(tasks.submit, added, own)
    return tasks.submit(_answered, question, parts.counts, counts)


def _total(counts: bytes) -> int:
    """The count of the empty set, which `count` writes first, as `(15)`, and by names as `15`."""
    return int(counts.partition(b"\n")[0].strip(b"()"))


def _named(
    part: bytes | Path, name: str, words: list[str], asked: bytes | None = None
) -> bytes:
    """Runs the program over a part, and tells which part it refuses."""
    try:
        return run(words, part, sets=asked)
    except BasketError as error:
        where = f"{name}, {part}" if isinstance(part, Path) else name
        raise type(error)(f"{error} ({where})") from None


def _found(
    part: bytes | Path,
    name: str,
    share: str,
    mining: Sequence[str],
    naming: Sequence[str] | None,
) -> bytes:
    """The sets that are frequent in a part, after its names; none, where there is no share."""
    if not share:
        return b""
    names = b"" if naming is None else _named(part, name, [*naming])
    return names + _named(part, name, [*mining, "--min", share])


def _united(words: Sequence[str], *reports: bytes) -> bytes:
    """The sets of some reports, each once, by counting them in no baskets."""
    return run(["count", "--sets", "-", *words, os.devnull], b"".join(reports))


def _counted(
    part: bytes | Path, name: str, asked: bytes, words: Sequence[str]
) -> bytes:
    """The counts of the asked sets in a part."""
    return _named(part, name, ["count", *words], asked)


def _completed(
    part: bytes | Path, name: str, found: bytes, asked: bytes, words: Sequence[str]
) -> bytes:
    """The counts of the asked sets in a part: those that it listed, as it listed them, after the others, which are
    counted."""
    known = {_set_of(line) for line in found.splitlines()}
    lines = asked.splitlines(keepends=True)
    others = b"".join(line for line in lines if _set_of(line) not in known)
    return _counted(part, name, others, words) + found


def _set_of(line: bytes) -> bytes:
    """The set of a line as `1 2 (7)`, of which each run writes the numbers alike."""
    return line.rpartition(b" (")[0]


def _added(words: Sequence[str], *counts: bytes) -> bytes:
    """The counts of some parts, all of which have the same sets, added up."""
    return _counted(b"".join(counts), "the counts of parts", counts[0], words)


def _share(count: str, weights: bytes) -> str:
    """A share that is met in some part by each set that is in so many of all baskets.

    It is the count's share of all baskets, or just below it, where its denominator is too great to be
    read. Where there are fewer baskets than the count, there is no such set and no share.
    """
    total = _total(weights)
    if int(count) > total:
        return ""
    share = Fraction(int(count), total)
    if share.denominator > MOST:
        share = Fraction(share.numerator * MOST // share.denominator, MOST)
    return f"{share.numerator}/{share.denominator}"


def _answered(question: Question, words: Sequence[str], counts: bytes) -> Answer:
    """The report of the question over the counts of all parts."""
    command = [question.command, *question.deciding, *words]
    return Answer(run(command, counts), _total(counts))
