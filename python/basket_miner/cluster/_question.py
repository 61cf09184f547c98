"""The program's words that can be asked of parts."""

import argparse
import os
from collections.abc import Sequence
from dataclasses import dataclass
from typing import NoReturn

from .._errors import UsageError
from .._keywords import PartLayout
from .._program import run

_COMMANDS = ("items", "sets", "closed", "maximal", "rules")
_OPTIONS = ("min", "conf", "limit", "miner", "workers", "pieces")


@dataclass(frozen=True)
class Question:
    """What is asked of all parts.

    Args:
        command: of the program.
        minimum: the value of `--min`.
        deciding: the options that decide the report: `--min`, `--conf`, `--limit`.
        mining: those by which the sets of a part are found: `--miner`, `--workers`, `--pieces`.
        counting: those by which they are counted: `--workers`, `--pieces`.
        layout: how files are written: `--form`, `--sep`, `--header`, `--weight`.
    """

    command: str
    minimum: str
    deciding: tuple[str, ...]
    mining: tuple[str, ...]
    counting: tuple[str, ...]
    layout: PartLayout

    @property
    def first(self) -> str:
        """The command of the first pass."""
        return "items" if self.command == "items" else "sets"


class _Words(argparse.ArgumentParser):
    """A reader of words whose faults are exceptions."""

    def error(self, message: str) -> NoReturn:
        raise UsageError(f"of parts: {message}")


def question_of(words: Sequence[str]) -> Question:
    """The question of the program's words, which the program has accepted.

    Raises:
        UsageError: they are no question that can be asked of parts, or the program refuses them.
    """
    parser = _Words(add_help=False, allow_abbrev=False)
    parser.add_argument("command", choices=_COMMANDS)
    parser.add_argument("--form", choices=["fimi", "baskets", "single"])
    parser.add_argument("--sep")
    for name in ("header", "weight"):
        parser.add_argument(f"--{name}", action="store_true")
    for name in _OPTIONS:
        parser.add_argument(f"--{name}", required=name == "min")
    given = vars(parser.parse_args(words))

    def kept(*names: str) -> tuple[str, ...]:
        is_given = (name for name in names if given[name] is not None)
        return tuple(f"--{name}={given[name]}" for name in is_given)

    question = Question(
        given["command"],
        given["min"],
        kept("min", "conf", "limit"),
        kept("miner", "workers", "pieces"),
        kept("workers", "pieces"),
        PartLayout(
            form=given["form"],
            sep=given["sep"],
            header=given["header"],
            weighted=given["weight"],
        ),
    )
    _tried(question)
    return question


def _tried(question: Question) -> None:
    """Has the program refuse the words, if it does, over no baskets."""
    run([question.command, *question.deciding, "--form=counts"], b"(0)\n")
    run([question.first, f"--min={question.minimum}", *question.mining])
    run(["count", f"--sets={os.devnull}", *question.counting])
