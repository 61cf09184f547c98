"""The reports that tests make, checked by code that shares nothing with the program."""

import functools
import importlib.util
import sys
from itertools import chain
from pathlib import Path
from types import ModuleType
from typing import NamedTuple

FILE = Path(__file__).parents[2] / "python/basket_miner/certify.py"
# Baskets and a report of so many bytes together are checked in a second or two.
MOST_BYTES = 500_000

VALUES = {
    "--min": "minimum",
    "--conf": "confidence",
    "--form": "form",
    "--sep": "sep",
}
FLAGS = {"--header": "header", "--weight": "weighted"}
OTHERS = ("--miner", "--workers", "--pieces", "--limit")

Question = tuple[tuple[str, str | bool], ...]


class Asked(NamedTuple):
    """What words ask, and the name of the baskets' file, which is `-` for standard input."""

    question: Question
    name: str


@functools.cache
def checker() -> ModuleType:
    """The module that checks, without the package that it is in, which needs pandas."""
    spec = importlib.util.spec_from_file_location("certify", FILE)
    assert spec and spec.loader
    module = importlib.util.module_from_spec(spec)
    sys.modules[spec.name] = module
    spec.loader.exec_module(module)
    return module


def split(word: str) -> list[str]:
    """An option and its value, if they are one word."""
    return word.split("=", 1) if word.startswith("--") else [word]


def asked_by(words: list[str]) -> Asked | None:
    """What the words ask of baskets, if it is that."""
    found: dict[str, str | bool] = {"ask": words[0] if words else ""}
    name = "-"
    given = chain.from_iterable(map(split, words[1:]))
    for word in given:
        if word in FLAGS:
            found[FLAGS[word]] = True
        elif word in VALUES:
            found[VALUES[word]] = next(given)
        elif word in OTHERS:
            next(given)
        elif word.startswith("--"):
            return None
        else:
            name = word
    is_known = found["ask"] in checker().ASKS
    has_baskets = found.get("form", "fimi") in checker().FORMS
    return Asked(tuple(found.items()), name) if is_known and has_baskets else None


@functools.lru_cache(maxsize=100)
def certify(question: Question, baskets: bytes, report: bytes) -> None:
    checker().certify(report, baskets, **dict(question))


def check(words: list[str], given: bytes, report: bytes, place: str | Path) -> None:
    """Raises `ValueError` if a report is wrong that can be checked quickly.

    Args:
        words: of the command line.
        given: standard input.
        report: what the program wrote.
        place: the folder in which it ran.
    """
    if not (asked := asked_by(words)):
        return
    if asked.name in ("-", "/dev/stdin"):
        baskets = given
    elif (file := Path(place, asked.name)).is_file():
        baskets = file.read_bytes()
    else:
        # A pipe is read once.
        return
    if len(baskets) + len(report) <= MOST_BYTES:
        certify(asked.question, baskets, report)
