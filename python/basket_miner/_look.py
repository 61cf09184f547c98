"""What a file is, as `basket look` sees it by its first MiB."""

import json
import os
from collections.abc import Mapping
from dataclasses import dataclass, field
from io import FileIO
from pathlib import Path
from typing import Any

from ._baskets import Source
from ._errors import DataError
from ._files import kept
from ._foreign import foreign
from ._look_shown import html_of, text_of
from ._program import run


@dataclass(frozen=True)
class Column:
    """A column of a file.

    Args:
        position: from 0, as `basket=` and `item=` take it; sentences count columns from 1.
        name: in the header, if there is one.
        role: "basket", "item", "mark" (of an item that the header names) or nothing.
        different: how many different values were seen.
        values: the first of them.
    """

    position: int
    name: str
    role: str
    different: int
    values: tuple[str, ...]


@dataclass(frozen=True)
class Reading:
    """A way to read a file.

    Args:
        form: "fimi", "baskets", "single", "counts", or "pairs" where the file has to be rewritten.
        because: what decided.
        doubts: why another way may be right; with none it is sure.
        notes: what else is good to know.
        options: of `basket sets` and others, which read the file or its pairs.
        pairs: the words of `basket pairs` that rewrites the file.
        as_it_is: whether the program reads the file without `basket pairs`.
        commands: those of a shell.
    """

    form: str
    because: tuple[str, ...]
    doubts: tuple[str, ...]
    notes: tuple[str, ...]
    options: tuple[str, ...]
    pairs: tuple[str, ...]
    as_it_is: bool
    commands: tuple[str, ...]

    @property
    def sure(self) -> bool:
        return not self.doubts


@dataclass(frozen=True)
class Look:
    """What a file is, as `look` returns it. It is a guess, which no proof covers.

    In place of the path it has a question read the file as the first of `readings` says, sure or not.

    Args:
        path: of the file.
        kind: "single" (an item in each record), "baskets", "cells" (the items of a basket in one
            cell), "matrix" (a column for each item), "fimi" or "counts"; or else "foreign", "binary",
            "empty", "short", "weights" or "unclear", and then there are no readings.
        what: what a file without readings is.
        remedy: what helps then.
        encoding: of the text.
        separator: a word as `sep=` takes it, or "space"; nothing where fields have fixed places.
        skip: how many records stand above the header.
        header: whether there is one.
        columns: the first 60.
        rows: the first records below the header.
        readings: the most likely first.
        baskets: the first, each with its id and items, as the first reading reads them.
        minimum: what some 150 itemsets meet.
    """

    path: Path
    kind: str
    what: str = ""
    remedy: str = ""
    encoding: str | None = None
    separator: str | None = None
    skip: int = 0
    header: bool = False
    columns: tuple[Column, ...] = ()
    rows: tuple[tuple[str, ...], ...] = field(default=(), repr=False)
    readings: tuple[Reading, ...] = ()
    baskets: tuple[tuple[str, tuple[str, ...]], ...] = field(default=(), repr=False)
    minimum: str | None = None

    @property
    def sure(self) -> bool:
        """Whether there is no doubt about the first reading."""
        return bool(self.readings) and self.readings[0].sure

    @property
    def because(self) -> tuple[str, ...]:
        return self.readings[0].because if self.readings else ()

    @property
    def doubts(self) -> tuple[str, ...]:
        return self.readings[0].doubts if self.readings else ()

    @property
    def notes(self) -> tuple[str, ...]:
        return self.readings[0].notes if self.readings else ()

    @property
    def commands(self) -> tuple[str, ...]:
        return self.readings[0].commands if self.readings else ()

    def __str__(self) -> str:
        return text_of(self)

    def _repr_html_(self) -> str:
        return html_of(self)


def look(path: str | os.PathLike[str]) -> Look:
    """What a file is, by its first MiB: its encoding and separator, its columns and what each is, what
    decided, what is in doubt, and the first baskets.

    A notebook shows it as a table, and `print` as text. A path that is given to `sets` and others with
    nothing said about its form is read so, if that is sure; `sets(look(path), ..)` reads it so in any case.

    Raises:
        DataError: no path is given.
        FileError: the file can't be read.
    """
    if not isinstance(path, (str, os.PathLike)):
        raise DataError(f"look takes the path of a file, not {type(path).__name__}")
    file = Path(os.path.expanduser(path))
    with kept(file, any_kind=True) as source:
        said = json.loads(run(["look", "--json"], source).decode(errors="replace"))
        if said["kind"] == "foreign":
            said["what"], said["remedy"] = _in_python(source, said)
    return _look_of(file, said)


def _in_python(source: Source, said: Mapping[str, str]) -> tuple[str, str]:
    """What a file of another kind is, and what helps where there is Python."""
    is_open = isinstance(source, FileIO)
    file = source.fileno() if isinstance(source, FileIO) else source
    with open(file, "rb", closefd=not is_open) as stream:
        what, remedy = foreign(stream) or (said["what"], said["remedy"])
    # The program may name a shell's command alone.
    remedy = remedy if " " in remedy else f"unpack it, as by {remedy}"
    return what, f"{remedy[0].upper()}{remedy[1:].removesuffix('.')}."


def _look_of(file: Path, said: Mapping[str, Any]) -> Look:
    columns = [
        Column(
            column["number"] - 1,
            column["name"],
            column["role"],
            column["different"],
            tuple(column["values"]),
        )
        for column in said["columns"]
    ]
    return Look(
        file,
        said["kind"],
        said.get("what", ""),
        said.get("remedy", ""),
        said.get("encoding"),
        said.get("separator"),
        said.get("skip", 0),
        said.get("header", False),
        tuple(columns),
        tuple(tuple(row) for row in said["rows"]),
        tuple(map(_reading_of, said["readings"])),
        tuple((basket["id"], tuple(basket["items"])) for basket in said["baskets"]),
        said.get("minimum"),
    )


def _reading_of(said: Mapping[str, Any]) -> Reading:
    return Reading(
        said["form"],
        tuple(said["because"]),
        tuple(said["doubts"]),
        tuple(said["notes"]),
        tuple(said["options"]),
        tuple(said["pairs"]),
        said["as_it_is"],
        tuple(said["commands"]),
    )
