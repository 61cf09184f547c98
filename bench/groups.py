"""What the bench asks: the commands of workloads.py, by the program and by the C++ program beside it."""

import os
from collections.abc import Iterator
from pathlib import Path
from typing import NamedTuple

from inputs import written
from runs import Asked, measured
from workloads import GIVEN, LARGE, SHARED, TABLES


class Group(NamedTuple):
    """Commands that write the same bytes, and that of the C++ program, if there is one."""

    asked: list[Asked]
    beside: list[Asked]
    is_counted: bool = True

    def all(self) -> list[Asked]:
        return [*self.asked, *self.beside]

    def by_workers(self, spread: str) -> list[Asked]:
        """Each command with one worker, with four, and with four on a processor each, by a library that is loaded;
        and then that of the C++ program."""
        each = [
            one._replace(words=(*one.words, f"--workers={workers}"), loaded=loaded)
            for one in self.asked
            for workers, loaded in ((1, ""), (4, ""), (4, spread))
        ]
        return [*each, *self.beside]


class Groups:
    """All groups, over inputs that are written into a folder."""

    def __init__(self, program: str, beside: str | None, folder: Path) -> None:
        self.program = os.path.abspath(program)
        self.beside = os.path.abspath(beside) if beside else None
        self.data = written(folder)
        self.by_title = {
            title: [self._group(says, commands) for says, commands in groups]
            for title, groups in TABLES.items()
        }
        given = [row for each in GIVEN for row in self._of_given_sets(*each)]
        self.by_title["Given sets"] = given
        self.shared = [self._group(says, [it], is_beside=False) for says, it in SHARED]
        self.shared += [row for row in given if "count" in row.asked[0].words]
        self.large = [
            self._group(says, commands)._replace(is_counted=is_counted)
            for says, commands, is_counted in LARGE
        ]

    def counted(self) -> Iterator[Asked]:
        """The commands whose instructions are counted."""
        for groups in (*self.by_title.values(), self.shared, self.large):
            for group in groups:
                yield from group.all() if group.is_counted else ()

    def _group(self, says: str, commands: list[str], is_beside: bool = True) -> Group:
        asked = [self._asked(says, f"`{each}`", each.split()) for each in commands]
        plain = commands[0].partition(" --miner")[0].split()
        is_known = plain[0] in ("items", "sets") and "--form" not in plain
        if self.beside is None or not is_beside or not is_known:
            return Group(asked, [])
        words = (self.beside, *plain)
        return Group(asked, [Asked(says, "beside", words, self.data[says])])

    def _asked(
        self, says: str, command: str, words: list[str], data: str = ""
    ) -> Asked:
        return Asked(says, command, (self.program, *words), data or self.data[says])

    def _of_given_sets(self, says: str, least: str) -> list[Group]:
        """`count` of sets, beside the search for them, and questions to its counts."""
        data = self.data[says]
        sets, counts = (
            f"{data}.{kind} at {least.replace('/', ' of ')}"
            for kind in ("sets", "counts")
        )
        search, count = ["sets", "--min", least], ["count", "--sets", sets]
        measured((self.program, *search, "--miner", "fpgrowth"), data, sets)
        measured((self.program, *count), data, counts)
        known = ["--min", least, "--form", "counts"]
        apriori = [*search, "--miner", "apriori"]
        rows = (
            self._asked(says, f"`{' '.join(apriori)}`", apriori),
            self._asked(says, f"`count` of these sets, at {least}", count),
            self._asked(
                says, f"`sets` of these counts, at {least}", ["sets", *known], counts
            ),
            self._asked(
                says,
                f"`closed` of these counts, at {least}",
                ["closed", *known],
                counts,
            ),
        )
        return [Group([row], []) for row in rows]
