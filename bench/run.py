#!/usr/bin/env python3
"""Times a program over baskets of the generators here, and writes RESULTS.md here.

It counts instructions too, by valgrind, and tells which commands take more than 3% more of them
than the RESULTS.md that was there says. With --instructions it does so alone, on any load, and
writes nothing. With --data it times `sets` over the files NAME.dat of a folder alone, as those of the
FIMI repository, and writes nothing. With --beside the C++ program of yardstick.cpp runs in turn with it over the same
files, and has to write the same bytes. With --stages the program that times the stages of `sets`
runs too, with --frames and --cluster those that time the Python package, and with --page the one
that times the page with the program in it."""

import argparse
import datetime
import os
import subprocess
import sys
import tempfile
from pathlib import Path

import instructions
import workloads
from groups import Group, Groups
from results import table
from runs import Asked, Turns, adopt, in_turn, output
from workloads import FIMI, INPUTS, OTHER, STAGES

HERE = Path(__file__).resolve().parent
RESULTS = HERE / "RESULTS.md"

# How often each command of a row runs, one after another in each turn, and those of one worker and of four.
RUNS, RUNS_BY_WORKERS = 3, 5

COUNT = instructions.COLUMN
NAMES = ["Baskets", "Command"]
HEAD = [*NAMES, "Lines", "Seconds", "Clock", "MB", "Load", COUNT]
BESIDE = ["C++: times its seconds", "C++: million instructions", "C++: times these"]
BY_WORKERS = [
    *NAMES,
    "Lines",
    "One",
    "Its processors",
    "Four",
    "Their processors",
    "Ratio",
    "Spread",
    "Its ratio",
]
BY_WORKERS += ["MB of one", "MB of four", "Load", COUNT]
A_MILLION = ["One: a million", "Four: a million", "MB of one: a million"]

TOLD = f"""
*Seconds* are those of processors, and *Clock* is of the same run: of {RUNS} in turn, or {RUNS_BY_WORKERS} with one worker and four, the one that took the least by the clock. *MB* is the most memory of all runs. *Load* is how many processors other work took just before, the most of all turns. *Spread* is by four workers too, each thread on a processor of its own (spread.c): a kernel may leave two on one processor while others have none, and that of this virtual machine does. Larger inputs are run once. *{COUNT}* are those of one worker, counted by {{by}}: they are the same on any load, and missing where to count them takes too long. The tables were measured one after another, so compare seconds of one table, not of two."""
TOLD_BESIDE = """
*C++*: the program yardstick.cpp here ran in turn and wrote the same bytes."""


def inputs() -> list[str]:
    """What each input is: how it is made, and what the field knows that is like it."""
    rows = []
    for says, generators in INPUTS.items():
        made = f"`{generators[0]}`"
        if len(generators) > 1:
            made += f" and {len(generators) - 1} more with other last seeds"
        rows.append([says, made, workloads.known_as(generators[0])])
    told = (
        "All inputs are synthetic: a generator of this folder makes each from a seed. None is the data after which "
        "it is named; `make bench DATA=FOLDER` times real files."
    )
    head = ["Baskets", "Generator", "Made after"]
    return ["", "## Inputs", "", told, "", *table(head, rows)]


def given_files(program: str, folder: Path) -> list[str]:
    """Each miner over files of one's own."""
    rows = []
    for path in sorted(folder.glob("*.dat")):
        least = FIMI.get(path.stem, OTHER)
        asked = [
            Asked(path.stem, each, (os.path.abspath(program), *each.split()), str(path))
            for each in workloads.by_each_miner(f"sets --min {least}")
        ]
        turns = in_turn(asked, RUNS)
        for one, run in zip(asked, turns.runs):
            figures = f"{run.seconds:.3f}", f"{run.clock:.3f}", f"{run.memory:.0f}"
            row = [one.says, f"`{one.command}`", f"{turns.lines:,}", *figures]
            rows.append([*row, f"{turns.load:.1f}"])
    return table(HEAD[:-1], rows)


class Bench:
    """The tables of RESULTS.md."""

    def __init__(self, groups: Groups, spread: str) -> None:
        self.groups = groups
        self.spread = spread
        self.counted = instructions.counted(groups.counted())

    def by_title(self) -> list[str]:
        text: list[str] = []
        for title, groups in self.groups.by_title.items():
            head = HEAD + BESIDE * any(group.beside for group in groups)
            rows = [row for group in groups for row in self._rows(group)]
            text += ["", f"## {title}", "", *table(head, rows)]
        return text

    def shared(self) -> list[str]:
        rows = [row for it in self.groups.shared for row in self._by_workers(it)]
        title = "## One worker and four, by the clock"
        return ["", title, "", *table(BY_WORKERS, rows)]

    def large(self) -> list[str]:
        head = BY_WORKERS + A_MILLION + BESIDE * bool(self.groups.beside)
        rows = []
        for group in self.groups.large:
            millions = int(group.asked[0].says.split()[0].replace(",", "")) / 1e6
            rows += self._by_workers(group, millions)
        return ["", "## Larger inputs, by the clock", "", *table(head, rows)]

    def stages(self, program: str) -> list[str]:
        text = ["", "## Stages of `sets`"]
        for says, least in STAGES:
            words = [os.path.abspath(program), least, str(RUNS)]
            with open(self.groups.data[says], "rb") as data:
                said = subprocess.check_output(words, stdin=data, text=True)
            text += ["", f"{says}, at {least}:", "", "```", said.strip(), "```"]
        return text

    def printed(self, title: str, script: str) -> list[str]:
        """What a script prints that measures the program in another place."""
        given = {**os.environ, "BASKET": self.groups.program}
        said = subprocess.check_output([os.path.abspath(script)], env=given, text=True)
        return ["", f"## {title}", "", "```", said.strip(), "```"]

    def of_counts(self) -> list[str]:
        """The instructions alone."""
        head, known = [*NAMES, COUNT], dict.fromkeys(self.groups.counted())
        rows = [[it.says, it.command, self._millions(it)] for it in known]
        return table(head, rows)

    def _rows(self, group: Group) -> list[list[str]]:
        turns = in_turn(group.all(), RUNS)
        rows = []
        for asked, run in zip(group.asked, turns.runs):
            figures = f"{run.seconds:.3f}", f"{run.clock:.3f}", f"{run.memory:.0f}"
            rows.append([asked.says, asked.command, f"{turns.lines:,}", *figures])
            rows[-1] += [f"{turns.load:.1f}", self._millions(asked)]
            rows[-1] += self._beside(group, asked, run.seconds, turns)
        return rows

    def _by_workers(self, group: Group, millions: float = 0) -> list[list[str]]:
        """The rows of a group, of one run each if they say what a million baskets take."""
        turns = in_turn(
            group.by_workers(self.spread), 0 if millions else RUNS_BY_WORKERS
        )
        rows = []
        for at, asked in enumerate(group.asked):
            one, four, spread = turns.runs[3 * at : 3 * at + 3]
            seconds = [one.clock, one.seconds, four.clock, four.seconds]
            row = [asked.says, asked.command, f"{turns.lines:,}"]
            row += [f"{each:.3f}" for each in seconds]
            row += [f"{one.clock / four.clock:.2f}"]
            row += [f"{spread.clock:.3f}", f"{one.clock / spread.clock:.2f}"]
            row += [f"{run.memory:.0f}" for run in (one, four)]
            row += [f"{turns.load:.1f}", self._millions(asked)]
            if millions:
                row += [f"{run.clock / millions:.3f}" for run in (one, four)]
                row += [f"{one.memory / millions:.0f}"]
            rows.append(row + self._beside(group, asked, one.seconds, turns))
        return rows

    def _beside(
        self, group: Group, asked: Asked, seconds: float, turns: Turns
    ) -> list[str]:
        """How many times what the C++ program takes, and its instructions."""
        if not group.beside:
            return []
        cells = [f"{seconds / max(turns.runs[-1].seconds, 0.001):.1f}"]
        if not group.is_counted:
            return cells
        cells.append(self._millions(group.beside[0]))
        return [*cells, f"{float(self._millions(asked)) / float(cells[-1]):.1f}"]

    def _millions(self, asked: Asked) -> str:
        found = self.counted.get((asked.words, asked.data))
        return "" if found is None else f"{found / 1e6:.1f}"


def machine() -> str:
    with open("/proc/cpuinfo", encoding="utf-8") as said:
        found = [line.partition(": ")[2] for line in said if "model name" in line]
    return f"{found[0].strip() if found else 'unknown'}, {os.cpu_count()} cores"


def head(is_beside: bool) -> list[str]:
    commit = output("git", "-C", str(HERE), "describe", "--always", "--dirty")
    made = f"{machine()}; {datetime.date.today()}; {commit}; {output('rt', 'version')}."
    by = output("valgrind", "--version")
    return ["# Results", "", made, TOLD.format(by=by), TOLD_BESIDE * is_beside]


def main() -> None:
    parser = argparse.ArgumentParser(description=__doc__)
    parser.add_argument("program")
    parser.add_argument("--beside")
    parser.add_argument("--spread", default="")
    parser.add_argument("--stages")
    parser.add_argument("--frames")
    parser.add_argument("--cluster")
    parser.add_argument("--page")
    parser.add_argument("--data", type=Path)
    parser.add_argument("--instructions", action="store_true")
    given = parser.parse_args()
    adopt()
    if given.data:
        print(*given_files(given.program, given.data), sep="\n")
        return
    before = RESULTS.read_text(encoding="utf-8") if RESULTS.exists() else ""
    top = head(given.beside is not None)
    with tempfile.TemporaryDirectory() as folder:
        groups = Groups(given.program, given.beside, Path(folder))
        bench = Bench(groups, os.path.abspath(given.spread) if given.spread else "")
        if given.instructions:
            found = bench.of_counts()
        else:
            found = [*bench.by_title(), *bench.shared(), *bench.large()]
            if given.stages:
                found += bench.stages(given.stages)
            if given.frames:
                found += bench.printed("Data frames in Python", given.frames)
            if given.cluster:
                found += bench.printed("A cluster of Dask in Python", given.cluster)
            if given.page:
                found += bench.printed("In a page", given.page)
            text = "\n".join([*top, *inputs(), *found, ""])
            RESULTS.write_text(text, encoding="utf-8")
    print(*instructions.dearer(before, "\n".join(found)), sep="\n")


if __name__ == "__main__":
    main()
