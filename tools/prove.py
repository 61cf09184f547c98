#!/usr/bin/env python3
"""Proves programs and the crates that they stand on, side by side, and builds them.

usage: tools/prove.py PROGRAM..    at the top of the repository

The crates are copied, without their must-fail edits, into a folder of their own, and `rt ci` proves
them there: several at once, those with the longest chain of others above them first. It keeps each
proof on this machine, so a second run proves only what failed, what changed, and the crates above.
Each program is built, run on its own files stdin and args, and put into its folder out/. Prints a line
for each crate once it is proved or found to be kept (and whether what is kept was proved elsewhere, tools/kept.py), all
that the checker says of one that is not, and last what it took.
"""

import os
import shutil
import signal
import subprocess
import sys
import tempfile
import time
from collections.abc import Callable, Iterator
from contextlib import contextmanager
from pathlib import Path

import kept
import kit
from checked import Report
from cost import Cost, clock, free_memory, processors
from crates import built, copy_to, is_program, listed, needed

# Most crates wait for this one. `rt ci` gives it one processor beside others, and two where it is alone.
FIRST = "basket_sets"

# What the kit plans for the check of an upper crate, and what each of the four largest was seen to take at most
# if they run at once, in bytes.
PLANNED, TAKEN = 4.5e9, 3e9


def say(text: str) -> None:
    print(text, flush=True)


def lanes() -> dict[str, str]:
    """What keeps all processors busy where the kit's plan of memory would not: it plans twice what a check takes."""
    for_each = 0.85 * free_memory() / processors()
    is_short = TAKEN <= for_each < PLANNED and "RT_JOBS" not in os.environ
    return {"RT_JOBS": str(processors())} if is_short else {}


def lines_of(tree: Path) -> Iterator[str]:
    """The lines that `rt ci` prints over the tree. An interrupt ends it with all that it started."""
    checker = subprocess.Popen(
        ["rt", "ci"],
        cwd=tree,
        env={**os.environ, **lanes()},
        stdin=subprocess.DEVNULL,
        stdout=subprocess.PIPE,
        stderr=subprocess.STDOUT,
        text=True,
        start_new_session=True,
    )
    try:
        assert checker.stdout
        yield from checker.stdout
        if checker.wait() != 0:
            raise subprocess.CalledProcessError(checker.returncode, "rt ci")
    finally:
        if checker.poll() is None:
            os.killpg(checker.pid, signal.SIGKILL)


@contextmanager
def first_beside(names: list[str], report: Report, store: kept.Store) -> Iterator[None]:
    """Proves the crate that most others wait for by a run of its own, whose proof the run over all takes."""
    if FIRST not in names:
        yield
        return
    with tempfile.TemporaryDirectory(prefix="basket-") as tree:
        copy_to(Path(tree), needed([FIRST], listed()), listed())
        checker = subprocess.Popen(
            ["rt", "ci"],
            cwd=tree,
            stdin=subprocess.DEVNULL,
            stdout=subprocess.PIPE,
            stderr=subprocess.STDOUT,
            text=True,
            start_new_session=True,
        )
        try:
            yield
        finally:
            if checker.poll() is None:
                os.killpg(checker.pid, signal.SIGKILL)
            said, _ = checker.communicate()
    beside = Report()
    for line in said.splitlines(keepends=True):
        beside.take(line)
    if FIRST in beside.proved and FIRST in report.kept:
        report.kept.remove(FIRST)
        report.proved.append(FIRST)
        store.note(FIRST, beside.told.get(FIRST, []))


def prove(
    names: list[str], tree: Path, then: Callable[[str], object] = lambda _: None
) -> Report:
    """Proves these crates in the folder, with a line for each, and puts each program into its folder out/, and then
    does something."""
    crates = listed()
    copy_to(tree, names, crates)
    cost, report, begun = Cost(), Report(), time.time()
    store = kept.Store(tree)
    try:
        with first_beside(names, report, store), kit.keeping_checked(tree):
            for line in lines_of(tree):
                if name := report.take(line):
                    done = len(report.proved) + len(report.kept)
                    say(
                        f"{name}: {report.how(name, begun, store)}, {done} of {len(names)} after {clock(cost.seconds())}"
                    )
                    if is_program(name):
                        take_built(name, tree)
                        then(name)
    except subprocess.CalledProcessError:
        say(f"Not proved. What the checker said:\n{report.text()}")
    return report


def take_built(program: str, tree: Path) -> None:
    """Puts a program that was proved in the folder into its folder out/."""
    made = built(program)
    made.parent.mkdir(exist_ok=True)
    shutil.copy2(tree / made, made)
    say(f"{made}: built")


def main(programs: list[str]) -> int:
    kit.demand()
    strange = [name for name in programs if not is_program(name)]
    if strange or not programs:
        sys.exit(f"{' '.join(strange) or 'nothing'}: no program of crates.txt")
    names = needed(programs, listed())
    say(
        f"{' '.join(programs)} is not built as its sources stand. Proving its {len(names)} crates first; "
        "bench/COST.md says how long that takes."
    )
    cost = Cost()
    with tempfile.TemporaryDirectory(prefix="basket-") as tree:
        report = prove(names, Path(tree))
    say(f"{cost}; {report.share()}")
    if report.failed:
        say("What is proved is kept: a second `make` goes on from there.")
    return int(report.failed > 0)


if __name__ == "__main__":
    sys.exit(main(sys.argv[1:]))
