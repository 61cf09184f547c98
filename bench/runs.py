"""Runs of a program: their time, their memory, and what else the machine does."""

import ctypes
import hashlib
import os
import subprocess
import sys
import time
from collections.abc import Sequence
from pathlib import Path
from typing import NamedTuple

Words = tuple[str, ...]

# The shell leaves the program to this process. A process has at least the memory of the
# one that begins it, and a shell has little.
START = (
    "data=$1; report=$2; loaded=$3; shift 3; "
    '[ -z "$loaded" ] || export LD_PRELOAD="$loaded"; '
    '"$@" < "$data" > "$report" & echo $!'
)

# For how many seconds it is looked at what else the machine does.
LOOK = 0.2


class Asked(NamedTuple):
    """A command over an input, how tables name both, and a library that is loaded before others."""

    says: str
    command: str
    words: Words
    data: str
    loaded: str = ""


class Run(NamedTuple):
    """Seconds of the processors and by the clock, and the most memory in megabytes."""

    seconds: float
    clock: float
    memory: float


class Turns(NamedTuple):
    """What commands that run in turn take: the lines that they write, the best run of each by the
    clock, and the most other work that there was before a turn, in processors."""

    lines: int
    runs: list[Run]
    load: float


def adopt() -> None:
    """Has what a shell leaves come to this process, by PR_SET_CHILD_SUBREAPER."""
    ctypes.CDLL(None).prctl(36, 1, 0, 0, 0)


def output(*words: str) -> str:
    ran = subprocess.run(words, stdout=subprocess.PIPE, text=True, check=True)
    return ran.stdout.strip()


def measured(words: Words, data: str, report: str, loaded: str = "") -> Run:
    """One run. This process has to have called `adopt`."""
    begun = time.monotonic()
    started = output("sh", "-c", START, "sh", data, report, loaded, *words)
    _, status, used = os.wait4(int(started), 0)
    clock = time.monotonic() - begun
    if status != 0:
        sys.exit(f"{' '.join(words)}: status {os.waitstatus_to_exitcode(status)}")
    return Run(used.ru_utime + used.ru_stime, clock, used.ru_maxrss / 1024)


def in_turn(asked: Sequence[Asked], turns: int) -> Turns:
    """Runs commands that write the same bytes, and then so many turns of them without a file of
    the report. Without turns the first runs are what counts."""
    print(asked[0].says, asked[0].command, sep=": ", file=sys.stderr)
    report = f"{asked[0].data}.report"
    digests: set[bytes] = set()
    loads = [load()]
    first = []
    for one in asked:
        first.append(measured(one.words, one.data, report, one.loaded))
        text = Path(report).read_bytes()
        digests.add(hashlib.sha256(text).digest())
        if len(digests) > 1:
            sys.exit(f"{' '.join(one.words)}: other bytes than {asked[0].words}")
    found = [] if turns else [first]
    for _ in range(turns):
        loads.append(load())
        found.append(
            [measured(one.words, one.data, os.devnull, one.loaded) for one in asked]
        )
    each: list[tuple[Run, ...]] = [*zip(*found)]
    runs = [
        min(of_one, key=lambda run: run.clock)._replace(
            memory=max(run.memory for run in of_one)
        )
        for of_one in each
    ]
    return Turns(text.count(b"\n"), runs, max(loads))


def load() -> float:
    """How many processors other work takes, that of other virtual machines included."""
    before, begun = _busy(), time.monotonic()
    time.sleep(LOOK)
    return (_busy() - before) / (time.monotonic() - begun)


def _busy() -> float:
    """Seconds that all processors have worked for somebody."""
    with open("/proc/stat", encoding="ascii") as told:
        user, nice, system, _idle, _wait, *others = map(
            int, told.readline().split()[1:]
        )
    # Interrupts, and what the host took; guests are in the first ones.
    return (user + nice + system + sum(others[:3])) / os.sysconf("SC_CLK_TCK")
