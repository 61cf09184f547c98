"""How many instructions commands take, and which take more than before."""

import os
import re
import subprocess
import sys
from collections.abc import Iterable
from concurrent.futures import ThreadPoolExecutor

from results import rows
from runs import Asked, Words

# The column of tables in RESULTS.md.
COLUMN = "Million instructions"
# A command is dearer if it takes more than this times what it took before.
DEARER = 1.03

# Valgrind counts each byte that `rep movsb` copies, so the C library is told to copy by vectors.
NO_REP = ":".join(
    f"glibc.cpu.x86_rep_{kind}_threshold=0x7fffffffffff" for kind in ("movsb", "stosb")
)
COUNT = ("valgrind", "--tool=cachegrind", "--cache-sim=no")
NO_FILE = "--cachegrind-out-file=/dev/null"

Counted = dict[tuple[Words, str], int]


def counted(asked: Iterable[Asked]) -> Counted:
    """How many instructions each command takes, which is the same on any load."""
    known = list(dict.fromkeys((one.words, one.data) for one in asked))
    with ThreadPoolExecutor(os.cpu_count()) as pool:
        return dict(zip(known, pool.map(_of_one, known)))


def _of_one(asked: tuple[Words, str]) -> int:
    words, data = asked
    print("instructions:", *words[1:], file=sys.stderr)
    with open(data, "rb") as given:
        ran = subprocess.run(
            [*COUNT, NO_FILE, *words],
            stdin=given,
            stdout=subprocess.DEVNULL,
            stderr=subprocess.PIPE,
            env={**os.environ, "GLIBC_TUNABLES": NO_REP},
            text=True,
            check=False,
        )
    found = re.search(r"I +refs: +([\d,]+)", ran.stderr)
    if ran.returncode != 0 or not found:
        sys.exit(f"{' '.join(words)}: valgrind says {ran.stderr}")
    return int(found[1].replace(",", ""))


def dearer(before: str, after: str) -> list[str]:
    """What to say of two texts of RESULTS.md: which commands of both became dearer."""
    old, new = _in_tables(before), _in_tables(after)
    both = [name for name in new if name in old]
    said = [
        f"{': '.join(name)}: {old[name]} to {new[name]} million instructions, {new[name] / old[name] - 1:+.1%}"
        for name in both
        if new[name] > DEARER * old[name]
    ]
    return [f"{len(both)} commands compared, {len(said)} dearer by more than 3%", *said]


def _in_tables(text: str) -> dict[tuple[str, str], float]:
    """The millions of instructions of each command over each input."""
    return {
        (row["Baskets"], row["Command"]): float(row[COLUMN])
        for row in rows(text)
        if row.get(COLUMN)
    }
