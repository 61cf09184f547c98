#!/usr/bin/env python3
"""Reads off RESULTS.md which miner suits which data, and prints the lines of help and of the documents."""

import sys
from collections import defaultdict
from pathlib import Path
from typing import NamedTuple

from results import rows

# So many frequent sets are few, and so many baskets very many.
FEW, VERY_MANY = 25_000, 1_000_000


class Figures(NamedTuple):
    """What a miner takes by one worker: seconds by the clock, and megabytes."""

    seconds: float
    memory: float


class Question(NamedTuple):
    """How many baskets are asked, for how many sets, and what each miner takes."""

    baskets: int
    sets: int
    miners: dict[str, Figures]

    def times(self, miner: str, other: str) -> float:
        """How many times the seconds of another miner one takes."""
        return self.miners[miner].seconds / self.miners[other].seconds

    def quickest(self) -> str:
        return min(self.miners, key=lambda miner: self.miners[miner].seconds)

    def is_smallest(self, miner: str) -> bool:
        return self.miners[miner].memory <= min(
            it.memory for it in self.miners.values()
        )


def questions(results: str) -> list[Question]:
    """The questions that RESULTS.md asks of all miners."""
    found: dict[tuple[str, str, str], dict[str, Figures]] = defaultdict(dict)
    for row in rows(results):
        command, _, miner = row.get("Command", "").strip("`").partition(" --miner ")
        if command.startswith("sets ") and miner and "Lines" in row:
            seconds = float(row.get("Clock") or row["One"])
            memory = float(row.get("MB") or row["MB of one"])
            name = row["Baskets"], command, row["Lines"]
            found[name].setdefault(miner, Figures(seconds, memory))
    return [
        Question(_number(baskets.split()[0]), _number(lines), miners)
        for (baskets, _, lines), miners in found.items()
        if len(miners) == 5
    ]


def _number(text: str) -> int:
    return int(text.replace(",", ""))


def rule(asked: list[Question]) -> dict[str, str]:
    """For each miner what it is for."""
    few = [it for it in asked if it.sets <= FEW]
    many = [it for it in asked if it.sets > FEW]
    long = [
        it
        for it in asked
        if it.baskets >= VERY_MANY and it.miners["eclat-bits"].seconds >= 1
    ]
    default, bits = "the default", "for some questions of more frequent sets"
    if all(it.times("apriori", it.quickest()) <= 2 for it in few):
        default += f": for up to some {FEW:,} frequent sets"
    if all(it.is_smallest("apriori") for it in few):
        default += ", and then with the least memory"
    near = sum(it.times("eclat-bits", it.quickest()) <= 1.25 for it in many)
    if 2 * near > len(many):
        bits = "for more frequent sets"
    return {
        "apriori": default,
        "eclat-bits": bits,
        "fpgrowth": "worth one try if eclat-bits takes over a second; "
        f"{often('fpgrowth', long)} faster over very many baskets",
        "eclat-diff": f"as eclat-bits, by difference lists; {often('eclat-diff', asked)} faster",
        "eclat": f"as eclat-bits, by lists of basket numbers; {often('eclat', asked)} faster",
    }


def often(miner: str, asked: list[Question]) -> str:
    """How often a miner takes less than three quarters of what eclat-bits takes: runs of one kind differ by less."""
    if not asked:
        sys.exit(f"RESULTS.md asks nothing that tells how fast {miner} is")
    faster = sum(it.times(miner, "eclat-bits") < 0.75 for it in asked)
    if 2 * faster >= len(asked):
        return "often"
    return "seldom" if 3 * faster <= len(asked) else "sometimes"


def main() -> None:
    path = Path(__file__).with_name("RESULTS.md")
    found = rule(questions(path.read_text(encoding="utf-8")))
    print(*(f"{miner:11} {said}" for miner, said in found.items()), sep="\n")


if __name__ == "__main__":
    main()
