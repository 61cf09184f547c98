#!/usr/bin/env python3
"""Asks 100,000 baskets at once and by way of seven parts, and compares what is written.

usage: tools/parts.py    at the top of the repository, with the program that `make` built

`BASKET` names another program. The baskets are those of bench/quest.py by a fixed seed. They are cut at
line ends into parts of unequal length. Of each part `basket sets` lists the sets that are frequent in it,
and `basket count` counts the sets that some part lists. The reports of these counts, concatenated,
are the counted input.
"""

import os
import subprocess
import sys
import tempfile
from pathlib import Path

PROGRAM = os.environ.get("BASKET", "crates/basket_cli/out/basket_cli")
QUEST = "10 4 100000 1000 2000 1"
SHARE = "1/200"
LENGTHS = (1, 8, 2, 13, 3, 5, 21)
QUESTIONS = ("sets", "closed", "maximal", "rules --conf 1/2")


def say(text: str) -> None:
    print(text, flush=True)


def run(words: str, given: Path, taken: Path) -> None:
    """Runs the program over a file, and appends what it writes to another file."""
    with open(taken, "ab") as out:
        ended = subprocess.run(
            [PROGRAM, *words.split(), str(given)], stdout=out, check=False
        )
    if ended.returncode != 0:
        sys.exit(f"basket {words} {given.name} ended with {ended.returncode}")


def lines_of(file: Path) -> list[bytes]:
    return file.read_bytes().splitlines(keepends=True)


def made(folder: Path) -> Path:
    """The file of all baskets."""
    baskets = folder / "baskets"
    with open(baskets, "wb") as out:
        words = [sys.executable, "bench/quest.py", *QUEST.split()]
        subprocess.run(words, stdout=out, check=True)
    return baskets


def cut(baskets: Path, folder: Path) -> list[Path]:
    """The files of the parts."""
    lines = lines_of(baskets)
    parts, start, share = [], 0, 0
    for number, length in enumerate(LENGTHS, 1):
        share += length
        end = len(lines) * share // sum(LENGTHS)
        part = folder / f"part{number}"
        part.write_bytes(b"".join(lines[start:end]))
        say(f"{part.name}: {end - start} baskets")
        parts.append(part)
        start = end
    return parts


def counted(parts: list[Path], folder: Path) -> Path:
    """The file of the counts of all parts, concatenated."""
    asked, counts = folder / "asked", folder / "counts"
    for part in parts:
        run(f"sets --min {SHARE}", part, asked)
    say(f"sets --min {SHARE} of each part: {len(lines_of(asked))} lines")
    for part in parts:
        run(f"count --sets {asked}", part, counts)
    say(f"count --sets of each part: {len(lines_of(counts))} lines")
    return counts


def compared(question: str, baskets: Path, counts: Path, folder: Path) -> bool:
    """Whether the answers over all baskets and over the counts of the parts have the same bytes."""
    name, words = question.split()[0], f"{question} --min {SHARE}"
    whole, together = folder / f"{name}.whole", folder / f"{name}.together"
    run(words, baskets, whole)
    run(f"{words} --form counts", counts, together)
    is_same = subprocess.run(["cmp", whole, together], check=False).returncode == 0
    said = "the same bytes" if is_same else "other bytes"
    say(f"{words}: {len(lines_of(whole))} lines of all baskets, by the parts {said}")
    return is_same


def main() -> int:
    with tempfile.TemporaryDirectory(prefix="basket-parts-") as name:
        folder = Path(name)
        baskets = made(folder)
        say(f"bench/quest.py {QUEST}: {len(lines_of(baskets))} baskets")
        counts = counted(cut(baskets, folder), folder)
        same = [compared(words, baskets, counts, folder) for words in QUESTIONS]
    return int(not all(same))


if __name__ == "__main__":
    sys.exit(main())
