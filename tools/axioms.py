#!/usr/bin/env python3
"""Writes down by name the statements about C functions and atomic words on which the program's proof rests.

usage: tools/axioms.py    at the top of the repository

`rt check --list-axioms` lists what the kit's libraries declare, and marks what the check of the program reached. The
names of these go to crates/axioms.txt. The gate compares how many there are with what it counts itself.
"""

import re
import subprocess
import sys
from collections import Counter
from pathlib import Path

import kit

RECORD = Path("crates/axioms.txt")
REACHED = re.compile(r"  (\S+) +reached$", re.M)


def counted() -> str:
    """How many names of each library are written down, as a page says it."""
    names = RECORD.read_text(encoding="utf-8").splitlines() if RECORD.exists() else []
    libraries = Counter(name.partition("::")[0] for name in names)
    return ", ".join(f"{number} of `{name}`" for name, number in libraries.items())


def main() -> int:
    kit.demand()
    words = ["rt", "check", "--list-axioms"]
    place = Path("crates", kit.PROGRAM)
    ended = subprocess.run(words, cwd=place, stdout=subprocess.PIPE, text=True)
    names = REACHED.findall(ended.stdout)
    if ended.returncode != 0 or not names:
        print(ended.stdout)
        return 1
    RECORD.write_text("".join(f"{name}\n" for name in names), encoding="utf-8")
    print(f"{RECORD}: {counted()}")
    return 0


if __name__ == "__main__":
    sys.exit(main())
