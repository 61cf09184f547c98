#!/usr/bin/env python3
"""Builds the program without its proofs, if it isn't built so already, and runs it once over files of yours.

usage: make try FILE=receipts.csv WORDS="rules --min 1% --conf 1/2 --form single --header"
       make try FILE=shop.dat SETS=found.txt WORDS="count"
or, at the top of the repository and with the program's own exit status,
       tools/try.py [--sets SETS] FILE WORD..

FILE is the input, and SETS the file of the option --sets: neither stands among the words. Standard output
is the report alone.
"""

import os
import subprocess
import sys

import kit


def given(words: list[str]) -> list[str]:
    """The program's arguments."""
    sets: list[str] = []
    if words[:1] == ["--sets"]:
        sets, words = words[1:2], words[2:]
    if len(words) < 2 or not words[0] or words[0].startswith("-"):
        sys.exit(__doc__)
    file, *arguments = words
    for path in (*sets, file):
        if not os.path.isfile(path) or not os.access(path, os.R_OK):
            sys.exit(f"try: {path} is not a file that can be read")
    options = [f"--sets={os.path.abspath(path)}" for path in sets]
    return [*arguments, *options, os.path.abspath(file)]


def main(words: list[str]) -> int:
    arguments = given(words)
    program = kit.unproved()
    note = "try: this program is not proved; `make` proves and builds it."
    print(note, file=sys.stderr, flush=True)
    return subprocess.run([program, *arguments], check=False).returncode


if __name__ == "__main__":
    sys.exit(main(sys.argv[1:]))
