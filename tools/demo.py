#!/usr/bin/env python3
"""Builds the program without its proofs, and runs it over examples/: tools/demo.py at the top of the repository."""

import subprocess

import kit

RUNS = (
    "sets --min 20% examples/shop.dat",
    "rules --min 20% --conf 2/3 examples/shop.dat",
    "sets --min 5 --form baskets examples/baskets.csv",
    "rules --min 20% --conf 2/3 --form single --header examples/receipts.csv",
)


def main() -> None:
    program = kit.unproved()
    for words in RUNS:
        print(f"\n$ basket {words}", flush=True)
        subprocess.run([program, *words.split()], check=True)
    print(
        "\nThis program is not proved yet: `make` proves and builds it.\n"
        'Over a file of yours: make try FILE=shop.csv WORDS="sets --min 1% --form baskets"'
    )


if __name__ == "__main__":
    main()
