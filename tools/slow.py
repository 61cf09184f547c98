#!/usr/bin/env python3
"""Prints what the check of a crate from nothing takes, function by function, the slowest first.

usage: tools/slow.py CRATE [--test] [SECONDS]    at the top of the repository

The crate, or its tests, are checked by one job, which keeps what it made of each function in files. From one file
to the next as many seconds went by as the check took for it. Prints those of each function that takes at least
SECONDS (10), and those of the rest: reading the libraries, definitions and lemmas. On a machine that does nothing
else these are processor seconds. The crates below are proved first, or taken from what earlier runs kept.
"""

import re
import shutil
import subprocess
import sys
import tempfile
from collections.abc import Iterable
from pathlib import Path

import kit
from crates import Crates, copy_to, is_program, listed, needed

# What is kept of a function: its code, how it is read and laid out, its steps, what it owes, and its proof.
STAGES = (
    "Answers Code Given Goals Invariants Key Kinds Layout Lts Met Named Proof Reads "
    "Statement Symbol TheBound TheImpl TheInside TheLaws TheLink TheLinks Tie"
).split()
KEPT = re.compile(
    r"Rattle-\w+[-.](?:proofs|specs)\.(?:contracts\.|declared\.)?([^.]+\..+?)"
    rf"(?:\.(?:{'|'.join(STAGES)})(?:\..*)?)?(?:\.decls)?\.oantt"
)


def words_for(name: str, crates: Crates, tree: Path) -> list[str]:
    """The words of a check of the crate, by one job and over nothing that earlier checks kept."""
    home = kit.home()
    below = [it for it in needed([name], crates) if it != name]
    libraries = {it: tree / f"crates/{it}/out/rlib/{it}.rlib" for it in below}
    source = "src/main.rt" if is_program(name) else "src/lib.rt"
    words = ["check", "--crate-name", name, source, "--jobs", "1"]
    for used in ["std", *crates[name][1]]:
        rlib = libraries.get(used, home / f"rlibs/{used}.rlib")
        words += ["--extern", f"{used}={rlib}"]
    for place in [home / "rlibs", *(rlib.parent for rlib in libraries.values())]:
        words += ["-L", f"dependency={place}"]
    words += ["--antt-project", f"{home}/rattle/logic/antt-project.json"]
    words += ["--logic-built", f"{home}/logic_built", "--links", f"{name}="]
    return [str(home / "bin/rattle"), *words, "--incremental", str(tree / "kept")]


def by_function(files: Iterable[tuple[float, str]]) -> tuple[dict[str, float], float]:
    """The seconds of each function by the times and names of the files that are kept, and those of the rest."""
    functions: dict[str, float] = {}
    rest, before = 0.0, None
    for when, name in sorted(files):
        seconds = when - (when if before is None else before)
        before = when
        if found := KEPT.fullmatch(name):
            functions[found[1]] = functions.get(found[1], 0.0) + seconds
        else:
            rest += seconds
    return functions, rest


def report(name: str, least: float, flags: list[str], tree: Path) -> int:
    crates = listed()
    below = [it for it in needed([name], crates) if it != name]
    copy_to(tree, below, crates)
    words = ["rt", "ci"]
    ended = (
        subprocess.run(words, cwd=tree, stdout=subprocess.DEVNULL) if below else None
    )
    if ended and ended.returncode != 0:
        sys.exit(f"A crate below {name} is not proved.")
    place, kept = tree / "crates" / name, tree / "kept"
    unread = shutil.ignore_patterns("out", "must-fail")
    shutil.copytree(Path("crates", name), place, ignore=unread)
    kept.mkdir()
    checked = subprocess.run(
        [*words_for(name, crates, tree), *flags],
        cwd=place,
        stdin=subprocess.DEVNULL,
        stdout=subprocess.PIPE,
        stderr=subprocess.STDOUT,
        text=True,
        check=False,
    )
    files = (
        (path.stat().st_mtime, path.name) for path in kept.rglob("*") if path.is_file()
    )
    functions, rest = by_function(files)
    for function, seconds in sorted(functions.items(), key=lambda it: -it[1]):
        if seconds >= least:
            print(f"{seconds:6.1f} {function}")
    few = [seconds for seconds in functions.values() if seconds < least]
    is_proved = "logic=proved" in checked.stdout
    print(f"{sum(few):6.1f} {len(few)} other functions and types")
    print(f"{rest:6.1f} the rest of {name}; {'' if is_proved else 'not '}proved")
    return int(not is_proved)


def main(words: list[str]) -> int:
    kit.demand()
    flags = [word for word in words if word == "--test"]
    words = [word for word in words if word != "--test"]
    if not words or words[0] not in listed():
        sys.exit(__doc__)
    least = float(words[1]) if len(words) > 1 else 10.0
    with tempfile.TemporaryDirectory(prefix="basket-") as tree:
        return report(words[0], least, flags, Path(tree))


if __name__ == "__main__":
    sys.exit(main(sys.argv[1:]))
