#!/usr/bin/env python3
"""The gate: every proof, then the tests of the program that was built, of the page with it, and of the Python package.

usage: tools/test.py            at the top of the repository
       tools/test.py --check    the same over the program built without its proofs
       tools/test.py --program  the tests of the program alone, as it is built now
       tools/test.py --page     those of the page with the program in it, as both are built now
       tools/test.py --python   those of the package alone, by black, mypy and pytest over python/

Proofs, with the tests of the crates, are of all crates but the bench. The must-fail edits are not tried here
(tools/edits.py tries them): it is seen that each can be applied, and told which were last refused over
another text, which fails the gate in the crates of the statement. The variable BASKET names another program for the
last three, and PAGE another page.
"""

import os
import subprocess
import sys
import tempfile
from collections.abc import Callable, Iterable
from concurrent.futures import Future, ThreadPoolExecutor
from itertools import chain
from pathlib import Path
from typing import NamedTuple
from xml.etree import ElementTree

import axioms
import edits
import kit
import page
from cost import Cost, processors
from crates import built, listed
from prove import prove

BESIDE = ("basket_bench",)
# The system's Python, which has Debian's packages.
PYTHON = "/usr/bin/python3"
FOLDERS = ("python", "tools", "bench", "page")
STRICT = ("--strict", "--config-file=python/pyproject.toml")
# The page that says on how many statements about C the program's proof rests, and has the words of its verdict.
AXIOMS = Path("docs/THEOREM.md")
CHECKS = (("black", "--check", *FOLDERS), ("mypy", *STRICT, *FOLDERS))


class Sum(NamedTuple):
    """How many passed and failed, and what is to be said of them at the end."""

    passed: int
    failed: int
    said: str = ""


def proved(program: Path) -> Sum:
    """Proves the crates, and runs their tests and programs. What is tested over the program begins once it is built."""
    kit.demand()
    names = [name for name in listed() if name not in BESIDE]
    over: list[Future[Sum]] = []
    with tempfile.TemporaryDirectory(
        prefix="basket-"
    ) as tree, ThreadPoolExecutor() as beside:

        def begin(name: str) -> None:
            if name == kit.PROGRAM:
                over.append(beside.submit(over_program, Path(tree), program))

        report = prove(names, Path(tree), begin)
        tests = [it.result() for it in over]
    said, failed = report.share(), report.failed
    if report.elsewhere:
        said = f"{said}; the gate proves all: `make proofs-forget` takes away what came from elsewhere"
        failed += len(report.elsewhere)
    if lost := report.untold(kit.PROGRAM, AXIOMS.read_text(encoding="utf-8")):
        said, failed = f"{said}; {AXIOMS} says something else: {lost}", failed + 1
    written = axioms.counted()
    if written and (lost := report.unlisted(kit.PROGRAM, written)):
        said, failed = f"{said}; {axioms.RECORD} has other names: {lost}", failed + 1
    return added([Sum(report.passed, failed, said), *tests])


def over_program(tree: Path, program: Path) -> Sum:
    """Tests the program, makes the page over it meanwhile, and then tests this and the package."""
    of_rest = OVER_PROGRAM[1:]
    with ThreadPoolExecutor() as beside:
        made = beside.submit(page.proved, tree)
        first = of_program(program)
        made.result()
    return added(chain([first], (part(program) for part in of_rest)))


def added(sums: Iterable[Sum]) -> Sum:
    """Several sums as one, up to the first with a failure."""
    passed, failed, said = 0, 0, []
    for one in sums:
        passed, failed = passed + one.passed, failed + one.failed
        said += [one.said] * bool(one.said)
        if failed:
            break
    return Sum(passed, failed, "; ".join(said))


def applied(_program: Path) -> Sum:
    """Looks at the must-fail edits."""
    return Sum(*edits.looked_at())


def tested(folder: str, program: Path) -> Sum:
    """Runs the tests of a folder, as many at once as there are processors."""
    with tempfile.TemporaryDirectory() as place:
        summary = Path(place, "summary.xml")
        words = ["-m", "pytest", "-q", "-n", str(processors()), "--durations=5"]
        words += [f"--junitxml={summary}", "-p", "no:cacheprovider"]
        ended = subprocess.run(
            [PYTHON, *words],
            cwd=folder,
            env={
                "PAGE": str(page.PAGE.resolve()),
                **os.environ,
                "BASKET": str(program),
            },
            check=False,
        )
        if not summary.exists():
            return Sum(0, 1)
        suite = ElementTree.parse(summary).find("testsuite")
    assert suite is not None
    tests, skipped, failures, errors = (
        int(suite.attrib[name]) for name in ("tests", "skipped", "failures", "errors")
    )
    failed = failures + errors
    return Sum(tests - skipped - failed, max(failed, int(ended.returncode != 0)))


def of_program(program: Path) -> Sum:
    return tested("tools", program)


def of_page(program: Path) -> Sum:
    return tested("page", program)


def of_package(program: Path) -> Sum:
    """Has black and mypy read all Python here, and runs the tests of the package."""
    passed, failed = 0, 0
    for words in CHECKS:
        print(" ".join(words), flush=True)
        is_good = subprocess.run([PYTHON, "-m", *words], check=False).returncode == 0
        passed, failed = passed + is_good, failed + (not is_good)
    more = tested("python", program)
    return Sum(passed + more.passed, failed + more.failed)


Part = Callable[[Path], Sum]
OVER_PROGRAM: tuple[Part, ...] = (of_program, of_page, of_package)
PARTS: dict[str, tuple[Part, ...]] = {
    "": (applied, proved),
    "--check": OVER_PROGRAM,
    "--program": (of_program,),
    "--page": (of_page,),
    "--python": (of_package,),
}


def main(words: list[str]) -> int:
    which = " ".join(words)
    if which not in PARTS:
        sys.exit(__doc__)
    if subprocess.run(["tools/python-packages"], check=False).returncode != 0:
        return 1
    cost = Cost()
    if which == "--check":
        program = kit.unproved()
        os.environ["PAGE"] = str(page.unproved().resolve())
    else:
        program = Path(os.environ.get("BASKET", built(kit.PROGRAM))).resolve()
    passed, failed, said = added(part(program) for part in PARTS[which])
    print("; ".join([str(cost), *[said] * bool(said)]))
    print(f"{passed} passed, {failed} failed")
    return int(failed > 0 or passed == 0)


if __name__ == "__main__":
    sys.exit(main(sys.argv[1:]))
