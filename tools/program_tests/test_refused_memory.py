"""Runs in which an allocation is refused: each ends with 6 and writes nothing, or ends as if none was refused."""

import itertools
import random
import shutil
import subprocess
import tempfile
import unittest
from collections.abc import Iterator
from dataclasses import dataclass
from pathlib import Path
from typing import ClassVar

from . import inputs
from .program import MINERS, PROGRAM, ROOT, SECONDS, Run
from .test_csv import long_text, records
from .test_miners import ANSWERS, summed
from .test_reports import NINE_BASKETS, SETS

COMPILER = shutil.which("cc")
OUT_OF_MEMORY = Run(b"", "basket: out of memory\n", 6)
# Faults of the file of `--sets` begin so.
OUT_IN_THE_SETS = Run(b"", "basket: in the sets: out of memory\n", 6)

# Three baskets as each form has them, and of them the sets that `count` is asked for.
FORMS = {
    "fimi": (b"1 2\n1\n3 2 1\n", b"2\n1 3\n"),
    "baskets": (b"bread,milk\nbread\nmilk,bread,tea\n", b"0,milk\n0,bread,tea\n"),
    "single": (
        b"8,bread\n9,bread\n8,milk\n7,milk\n7,bread\n7,tea\n",
        b"0,milk\n0,bread,tea\n",
    ),
    "counts": (b"(3)\n1 (3)\n2 (2)\n1 2 (2)\n1 3 (1)\n", b"2\n1 3\n"),
    "csv-counts": (
        b"3\n3,bread\n2,milk\n2,bread,milk\n1,bread,tea\n",
        b"0,milk\n0,bread,tea\n",
    ),
}
# What each command writes of them, by numbers and by names.
REPORTS = {
    "items --min 2": ("1 (3)|2 (2)|", "3,bread|2,milk|"),
    "sets --min 2": ("1 (3)|2 (2)|1 2 (2)|", "3,bread|2,milk|2,bread,milk|"),
    "closed --min 2": ("1 (3)|1 2 (2)|", "3,bread|2,bread,milk|"),
    "maximal --min 2": ("1 2 (2)|", "2,bread,milk|"),
    "rules --min 2 --conf 1/1": (
        "2 => 1 (2) 1/1 1/1|",
        "2,1/1,1/1,1,milk,bread|",
    ),
    "count --sets asked": ("(3)|2 (2)|1 3 (1)|", "3|2,milk|1,bread,tea|"),
}
NO_REPORTS = (
    ("sets --min 0", b"", "basket: bad value for --min\n", 2),
    ("sets --min 1", b"1 x\n", "basket: line 1: byte 0x78 is no digit or blank\n", 3),
    (
        "sets --min 2 --limit 12",
        NINE_BASKETS,
        "basket: more than 12 frequent itemsets\n",
        5,
    ),
)


@dataclass(frozen=True)
class Case:
    """Words, the input, what is asked for in a file of sets, and how a run ends that has memory."""

    words: str
    given: bytes
    asked: bytes
    wanted: Run


WORKERS = ("1", "3")


def of_form(form: str) -> Iterator[Case]:
    """Each command over a form, by one worker and by three."""
    given, asked = FORMS[form]
    for workers, (words, reports) in itertools.product(WORKERS, REPORTS.items()):
        report = reports[int(form not in ("fimi", "counts"))]
        wanted = Run(inputs.text_of(report), "", 0)
        words += f" --form {form} --workers {workers}"
        yield Case(words, given, asked, wanted)


def of_miners() -> Iterator[Case]:
    """Each miner, by one worker and by three."""
    for workers, miner in itertools.product(WORKERS, MINERS):
        words = f"sets --min 2 --miner {miner} --workers {workers}"
        yield Case(words, NINE_BASKETS, b"", Run(inputs.text_of(SETS), "", 0))


def of_refusals() -> Iterator[Case]:
    """Runs that are refused for something else."""
    for words, given, said, status in NO_REPORTS:
        yield Case(words, given, b"", Run(b"", said, status))


class Refused(unittest.TestCase):
    """The program under an allocator that refuses."""

    folder: ClassVar[Path]

    @classmethod
    def setUpClass(cls) -> None:
        assert COMPILER, "there is no C compiler, so no memory is refused"
        cls.folder = Path(cls.enterClassContext(tempfile.TemporaryDirectory()))
        words = [COMPILER, "-O2", "-shared", "-fPIC", str(ROOT / "tools/refuse.c")]
        subprocess.run([*words, "-o", str(cls.folder / "refuse.so")], check=True)

    def refused(self, words: str, number: int, onward: bool = False) -> tuple[Run, int]:
        """A run whose allocation of a number is refused, and 1 if there was one; for 0, how many there were."""
        notes = self.folder / "notes"
        with open(notes, "wb") as noted, open(self.folder / "given", "rb") as given:
            ended = subprocess.run(
                [Path(PROGRAM).resolve(), *words.split()],
                stdin=given,
                capture_output=True,
                timeout=SECONDS,
                cwd=self.folder,
                env={
                    "LD_PRELOAD": str(self.folder / "refuse.so"),
                    "NOTES": str(noted.fileno()),
                    "REFUSED": str(number),
                    **({"ONWARD": ""} if onward else {}),
                },
                pass_fds=[noted.fileno()],
                check=False,
            )
        noted_times = len(notes.read_bytes())
        run = Run(ended.stdout, ended.stderr.decode(), ended.returncode)
        return run, noted_times

    def refuse_each(self, cases: Iterator[Case]) -> None:
        """Refuses each allocation alone, and each fifth with all that come after it."""
        for case, (onward, step) in itertools.product(cases, ((False, 1), (True, 5))):
            (self.folder / "given").write_bytes(case.given)
            (self.folder / "asked").write_bytes(case.asked)
            for number in itertools.count(1, step):
                with self.subTest(words=case.words, number=number, onward=onward):
                    ended, is_refused = self.refused(case.words, number, onward)
                    ends = [case.wanted]
                    if is_refused:
                        ends.append(OUT_OF_MEMORY)
                    if is_refused and case.asked and "--sets" in case.words:
                        ends.append(OUT_IN_THE_SETS)
                    self.assertIn(ended, ends)
                if not is_refused:
                    break
            self.assertGreater(number, 1)

    def test_each_allocation_over_baskets_of_numbers(self) -> None:
        self.refuse_each(of_form("fimi"))

    def test_each_allocation_over_baskets_of_names(self) -> None:
        self.refuse_each(of_form("baskets"))

    def test_each_allocation_over_pairs(self) -> None:
        self.refuse_each(of_form("single"))

    def test_each_allocation_over_counted_sets_of_numbers(self) -> None:
        self.refuse_each(of_form("counts"))

    def test_each_allocation_over_counted_sets_of_names(self) -> None:
        self.refuse_each(of_form("csv-counts"))

    def test_each_allocation_of_each_miner(self) -> None:
        self.refuse_each(of_miners())

    def test_each_allocation_of_runs_that_are_refused(self) -> None:
        self.refuse_each(of_refusals())

    def test_allocations_of_larger_runs(self) -> None:
        source = random.Random(5)
        baskets = inputs.fimi(inputs.shop())
        (self.folder / "given").write_bytes(baskets)
        _, ask, lines, digest = ANSWERS[-1]
        for miner, workers in itertools.product(MINERS, WORKERS):
            words = f"{ask} --miner {miner} --workers {workers}"
            wanted, asked = self.refused(words, 0)
            self.assertEqual(summed(wanted), (lines, digest, "", 0))
            for _ in range(10):
                number = source.randint(1, asked)
                with self.subTest(words=words, number=number):
                    ended, _ = self.refused(words, number)
                    self.assertIn(ended, (wanted, OUT_OF_MEMORY))

    def test_allocations_of_workers_that_read_csv_in_parts(self) -> None:
        source = random.Random(6)
        text, counts = long_text("\n", header=False)
        (self.folder / "given").write_bytes(text.encode())
        for ask, least in (("items", 2), ("sets", 5_000)):
            words = f"{ask} --min {least} --form baskets --workers 3"
            # No pair of names is in so many baskets.
            rows = [[str(n), name] for name, n in counts.items() if n >= least]
            wanted, asked = self.refused(words, 0)
            self.assertEqual(records(wanted.out, ","), rows)
            for _ in range(20):
                number = source.randint(1, asked)
                with self.subTest(words=words, number=number):
                    ended, _ = self.refused(words, number)
                    self.assertIn(ended, (wanted, OUT_OF_MEMORY))
