"""Runs in which a read or a write fails, is interrupted or takes fewer bytes, each in turn."""

import itertools
import random
import shutil
import subprocess
import tempfile
import unittest
from collections.abc import Iterator
from pathlib import Path
from typing import ClassVar

from .program import PROGRAM, ROOT, SECONDS, Run, run

COMPILER = shutil.which("cc")
QUESTIONS = (
    "items --min 1",
    "sets --min 1",
    "closed --min 1",
    "maximal --min 20%",
    "rules --min 20% --conf 0/1",
)
UNREAD = Run(b"", "basket: cannot read the input\n", 4)
UNWRITTEN = "basket: cannot write the report\n"


def baskets(form: str) -> bytes:
    """Baskets of a form, more than a buffer of the program takes."""
    chance = random.Random(3)
    rows = [[i for i in range(12) if chance.random() < 0.5] for _ in range(4_000)]
    if form == "fimi":
        lines = [" ".join(map(str, row)) for row in rows]
    elif form == "baskets":
        lines = [",".join(f"item {item}" for item in row) for row in rows]
    else:
        lines = [f"{nth},{item}" for nth, row in enumerate(rows) for item in row]
    return "\n".join(lines).encode()


class Failing(unittest.TestCase):
    """The program over a system whose calls fail."""

    folder: ClassVar[Path]

    @classmethod
    def setUpClass(cls) -> None:
        assert COMPILER, "there is no C compiler, so no call fails"
        cls.folder = Path(cls.enterClassContext(tempfile.TemporaryDirectory()))
        words = [COMPILER, "-O2", "-shared", "-fPIC", str(ROOT / "tools/failing.c")]
        subprocess.run([*words, "-o", str(cls.folder / "failing.so")], check=True)

    def ended(self, words: list[str], call: str, how: str, nth: int) -> Run | None:
        """A run in which the call of a number ends so, if there is one."""
        notes = self.folder / "notes"
        with open(notes, "wb") as noted, open(self.folder / "given", "rb") as given:
            ended = subprocess.run(
                [PROGRAM, *words],
                stdin=given,
                capture_output=True,
                timeout=SECONDS,
                env={
                    "LD_PRELOAD": str(self.folder / "failing.so"),
                    "NOTES": str(noted.fileno()),
                    "CALL": call,
                    "HOW": how,
                    "NTH": str(nth),
                },
                pass_fds=[noted.fileno()],
                check=False,
            )
        run_of_it = Run(ended.stdout, ended.stderr.decode(), ended.returncode)
        return run_of_it if notes.read_bytes() else None

    def each(self, words: list[str], call: str, how: str) -> Iterator[Run]:
        """Runs in which the first, the second and each further call ends so."""
        for nth in itertools.count(1):
            if (ended := self.ended(words, call, how, nth)) is None:
                self.assertGreater(nth, 1, "there is no such call")
                return
            yield ended

    def try_each(self, form: str) -> None:
        given = baskets(form)
        (self.folder / "given").write_bytes(given)
        for question, workers in itertools.product(QUESTIONS, ("1", "4")):
            words = [*question.split(), "--form", form, "--workers", workers]
            whole = run(words, given)
            self.assertEqual((whole.said, whole.status), ("", 0))
            for how in ("fail", "interrupt"):
                for ended in self.each(words, "read", how):
                    with self.subTest(words=words, call="read", how=how):
                        self.assertEqual(ended, UNREAD)
            for how in ("fail", "interrupt", "none"):
                for ended in self.each(words, "write", how):
                    with self.subTest(words=words, call="write", how=how):
                        self.assertEqual((ended.said, ended.status), (UNWRITTEN, 4))
                        self.assertLess(len(ended.out), len(whole.out))
                        self.assertTrue(whole.out.startswith(ended.out))
            for call in ("read", "write"):
                for ended in self.each(words, call, "short"):
                    with self.subTest(words=words, call=call, how="short"):
                        self.assertEqual(ended, whole)

    def test_calls_over_baskets_of_numbers(self) -> None:
        self.try_each("fimi")

    def test_calls_over_baskets_of_names(self) -> None:
        self.try_each("baskets")

    def test_calls_over_pairs(self) -> None:
        self.try_each("single")
