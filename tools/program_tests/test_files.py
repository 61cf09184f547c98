"""Inputs that are named, and standard input."""

import os
import tempfile
import unittest
from pathlib import Path

from .inputs import lines_of, text_of
from .program import run
from .test_reports import CLOSED, ITEMS, MAXIMAL, NINE_BASKETS, RULES, SETS


class Files(unittest.TestCase):
    """Inputs that are named, and standard input."""

    def test_a_file_says_what_standard_input_would(self) -> None:
        rows = (
            ("items --min 2", NINE_BASKETS, ITEMS),
            ("sets --min 2", NINE_BASKETS, SETS),
            ("closed --min 2", NINE_BASKETS, CLOSED),
            ("maximal --min 2", NINE_BASKETS, MAXIMAL),
            ("rules --min 2 --conf 7/10", NINE_BASKETS, RULES),
            ("items --min 2 --form baskets", b"milk\nmilk\n", "2,milk|"),
            ("items --min 2 --form single", b"a,milk\nb,milk\n", "2,milk|"),
            ("sets --min 2 --form counts", text_of(SETS), SETS),
        )
        with tempfile.TemporaryDirectory() as folder:
            for words, given, wanted in rows:
                file = Path(folder, "an input")
                file.write_bytes(given)
                for name, stdin in ((str(file), b"x"), ("-", given)):
                    with self.subTest(words=words, name=name):
                        ended = run([*words.split(), name], stdin)
                        self.assertEqual(
                            (lines_of(ended.out), ended.said), (wanted, "")
                        )

    def test_either_the_sets_or_the_baskets_may_be_standard_input(self) -> None:
        asked, wanted = b"1 2\n", "(9)|1 2 (4)|"
        with tempfile.TemporaryDirectory() as folder:
            sets, baskets = Path(folder, "sets"), Path(folder, "baskets")
            sets.write_bytes(asked)
            baskets.write_bytes(NINE_BASKETS)
            rows = (
                ([str(sets), str(baskets)], b"x"),
                ([str(sets)], NINE_BASKETS),
                ([str(sets), "-"], NINE_BASKETS),
                (["-", str(baskets)], asked),
            )
            for words, given in rows:
                with self.subTest(words=words):
                    ended = run(["count", "--sets", *words], given)
                    self.assertEqual((lines_of(ended.out), ended.said), (wanted, ""))

    def test_a_file_that_cannot_be_opened_is_told_and_ends_with_4(self) -> None:
        for words in (
            ["items", "--min", "1", "no such file"],
            ["sets", "--min", "1", "--form", "counts", "no such file"],
            ["rules", "--min", "1", "--conf", "1/2", "no such file"],
            ["count", "--sets", os.devnull, "no such file"],
            ["count", "--sets", "no such file"],
        ):
            with self.subTest(words=words):
                ended = run(words)
                self.assertTrue(
                    ended.said.startswith("basket: cannot open no such file: "),
                    ended.said,
                )
                self.assertEqual((ended.out, ended.status), (b"", 4))

    def test_a_file_that_cannot_be_read_ends_with_4(self) -> None:
        rows = (
            (["sets", "--min", "1"], "cannot read the input"),
            (["sets", "--min", "1", "--form", "counts"], "cannot read the input"),
            (["count", "--sets", os.devnull], "cannot read the input"),
            (["count", os.devnull, "--sets"], "in the sets: cannot read the input"),
        )
        with tempfile.TemporaryDirectory() as folder:
            for words, told in rows:
                with self.subTest(words=words):
                    ended = run([*words, folder])
                    self.assertEqual(
                        (ended.out, ended.said, ended.status),
                        (b"", f"basket: {told}\n", 4),
                    )
