"""Exit statuses, and where each text goes."""

import os
import resource
import tempfile
import unittest

from .program import ROOT, run, run_between

ITEMS = ["items", "--min", "1"]
SETS = ["sets", "--min", "1"]
SHOP = str(ROOT / "examples/shop.dat")


def little_memory() -> None:
    """Leaves the process 64 MB of addresses."""
    resource.setrlimit(resource.RLIMIT_AS, (1 << 26, 1 << 26))


class Statuses(unittest.TestCase):
    """What the program writes, and on which stream it says why it failed."""

    def test_a_report_goes_to_standard_output_and_ends_with_0(self) -> None:
        ended = run(SETS, b"1 2\n")
        self.assertEqual(
            (ended.out, ended.said, ended.status), (b"1 (1)\n2 (1)\n1 2 (1)\n", "", 0)
        )

    def test_help_and_the_version_go_to_standard_output_and_end_with_0(self) -> None:
        for words in (["--help"], ["sets", "--help"], ["-h"], ["--version"], ["-V"]):
            with self.subTest(words=words):
                ended = run(words)
                self.assertTrue(ended.out)
                self.assertEqual((ended.said, ended.status), ("", 0))

    def test_a_mistake_in_the_words_is_told_on_standard_error_and_ends_with_2(
        self,
    ) -> None:
        rows: tuple[tuple[list[str | bytes], str], ...] = (
            ([], "Usage: basket"),
            (["things"], "'things'"),
            (["sets"], "--min"),
            (["sets", "--min", "0"], "basket: bad value for --min\n"),
            (["rules", "--min", "1", "--conf", "2"], "basket: bad value for --conf\n"),
            (
                ["sets", "--min", "1", "--miner", "fp"],
                "basket: bad value for --miner (apriori, ",
            ),
            (["sets", "--min", "1", "--workers", "65"], "'65'"),
            (
                ["sets", "--min", b"\xff"],
                "basket: the command line is not UTF-8 text\n",
            ),
        )
        for words, text in rows:
            with self.subTest(words=words):
                ended = run([os.fsdecode(word) for word in words])
                self.assertIn(text, ended.said)
                self.assertEqual((ended.out, ended.status), (b"", 2))

    def test_a_refused_input_is_told_on_standard_error_and_ends_with_3(self) -> None:
        ended = run(SETS, b"1 2\n3 -\n")
        said = "basket: line 2: byte 0x2D is no digit or blank\n"
        self.assertEqual((ended.out, ended.said, ended.status), (b"", said, 3))

    def test_a_file_that_is_too_long_is_refused_before_it_is_read(self) -> None:
        with tempfile.TemporaryDirectory() as folder:
            # Its first byte is a fault too, and is not read.
            path = os.path.join(folder, "long")
            with open(path, "wb") as file:
                file.truncate(1 << 32)
            said = "basket: input is longer than 4294967295 bytes\n"
            for words in ([*SETS, path], ["count", "--sets", path, SHOP]):
                with self.subTest(words=words):
                    ended = run(words)
                    self.assertEqual(
                        (ended.out, ended.said, ended.status), (b"", said, 3)
                    )

    def test_an_input_that_cannot_be_read_ends_with_4(self) -> None:
        with tempfile.TemporaryDirectory() as folder:
            ended = run_between(SETS, folder, os.devnull)
        self.assertEqual(
            (ended.said, ended.status), ("basket: cannot read the input\n", 4)
        )

    def test_an_output_that_takes_nothing_ends_with_4(self) -> None:
        with tempfile.NamedTemporaryFile() as baskets:
            baskets.write(b"1 2\n")
            baskets.flush()
            for words in (ITEMS, SETS):
                with self.subTest(words=words):
                    ended = run_between(words, baskets.name, "/dev/full")
                    said = "basket: cannot write the report\n"
                    self.assertEqual((ended.said, ended.status), (said, 4))
        ended = run_between(["--help"], os.devnull, "/dev/full")
        self.assertEqual(ended.status, 4)

    def test_more_sets_than_the_limit_end_with_5(self) -> None:
        ended = run([*SETS, "--limit", "2"], b"1 2\n")
        said = "basket: more than 2 frequent itemsets\n"
        self.assertEqual((ended.out, ended.said, ended.status), (b"", said, 5))

    def test_want_of_memory_ends_with_6(self) -> None:
        many = b"".join(b"%d %d\n" % (place, place + 1) for place in range(2_000_000))
        ended = run(SETS, many, little_memory)
        said = "basket: out of memory\n"
        self.assertEqual((ended.out, ended.said, ended.status), (b"", said, 6))


class Closed(unittest.TestCase):
    """Standard streams that are closed before the program starts."""

    def test_a_closed_standard_input_ends_with_4_and_no_file_takes_its_place(
        self,
    ) -> None:
        with tempfile.NamedTemporaryFile() as file:
            file.write(b"1 2\n2\n")
            file.flush()
            rows = (
                (ITEMS, "basket: cannot read the input\n"),
                (["count", "--sets", file.name], "basket: cannot read the input\n"),
                (
                    ["count", "--sets", "-", file.name],
                    "basket: in the sets: cannot read the input\n",
                ),
            )
            for words, text in rows:
                with self.subTest(words=words):
                    ended = run(list(words), prepare=lambda: os.close(0))
                    self.assertEqual(
                        (ended.out, ended.said, ended.status), (b"", text, 4)
                    )
            ended = run([*SETS, file.name], prepare=lambda: os.close(0))
            self.assertEqual((ended.out, ended.status), (b"1 (1)\n2 (2)\n1 2 (1)\n", 0))

    def test_a_closed_standard_output_ends_with_4_and_leaves_files_alone(self) -> None:
        with tempfile.NamedTemporaryFile() as file:
            file.write(b"1 2\n")
            file.flush()
            for words in (
                [*SETS, file.name],
                ["count", "--sets", file.name, file.name],
            ):
                with self.subTest(words=words):
                    ended = run(words, prepare=lambda: os.close(1))
                    self.assertEqual(
                        (ended.out, ended.said, ended.status),
                        (b"", "basket: cannot write the report\n", 4),
                    )
            self.assertEqual(file.seek(0), 0)
            self.assertEqual(file.read(), b"1 2\n")

    def test_a_closed_standard_error_changes_neither_report_nor_status(self) -> None:
        rows = ((b"1 2\n", b"1 (1)\n2 (1)\n1 2 (1)\n", 0), (b"1 -\n", b"", 3))
        for given, report, status in rows:
            ended = run(SETS, given, prepare=lambda: os.close(2))
            self.assertEqual(
                (ended.out, ended.said, ended.status), (report, "", status)
            )
