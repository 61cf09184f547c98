"""Advice at a terminal, and that nothing of it is there without one."""

import gzip
import os
import pty
import subprocess
import tempfile
import unittest
from pathlib import Path

from .program import PROGRAM, ROOT, SECONDS, run, run_at_terminal, run_script

SETS = ["sets", "--min", "2"]
SHOP = str(ROOT / "examples/shop.dat")
RECEIPTS = str(ROOT / "examples/receipts.csv")


def said_at_terminal(words: list[str], given: bytes = b"") -> list[str]:
    """The lines that the program writes to a terminal as its standard error."""
    return run_at_terminal(words, given).said.splitlines()


def look_at(file: str) -> str:
    """The line of advice that points to a file with a plain name."""
    return f"hint: `basket look {file}` says what is in the file"


class Advice(unittest.TestCase):
    """A line that begins with `hint: ` after a fault, or after a report that may surprise."""

    def test_words_that_are_refused_get_the_forms_that_are_taken(self) -> None:
        least = "--min takes a number of baskets, as 20, or a share of all baskets, as 5% or 1/200"
        rows: tuple[tuple[list[str], str], ...] = (
            (["sets", "--min", "0.2"], f"{least}; 0.2 is 20% or 1/5"),
            (["sets", "--min=.005"], f"{least}; .005 is 1/200"),
            (["sets", "--min", "0,2"], f"{least}; 0,2 is 20% or 1/5"),
            (["sets", "--min", "20.5%"], f"{least}; 20.5% is 41/200"),
            (["sets", "--min", "1,000"], least),
            (["sets", "--min", "0"], f"{least}; a count is at least 1"),
            (
                ["sets", "--min", "1099511627776"],
                f"{least}; a count is at most 1099511627775",
            ),
            (["sets", "--min", "120%"], f"{least}; a share is at most 100%"),
            (["sets", "--min", "3/2"], f"{least}; a share is at most 100%"),
            *(
                (
                    ["sets", "--min", share],
                    f"{least}; both numbers of a share are at most 4294967295, "
                    "and the second at least 1",
                )
                for share in ("1/0", "1/4294967296")
            ),
            (["sets", "--min", "20 %"], least),
            (["sets", "--min", "-5"], least),
            ([*SETS, "--conf", "1/2"], "only `rules` takes --conf"),
            (
                ["count", "--sets", "s", "--min", "2"],
                "`count` counts every set of --sets, so it takes no --min, --miner or --limit",
            ),
            (
                ["rules", "--min", "1", "--conf", "0.6"],
                "--conf takes a share, as 60% or 2/3; 0.6 is 60% or 3/5",
            ),
            (
                ["rules", "--min", "1", "--conf", "60"],
                "--conf takes a share, as 60% or 2/3; a number alone is no share: "
                "write a % behind it",
            ),
            *(
                ([*SETS, option, "x"], f"{option} takes a number {bounds}")
                for option, bounds in (
                    ("--workers", "of threads from 1 to 64"),
                    ("--pieces", "from 1 to 65536"),
                    ("--limit", "from 1 to 4294967295"),
                )
            ),
            (["sets", "--support", "2"], "--min is the least support"),
            (
                [*SETS, "--delimiter", ";"],
                "--sep says what separates fields: comma, semicolon, tab or pipe",
            ),
            *(
                (
                    [*SETS, option, "2"],
                    "the report has all that meet --min: choose among its lines",
                )
                for option in ("--top", "--lift", "--max-len")
            ),
            (
                [*SETS, "--threads", "2"],
                "--workers says how many threads share the work",
            ),
            ([*SETS, "--algorithm", "eclat"], "--miner names the algorithm"),
            (
                [*SETS, "--form", "csv"],
                "CSV is --form baskets, with a basket in each record, or --form single, "
                "with an item in each",
            ),
            *(
                (
                    [option, "2", "sets", SHOP],
                    "the command comes first: basket sets --min 2 FILE",
                )
                for option in ("--min", "--conf", "--workers")
            ),
            (
                [],
                "`basket help` explains these commands, and `basket look FILE` says what a file is",
            ),
            (
                ["help", "sets", "extra"],
                "`basket help` takes one command: basket help sets",
            ),
            ([*SETS[:2], "20", "%", "a.dat"], "a percentage is one word, as 20%"),
            (
                [*SETS, "a.dat", "b.dat"],
                "there is one input file: concatenate FIMI files (cat A B | basket ..), "
                "or count the parts and add up (`man basket`, PARTS)",
            ),
        )
        for words, text in rows:
            with self.subTest(words=words):
                said = said_at_terminal(words)
                self.assertEqual(said[-1], f"hint: {text}")
                self.assertEqual(said[:-1], run(words).said.splitlines())

    def test_names_where_numbers_belong_get_the_forms_of_names(self) -> None:
        said = said_at_terminal([*SETS, RECEIPTS])
        self.assertEqual(said[0], "basket: line 1: byte 0x72 is no digit or blank")
        self.assertEqual(
            said[1:],
            [
                f"hint: {RECEIPTS} has `r` there; names? try --form baskets or --form single",
                look_at(RECEIPTS),
            ],
        )
        self.assertEqual(
            said_at_terminal(SETS, b"1 -2\n")[1:],
            ["hint: standard input has `-` there"],
        )

    def test_what_is_no_text_of_utf_8_gets_no_remedy_for_another_encoding(self) -> None:
        zipped, wide = gzip.compress(b"1,milk\n"), "1,milk\n".encode("utf-16")
        name = "hint: standard input is no plain text:"
        for given, kind in (
            (zipped, "compressed? try `zcat FILE | basket ..`"),
            (wide, "UTF-16? try `iconv -f UTF-16 -t UTF-8 FILE | basket ..`"),
        ):
            with self.subTest(kind=kind):
                self.assertEqual(said_at_terminal(SETS, given)[1:], [f"{name} {kind}"])
                said = said_at_terminal([*SETS, "--form", "single"], given)
                self.assertEqual(
                    said[1:],
                    [
                        "hint: in standard input; it has to be UTF-8: `basket look` "
                        "says what it is, and how to change it"
                    ],
                )

    def test_a_fault_without_a_remedy_gets_no_empty_hint(self) -> None:
        heavy = b"4294967295x 1\n" * 257
        for given in (b"4294967296\n", heavy):
            self.assertEqual(len(said_at_terminal(SETS, given)), 1)

    def test_help_that_cannot_be_written_gets_the_reason_of_the_system(self) -> None:
        above, below = pty.openpty()
        with open("/dev/full", "wb") as full:
            ended = subprocess.run(
                [PROGRAM, "--help"], stdout=full, stderr=below, check=False
            )
        os.close(below)
        said = os.read(above, 65536).decode()
        os.close(above)
        reason = "hint: standard output: No space left on device (os error 28)\r\n"
        self.assertEqual((said, ended.returncode), (reason, 4))

    def test_a_file_with_an_odd_name_is_quoted_in_the_command_that_looks_at_it(
        self,
    ) -> None:
        with tempfile.TemporaryDirectory() as folder:
            odd = Path(folder, "it's a file")
            odd.write_bytes(b"1 -\n")
            said = said_at_terminal([*SETS, str(odd)])
            command = said[-1].split("`")[1]
            ended = run_script(command, Path(folder))
        self.assertEqual(command, f"basket look '{folder}/it'\\''s a file'")
        self.assertEqual((ended.said, ended.status), ("", 0))

    def test_faults_of_the_system_get_its_reason_and_limits_what_to_raise(self) -> None:
        self.assertEqual(
            said_at_terminal([*SETS, "/"])[1:],
            ["hint: /: Is a directory (os error 21)"],
        )
        self.assertEqual(
            said_at_terminal(["sets", "--min", "1", "--limit", "2", SHOP])[1:],
            ["hint: raise --min, or raise --limit"],
        )

    def test_a_counted_input_with_a_gap_gets_what_each_set_needs(self) -> None:
        with tempfile.TemporaryDirectory() as folder:
            given, asked = Path(folder, "given"), Path(folder, "asked")
            given.write_bytes(b"1 (5)\n1 2 (3)\n")
            asked.write_bytes(b"1\n7\n")
            words = ["closed", "--min", "2", "--form", "counts", str(given)]
            self.assertEqual(
                said_at_terminal(words)[1:],
                [
                    f"hint: in {given}; each set needs its subsets of one item less, "
                    "with counts that are no lower",
                    look_at(str(given)),
                ],
            )
            words = ["count", "--sets", str(asked), "--form", "counts", str(given)]
            self.assertEqual(
                said_at_terminal(words)[1:],
                [f"hint: {given} has no count of all baskets, as (15) or, in CSV, 15"],
            )
            given.write_bytes(b"(5)\n1 (5)\n")
            self.assertEqual(
                said_at_terminal(words)[1:],
                [
                    f"hint: {given} has no line for the set that is number 2 of those in {asked}"
                ],
            )

    def test_an_empty_report_says_what_nothing_met_and_how_to_see_the_file(
        self,
    ) -> None:
        self.assertEqual(
            said_at_terminal(["sets", "--min", "20", SHOP]),
            [
                f"hint: no set meets --min in {SHOP}",
                "hint: the greatest count of an item is 12",
                look_at(SHOP),
            ],
        )
        rows = (
            (["rules", "--min", "20", "--conf", "1/2"], "standard input"),
            (["rules", "--min", "20", "--conf", "1/2", "/dev/stdin"], "/dev/stdin"),
        )
        for words, name in rows:
            with self.subTest(words=words):
                self.assertEqual(
                    said_at_terminal(words, b"1\n"),
                    [
                        f"hint: no rule meets --min and --conf in {name}",
                        "hint: the greatest count of an item is 1",
                    ],
                )

    def test_the_greatest_count_is_told_of_each_form_and_without_an_item_that(
        self,
    ) -> None:
        rows: tuple[tuple[list[str], bytes, list[str]], ...] = (
            (["items"], b"3x 1 2\n2 3\n", ["the greatest count of an item is 4"]),
            (["sets"], b"3x 1 2\n2 3\n", ["the greatest count of an item is 4"]),
            (
                ["items", "--form", "baskets"],
                b"milk,jam\njam\n",
                ["the greatest count of an item is 2"],
            ),
            (
                ["closed", "--form", "single"],
                b"1,milk\n1,jam\n2,jam\n",
                ["the greatest count of an item is 2"],
            ),
            (["sets"], b"", ["the input has no item"]),
            (["items"], b"\n\n", ["the input has no item"]),
            (["sets", "--form", "counts"], b"(5)\n1 (5)\n", []),
        )
        for words, given, told in rows:
            with self.subTest(words=words, given=given):
                self.assertEqual(
                    said_at_terminal([*words, "--min", "9"], given)[1:],
                    [f"hint: {line}" for line in told],
                )

    def test_a_run_over_a_named_pipe_ends(self) -> None:
        rows: tuple[tuple[list[str], bytes, str], ...] = (
            (["sets", "--min", "5"], b"1 2\n", "hint: no set meets --min in "),
            (["sets", "--min", "1", "--form", "baskets"], b"milk\n", "$"),
            (["sets", "--min", "1"], b"milk\n", "basket: line 1: byte 0x6D"),
        )
        for words, given, text in rows:
            with self.subTest(words=words), tempfile.TemporaryDirectory() as folder:
                pipe = Path(folder, "pipe")
                os.mkfifo(pipe)
                with subprocess.Popen(
                    ["sh", "-c", f"cat > {pipe}"], stdin=subprocess.PIPE
                ) as writer:
                    assert writer.stdin
                    writer.stdin.write(given)
                    writer.stdin.close()
                    said = "".join(said_at_terminal([*words, str(pipe)]))
                self.assertRegex(said, f"^{text}")

    def test_who_sits_before_standard_input_is_told_that_it_is_read(self) -> None:
        above, below = pty.openpty()
        with subprocess.Popen(
            [PROGRAM, *SETS], stdin=below, stdout=subprocess.PIPE, stderr=below
        ) as process:
            os.close(below)
            said = os.read(above, 65536).decode()
            os.write(above, b"1 2\n1\n\x04")
            report, _ = process.communicate(timeout=SECONDS)
            os.close(above)
        self.assertIn("hint: reading standard input; Ctrl-D", said)
        self.assertEqual((report, process.returncode), (b"1 (2)\n", 0))

    def test_options_without_effect_are_named(self) -> None:
        self.assertEqual(
            said_at_terminal([*SETS, "--header", "--weight", SHOP]),
            [
                "hint: --header has no effect with --form fimi",
                "hint: --weight has no effect with --form fimi",
            ],
        )
        self.assertEqual(
            said_at_terminal([*SETS, "--form", "single", "--header", RECEIPTS]), []
        )

    def test_without_a_terminal_there_is_no_advice(self) -> None:
        rows: tuple[list[str], ...] = (
            ["sets", "--min", "0.2"],
            [*SETS, RECEIPTS],
            ["sets", "--min", "20", SHOP],
            [*SETS, "--header", SHOP],
            [*SETS, "--form", "single", RECEIPTS],
        )
        for words in rows:
            with self.subTest(words=words):
                self.assertNotIn("hint", run(words).said)
