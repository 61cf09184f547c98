"""Given sets counted in parts of the baskets, and questions to the counts of all parts together."""

import functools
import itertools
import tempfile
import unittest
from pathlib import Path

from . import inputs
from .inputs import lines_of, text_of
from .program import Run, run, run_script
from .test_reports import (
    CLOSED,
    ITEMS,
    MAXIMAL,
    MORE_RULES,
    NINE_BASKETS,
    SETS,
    WEIGHTED,
)

# Of the nine baskets at two in nine, however they are cut: words and report, with a bar for each line feed.
WHOLE = (
    ("items --min 2/9", ITEMS),
    ("sets --min 2/9", SETS),
    ("closed --min 2/9", CLOSED),
    ("maximal --min 2/9", MAXIMAL),
    ("rules --min 2/9 --conf 2/3", MORE_RULES),
)

# Parts with a bar for each line feed, words, and the report of all baskets.
PARTS: tuple[tuple[tuple[str, ...], str, str], ...] = (
    # A part without a basket, and a part without a set that is frequent in it.
    (("", "1 2|2 3|"), "sets --min 2/2", "2 (2)|"),
    (("", ""), "sets --min 1/2", ""),
    (("", ""), "rules --min 1/2 --conf 0/1", ""),
    (("1 2|1 2|1 2|", "3|4|"), "sets --min 60%", "1 (3)|2 (3)|1 2 (3)|"),
    (("1|2|3|", "4|5|6|"), "closed --min 1/2", ""),
    # At a share of nothing each set of some basket is frequent.
    (("1 2|", "2 3|"), "sets --min 0%", "1 (1)|2 (2)|3 (1)|1 2 (1)|2 3 (1)|"),
    (("1 2|", "2 3|"), "closed --min 0/1", "2 (2)|1 2 (1)|2 3 (1)|"),
    (("1 2|", "2 3|"), "maximal --min 0/7", "1 2 (1)|2 3 (1)|"),
    # A line with a weight stands for as many baskets in its part too.
    (("3x 1 2|", "1|"), "sets --min 75%", "1 (4)|2 (3)|1 2 (3)|"),
    (
        ("1|", "3x 1 2|"),
        "rules --min 3/4 --conf 3/4",
        "2 => 1 (3) 1/1 1/1|1 => 2 (3) 3/4 1/1|",
    ),
    (("4294967295x 7|", "1x 7|"), "sets --min 100%", "7 (4294967296)|"),
)

# The file of the sets, and what is written of the nine baskets, with a bar for each line feed.
ASKED = (
    ("", "(9)|"),
    ("(15)", "(9)|"),
    ("2|1", "(9)|2 (7)|1 (6)|"),
    ("1 2 5|2|1 5|1 2 5|2", "(9)|1 2 5 (2)|2 (7)|1 5 (2)|"),
    ("5 1 2|2 5 1 1|1 2 5 (2)", "(9)|1 2 5 (2)|"),
    ("1 2 (99)|2 (0|3(|4(7)", "(9)|1 2 (4)|2 (7)|3 (6)|4 (2)|"),
    ("6|3 6|4 5|1 2 3 4 5", "(9)|6 (0)|3 6 (0)|4 5 (0)|1 2 3 4 5 (0)|"),
    ("\ufeff|  2\t1 \r|| 3|", "(9)|1 2 (4)|3 (6)|"),
    ("4294967295|0007", "(9)|4294967295 (0)|7 (0)|"),
)

NO_BYTE = "byte 0x78 is no digit or blank"

# The file of the sets, the input in the form of a name, and what is told. Each ends with 3.
NOT_COUNTED = (
    ("1|2x", "fimi", "1|", f"in the sets: line 2: {NO_BYTE}"),
    ("1 (2) 3", "fimi", "1|", "in the sets: line 1: byte 0x33 is no digit or blank"),
    ("4294967296", "fimi", "1|", "in the sets: line 1: number above 4294967295"),
    ("1 (1099511627776)", "fimi", "1|", "in the sets: line 1: count above 10995"),
    ("x", "fimi", "x", f"in the sets: line 1: {NO_BYTE}"),
    ("1", "fimi", "1|(2)|", "line 2: byte 0x28 is no digit or blank"),
    ("1", "fimi", "4294967296", "line 1: number above 4294967295"),
    ("1", "counts", "(3)|3x 1 (2)|", f"line 2: {NO_BYTE}"),
    ("1", "counts", "(3)|1|", "line 2: no count in parentheses"),
    ("1", "counts", "1 (2)|", "the input has no count of set 0"),
    ("1|2|2|3", "counts", "(3)|1 (2)|3 (1)|", "the input has no count of set 2"),
    ("1|2|1|3", "counts", "(3)|1 (2)|2 (1)|", "the input has no count of set 3"),
    ("1", "counts", "(1)|(1099511627775)|", "total weight above 1099511627775"),
)


def counted(asked: bytes, given: bytes, *more: str) -> Run:
    """Counts the sets of a file over an input."""
    with tempfile.NamedTemporaryFile() as sets:
        sets.write(asked)
        sets.flush()
        return run(["count", "--sets", sets.name, *more], given)


@functools.cache
def frequent_in(part: bytes, minimum: str) -> bytes:
    """The sets that are frequent in a part."""
    return run(["sets", "--min", minimum], part).out


def frequent_in_some(parts: list[bytes], minimum: str) -> bytes:
    """The sets that are frequent in some part, those of one part after those of another."""
    return b"".join(frequent_in(part, minimum) for part in parts)


def counts_of(parts: list[bytes], asked: bytes) -> bytes:
    """The counts of sets in each part, one part after another."""
    return b"".join(counted(asked, part).out for part in parts)


def minimum_in(words: str) -> str:
    return words.partition("--min ")[2].partition(" ")[0]


def ways_to_cut(baskets: bytes) -> list[list[bytes]]:
    """Each way to cut the lines into one or more parts."""
    lines = baskets.splitlines(keepends=True)
    ways = []
    for ends in itertools.product((False, True), repeat=len(lines) - 1):
        parts = [lines[0]]
        for is_cut, line in zip(ends, lines[1:]):
            if is_cut:
                parts.append(line)
            else:
                parts[-1] += line
        ways.append(parts)
    return ways


class Parts(unittest.TestCase):
    """What the parts of some baskets say of all of them."""

    def test_the_nine_baskets_cut_in_each_way_give_the_report_of_the_whole(
        self,
    ) -> None:
        ways = ways_to_cut(NINE_BASKETS)
        self.assertEqual(len(ways), 256)
        for parts in ways + ways_to_cut(WEIGHTED):
            counts = counts_of(parts, frequent_in_some(parts, "2/9"))
            for words, wanted in WHOLE:
                with self.subTest(parts=parts, words=words):
                    ended = run([*words.split(), "--form", "counts"], counts)
                    self.assertEqual((lines_of(ended.out), ended.said), (wanted, ""))

    def test_parts_of_any_kind_give_the_report_of_the_whole(self) -> None:
        for parts, words, wanted in PARTS:
            with self.subTest(parts=parts, words=words):
                baskets = [text_of(part) for part in parts]
                asked = frequent_in_some(baskets, minimum_in(words))
                for form, given in (
                    ("counts", counts_of(baskets, asked)),
                    ("fimi", b"".join(baskets)),
                ):
                    ended = run([*words.split(), "--form", form], given)
                    self.assertEqual((lines_of(ended.out), ended.said), (wanted, ""))

    def test_counts_of_counts_are_the_counts_of_all_baskets(self) -> None:
        parts = NINE_BASKETS.splitlines(keepends=True)
        asked = b"4 5\n" + frequent_in_some(parts, "2/9")
        leaves = [counts_of([part], asked) for part in parts]
        joined = [b"".join(leaves[start : start + 4]) for start in (0, 4, 8)]
        branches = [counted(asked, leaf, "--form", "counts").out for leaf in joined]
        root = counted(asked, b"".join(branches), "--form", "counts").out
        self.assertTrue(root.startswith(b"(9)\n4 5 (0)\n"))
        self.assertEqual(root, counted(asked, NINE_BASKETS).out)
        for (words, wanted), counts in itertools.product(
            WHOLE, (root, b"".join(branches), b"".join(leaves))
        ):
            with self.subTest(words=words):
                ended = run([*words.split(), "--form", "counts"], counts)
                self.assertEqual((lines_of(ended.out), ended.said), (wanted, ""))


class Count(unittest.TestCase):
    """What `count` writes."""

    def test_each_set_is_counted_once_at_its_first_place_after_the_empty_set(
        self,
    ) -> None:
        for (asked, wanted), workers, pieces, given in itertools.product(
            ASKED, ("1", "4"), ("1", "16"), (NINE_BASKETS, WEIGHTED)
        ):
            with self.subTest(asked=asked, workers=workers, pieces=pieces):
                more = ["--workers", workers, "--pieces", pieces]
                ended = counted(text_of(asked), given, *more)
                self.assertEqual((lines_of(ended.out), ended.said), (wanted, ""))

    def test_the_sets_of_a_report_are_counted_as_the_report_says(self) -> None:
        ended = counted(text_of(SETS), NINE_BASKETS)
        self.assertEqual(lines_of(ended.out), f"(9)|{SETS}")
        ended = counted(text_of(SETS), ended.out, "--form", "counts")
        self.assertEqual(lines_of(ended.out), f"(9)|{SETS}")

    def test_lines_of_few_items_and_of_thousands_are_written_by_any_number_of_workers(
        self,
    ) -> None:
        sets = [
            list(range(place, place + (3_000 if place % 500 == 0 else 2)))
            for place in range(1, 6_000)
        ]
        given = inputs.fimi([list(range(1, 10_000)), list(range(1, 5_001))])
        wanted = "(2)\n" + "".join(
            f"{' '.join(map(str, items))} ({1 + (items[-1] <= 5_000)})\n"
            for items in sets
        )
        for workers in ("1", "4"):
            with self.subTest(workers=workers):
                ended = counted(inputs.fimi(sets), given, "--workers", workers)
                self.assertEqual((ended.out.decode(), ended.said), (wanted, ""))

    def test_the_example_of_help_holds(self) -> None:
        said = run(["count", "--help"]).out.decode()
        examples = said.partition("Examples:\n")[2].partition("\n\n")[0].splitlines()
        commands = [line for line in examples if "printf" in line]
        wanted = [line for line in examples if "printf" not in line]
        with tempfile.TemporaryDirectory() as folder:
            ended = run_script(";".join(commands), Path(folder))
        self.assertEqual(
            [f"  {line}" for line in ended.out.decode().splitlines()], wanted
        )
        self.assertEqual((len(commands), len(wanted)), (4, 7))

    def test_a_set_or_an_input_that_is_refused_is_told_and_nothing_is_written(
        self,
    ) -> None:
        for asked, form, given, told in NOT_COUNTED:
            with self.subTest(asked=asked, form=form, given=given):
                ended = counted(text_of(asked), text_of(given), "--form", form)
                self.assertTrue(ended.said.startswith(f"basket: {told}"), ended.said)
                self.assertEqual((ended.out, ended.status), (b"", 3))

    def test_words_that_make_no_plan_are_told(self) -> None:
        form = (
            "basket: bad value for --form (fimi, baskets, single, counts, csv-counts)\n"
        )
        both = "basket: --sets and the baskets are both standard input\n"
        rows: tuple[tuple[list[str], str], ...] = (
            (["--sets", "x", "--form", "csv"], form),
            (["--sets", "x", "--sep", "x"], "bad value for --sep"),
            (["--sets", "-"], both),
            (["--sets", "-", "-"], both),
            ([], "--sets <FILE>"),
            (["--sets", "x", "--min", "1"], "'--min'"),
            (["--sets", "x", "--workers", "65"], "'65'"),
        )
        for words, part in rows:
            with self.subTest(words=words):
                ended = run(["count", *words])
                self.assertIn(part, ended.said)
                self.assertEqual((ended.out, ended.status), (b"", 2))
