"""Questions to sets with their counts."""

import unittest

from .inputs import lines_of, text_of
from .program import run
from .test_reports import CLOSED, SETS

# Words, sets with their counts, and the report, with a bar for each line feed.
COUNTED = (
    ("items --min 2", "1 2 (5)|3 (1)|2 (4)|1 (2)|", "1 (2)|2 (4)|"),
    ("sets --min 2", "2 1 (2)|2 (1)|1 (3)|2 (2)|", "1 (3)|2 (3)|1 2 (2)|"),
    ("sets --min 50%", "(2)|1 (1)|(2)|1 (1)|2 (1)|", "1 (2)|"),
    # Only closed and maximal sets and rules need the subsets, and the empty set may be missing.
    ("sets --min 2", "1 2 (2)|", "1 2 (2)|"),
    ("closed --min 2", "1 (2)|2 (3)|1 2 (2)|", "2 (3)|1 2 (2)|"),
    ("maximal --min 2", "1 (2)|2 (3)|1 2 (2)|", "1 2 (2)|"),
    ("closed --min 3", "(9)|1 2 (2)|1 (3)|", "1 (3)|"),
    ("rules --min 2 --conf 0%", "(3)|1 2 (1)|1 (2)|", ""),
    # A count of 0 adds nothing and meets no minimum.
    ("sets --min 0%", "(3)|1 (0)|2 (0)|2 (1)|", "2 (1)|"),
    ("sets --min 0%", "(0)|1 (0)|", ""),
    ("sets --min 1", "", ""),
    ("sets --min 1", "\ufeff| |(1)\t|1(1)|", "1 (1)|"),
    ("sets --min 1", "1 (1099511627774)|1 (1)|", "1 (1099511627775)|"),
    ("items --min 1 --limit 1", "1 (1)|2 (1)|", "1 (1)|2 (1)|"),
)

NO_BYTE = "byte 0x78 is no digit or blank"
NO_TOTAL = "no count of the empty set, as (15), which a share and rules need"
NO_SUBSET = "a subset of one item less is missing or has a lower count"

# Words, sets with their counts, and what is told. Each ends with 3.
REFUSED = (
    ("sets --min 1", "1 (2)|2x 1 (3)|", f"line 2: {NO_BYTE}"),
    ("sets --min 1", "1 ()|", "line 1: byte 0x29 is no digit or blank"),
    ("sets --min 1", "4294967296 (1)|", "line 1: number above 4294967295"),
    ("sets --min 1", "|1 (1099511627776)|", "line 2: count above 1099511627775"),
    ("items --min 1", "1 (2)|2|3|", "line 2: no count in parentheses"),
    ("sets --min 1", "1 (2)|2 (3|", "line 2: no count in parentheses"),
    ("sets --min 1", "1|x|", f"line 2: {NO_BYTE}"),
    ("sets --min 1", "1 (1099511627775)|1 (1)|", "total weight above 1099511627775"),
    ("sets --min 1", "(1)|(1099511627775)|", "total weight above 1099511627775"),
    ("items --min 1/2", "1 (2)|", NO_TOTAL),
    ("sets --min 50%", "", NO_TOTAL),
    ("closed --min 0%", "1 (2)|", NO_TOTAL),
    ("rules --min 1 --conf 0%", "1 (2)|", NO_TOTAL),
    ("closed --min 2", "(3)|1 (2)|1 2 (2)|", f"line or record 3: {NO_SUBSET}"),
    ("maximal --min 2", "1 2 (2)|2 (2)|1 (1)|", f"line or record 1: {NO_SUBSET}"),
    (
        "rules --min 1/2 --conf 1/2",
        "1 2 (2)|(3)|2 (2)|",
        f"line or record 1: {NO_SUBSET}",
    ),
    ("closed --min 2", "1 (3)|(2)|", f"line or record 1: {NO_SUBSET}"),
    (
        "closed --min 2",
        "1 (1)|2 (2)|1 2 (1)|1 2 (1)|",
        f"line or record 3: {NO_SUBSET}",
    ),
    ("closed --min 1", "1 2 3 (1)|4 5 (1)|", f"line or record 2: {NO_SUBSET}"),
)

# How many lines a list has that several threads read, each a set of one item.
LONG = 90_000

# A line of a long list, what stands in it, and what is reported.
LONG_REFUSED = (
    (1, "1 x (1)", f"line 1: {NO_BYTE}"),
    (LONG, f"{LONG} x (1)", f"line {LONG}: {NO_BYTE}"),
    (60_000, "4294967296 (1)", "line 60000: number above 4294967295"),
    (60_000, "7 (1099511627776)", "line 60000: count above 1099511627775"),
    (60_000, "7 (1) 2", "line 60000: byte 0x32 is no digit or blank"),
    (60_000, "7", "line 60000: no count in parentheses"),
)


def long_list(odd: int = 0, line: str = "") -> bytes:
    """A line for each item from 1 on, with its count, and one line that is another."""
    lines = [f"{item} (1)" for item in range(1, LONG + 1)]
    if odd:
        lines[odd - 1] = line
    return "".join(f"{line}\n" for line in lines).encode()


class Counted(unittest.TestCase):
    """Questions to sets with their counts."""

    def test_a_report_has_the_sets_that_meet_the_minimum(self) -> None:
        for words, given, wanted in COUNTED:
            with self.subTest(words=words, given=given):
                ended = run([*words.split(), "--form", "counts"], text_of(given))
                self.assertEqual(
                    (lines_of(ended.out), ended.said, ended.status), (wanted, "", 0)
                )

    def test_a_report_is_an_input_of_the_same_report(self) -> None:
        for words, wanted in (("sets --min 2/9", SETS), ("closed --min 2/9", CLOSED)):
            with self.subTest(words=words):
                given = text_of(f"(9)|{SETS}")
                ended = run([*words.split(), "--form", "counts"], given)
                self.assertEqual(lines_of(ended.out), wanted)

    def test_a_refused_input_is_told_and_nothing_is_written(self) -> None:
        for words, given, told in REFUSED:
            with self.subTest(words=words, given=given):
                ended = run([*words.split(), "--form", "counts"], text_of(given))
                said = f"basket: {told}\n"
                self.assertEqual((ended.out, ended.said, ended.status), (b"", said, 3))

    def test_more_sets_than_the_limit_end_with_5(self) -> None:
        given = text_of("(3)|1 (2)|2 (1)|")
        for words in ("sets", "closed", "maximal", "rules --conf 1/1"):
            with self.subTest(words=words):
                more = ["--min", "1", "--form", "counts", "--limit", "1"]
                ended = run([*words.split(), *more], given)
                said = "basket: more than 1 frequent itemsets\n"
                self.assertEqual((ended.out, ended.said, ended.status), (b"", said, 5))

    def test_several_threads_read_what_one_reads(self) -> None:
        words = ["sets", "--min", "1", "--form", "counts", "--workers"]
        for workers in (1, 2, 4, 7):
            with self.subTest(workers=workers):
                # The list is in the order of its report.
                ended = run([*words, str(workers)], long_list())
                self.assertEqual((ended.out, ended.said), (long_list(), ""))
            for odd, line, told in LONG_REFUSED:
                with self.subTest(workers=workers, line=line):
                    ended = run([*words, str(workers)], long_list(odd, line))
                    said = f"basket: {told}\n"
                    self.assertEqual(
                        (ended.out, ended.said, ended.status), (b"", said, 3)
                    )

    def test_the_first_fault_of_several_parts_is_told(self) -> None:
        words = ["sets", "--min", "1", "--form", "counts", "--workers"]
        # A count that is missing is reported only if the text has no other fault.
        for line, told in (("x", 40_000), ("7 (", 80_000)):
            given = long_list(40_000, line).replace(b"80000 (1)", b"x")
            for workers in (1, 2, 4):
                with self.subTest(line=line, workers=workers):
                    ended = run([*words, str(workers)], given)
                    self.assertEqual(ended.said, f"basket: line {told}: {NO_BYTE}\n")
