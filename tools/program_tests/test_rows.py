"""Worked examples by each miner, at and below their limits, and inputs and outputs that end at each byte."""

import csv
import io
import itertools
import resource
import signal
import subprocess
import tempfile
import unittest
from collections import Counter
from functools import partial

from . import inputs
from .program import MINERS, PROGRAM, SECONDS, run
from .test_reports import (
    CLOSED,
    ITEMS,
    MAXIMAL,
    MORE_RULES,
    NINE_BASKETS,
    SEMI_SKIM,
    SETS,
    SEVEN_SETS,
    WEIGHTED,
)

WORKERS = ("1", "2", "7")
FOUR_BASKETS = b"1 2 3\n1 3\n1 2\n1 2\n"
FOUR_BASKETS_SETS = "1 (4)|2 (3)|3 (2)|1 2 (3)|1 3 (2)|2 3 (1)|1 2 3 (1)|"

# Baskets, the least count, and the report of all their sets.
LISTED = (
    (b"1 2 3\n", "1", SEVEN_SETS),
    (FOUR_BASKETS, "1", FOUR_BASKETS_SETS),
    (NINE_BASKETS, "2", SETS),
)
COMMANDS = ("items", "sets", "closed", "maximal", "rules --conf 0/1")


def sets_of(baskets: list[set[str]], least: int) -> list[tuple[int, tuple[str, ...]]]:
    """The sets that are in enough baskets, with how many these are, by the plain definition."""
    counts = Counter(
        names
        for basket in baskets
        for size in range(1, len(basket) + 1)
        for names in itertools.combinations(sorted(basket), size)
    )
    return [(count, names) for names, count in counts.items() if count >= least]


def end_at(count: int) -> None:
    """Has a file that the process writes end at this many bytes."""
    signal.signal(signal.SIGXFSZ, signal.SIG_IGN)
    resource.setrlimit(resource.RLIMIT_FSIZE, (count, count))


class Examples(unittest.TestCase):
    """Reports that were worked out by hand."""

    def test_each_miner_lists_all_sets_at_the_limit_and_none_below(self) -> None:
        for (given, least, report), miner, workers in itertools.product(
            LISTED, MINERS, WORKERS
        ):
            words = ["sets", "--min", least, "--miner", miner, "--workers", workers]
            count = report.count("|")
            with self.subTest(words=words, given=given):
                ended = run([*words, "--limit", str(count)], given)
                self.assertEqual(
                    (inputs.lines_of(ended.out), ended.said, ended.status),
                    (report, "", 0),
                )
                ended = run([*words, "--limit", str(count - 1)], given)
                said = f"basket: more than {count - 1} frequent itemsets\n"
                self.assertEqual((ended.out, ended.said, ended.status), (b"", said, 5))

    def test_closed_and_maximal_sets_and_rules_are_below_the_limit_with_their_sets(
        self,
    ) -> None:
        for words, miner, workers in itertools.product(
            ("closed", "maximal", "rules --conf 1/1"), MINERS, WORKERS
        ):
            more = f"--min 2 --limit 12 --miner {miner} --workers {workers}"
            with self.subTest(words=words, more=more):
                ended = run([*words.split(), *more.split()], NINE_BASKETS)
                said = "basket: more than 12 frequent itemsets\n"
                self.assertEqual((ended.out, ended.said, ended.status), (b"", said, 5))

    def test_each_miner_refuses_a_long_basket_at_once(self) -> None:
        # 33 items have 8,589,934,591 sets, which is more than the default limit.
        for count, miner, workers in itertools.product(
            (33, 70_000), MINERS, ("1", "2")
        ):
            given = f"{' '.join(map(str, range(1, count + 1)))}\n".encode()
            words = ["sets", "--min", "1", "--miner", miner, "--workers", workers]
            with self.subTest(words=words, count=count):
                ended = run(words, given)
                said = "basket: more than 4294967295 frequent itemsets\n"
                self.assertEqual((ended.out, ended.said, ended.status), (b"", said, 5))

    def test_of_no_basket_each_command_writes_nothing(self) -> None:
        for words, given in itertools.product(
            COMMANDS, (b"", b"\xef\xbb\xbf\r\n \n", b"\n\n", b"3x\n")
        ):
            with self.subTest(words=words, given=given):
                ended = run([*words.split(), "--min", "1"], given)
                self.assertEqual((ended.out, ended.said, ended.status), (b"", "", 0))

    def test_weights_stand_for_equal_baskets_in_each_command(self) -> None:
        rows = (
            ("items --min 2", ITEMS),
            ("sets --min 2/9", SETS),
            ("closed --min 22%", CLOSED),
            ("maximal --min 2", MAXIMAL),
            ("rules --min 2 --conf 2/3", MORE_RULES),
            ("items --min 100%", ""),
        )
        for (words, report), given in itertools.product(rows, (NINE_BASKETS, WEIGHTED)):
            with self.subTest(words=words, given=given):
                ended = run(words.split(), given)
                self.assertEqual(
                    (inputs.lines_of(ended.out), ended.said, ended.status),
                    (report, "", 0),
                )

    def test_a_blank_line_is_no_basket_of_a_share(self) -> None:
        ended = run(["items", "--min", "100%"], b"2 10\n\n2\n")
        self.assertEqual((ended.out, ended.said, ended.status), (b"2 (2)\n", "", 0))


class Ends(unittest.TestCase):
    """Inputs and outputs that end before their last byte."""

    def test_a_text_that_ends_at_any_byte_is_an_input(self) -> None:
        for end in range(len(NINE_BASKETS) + 1):
            given = NINE_BASKETS[:end]
            lines = (set(line.split()) for line in given.decode().splitlines())
            found = sets_of([basket for basket in lines if basket], 2)
            report = "".join(
                f"{' '.join(names)} ({count})\n"
                for count, names in sorted(found, key=lambda row: (len(row[1]), row[1]))
            )
            with self.subTest(given=given):
                ended = run(["sets", "--min", "2"], given)
                self.assertEqual(
                    (ended.out.decode(), ended.said, ended.status), (report, "", 0)
                )

    def test_records_that_end_at_any_byte_are_an_input(self) -> None:
        for end in range(len(SEMI_SKIM) + 1):
            given = SEMI_SKIM[:end]
            records = list(csv.reader(io.StringIO(given.decode(), newline="")))
            baskets = [
                {name.strip(" \t") for name in names} - {""} for names in records
            ]
            ended = run("sets --form baskets --min 1".split(), given)
            report = csv.reader(io.StringIO(ended.out.decode(), newline=""))
            with self.subTest(given=given):
                self.assertEqual((ended.said, ended.status), ("", 0))
                self.assertEqual(
                    sorted(
                        (int(count), tuple(sorted(set_))) for count, *set_ in report
                    ),
                    sorted(sets_of(baskets, 1)),
                )

    def test_an_output_that_ends_at_any_byte_has_a_prefix_of_the_report(self) -> None:
        report = inputs.text_of(SETS)
        for end in range(len(report) + 1):
            with self.subTest(end=end), tempfile.TemporaryFile() as taken:
                ended = subprocess.run(
                    [PROGRAM, "sets", "--min", "2"],
                    input=NINE_BASKETS,
                    stdout=taken,
                    stderr=subprocess.PIPE,
                    timeout=SECONDS,
                    preexec_fn=partial(end_at, end),
                    check=False,
                )
                taken.seek(0)
                self.assertEqual(taken.read(), report[:end])
                said = (
                    b"" if end == len(report) else b"basket: cannot write the report\n"
                )
                self.assertEqual(
                    (ended.stderr, ended.returncode), (said, 4 if said else 0)
                )
