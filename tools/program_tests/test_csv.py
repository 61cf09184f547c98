"""Reports of `sets` over CSV with odd names, read back by Python's `csv` and by the program itself."""

import csv
import io
import itertools
import random
import unittest
from collections import Counter

from .program import run

NAMES = (
    "bread",
    "semi, skim",
    'say "hi"',
    "two\nlines",
    "a;b",
    "tab\there",
    "x|y",
    "é",
    "€uro",
    "𝄞 clef",
    "green  tea",
    "'single'",
)
SEPARATORS = {"comma": ",", "semicolon": ";", "tab": "\t", "pipe": "|"}
MOST_ITEMS = 6
LEAST = 40

Sets = dict[tuple[str, ...], int]


def baskets_of(seed: str) -> list[list[str]]:
    source = random.Random(seed)
    return [source.sample(NAMES, source.randint(1, MOST_ITEMS)) for _ in range(400)]


def plain_sets(baskets: list[list[str]]) -> Sets:
    """The frequent sets of names with their counts, by every subset of every basket."""
    counts: Counter[tuple[str, ...]] = Counter()
    for basket in baskets:
        for size in range(1, len(basket) + 1):
            counts.update(itertools.combinations(sorted(basket), size))
    return {names: count for names, count in counts.items() if count >= LEAST}


def written(form: str, baskets: list[list[str]], separator: str) -> bytes:
    text = io.StringIO()
    writer = csv.writer(text, delimiter=separator, lineterminator="\n")
    for number, basket in enumerate(baskets):
        writer.writerows(
            [basket] if form == "baskets" else [[number, name] for name in basket]
        )
    return text.getvalue().encode()


def records(report: bytes, separator: str) -> list[list[str]]:
    return list(
        csv.reader(io.StringIO(report.decode(), newline=""), delimiter=separator)
    )


class ReadBack(unittest.TestCase):
    """What another reader of CSV, and the program, find in a report."""

    def test_a_report_of_odd_names_is_read_back_as_the_plain_count(self) -> None:
        for form, word in itertools.product(("baskets", "single"), SEPARATORS):
            with self.subTest(form=form, separator=word):
                separator = SEPARATORS[word]
                baskets = baskets_of(word)
                wanted = plain_sets(baskets)
                words = ["sets", "--form", form, "--sep", word, "--min", str(LEAST)]
                report = run(words, written(form, baskets, separator)).out
                rows = records(report, separator)
                self.assertEqual(
                    {tuple(sorted(row[1:])): int(row[0]) for row in rows}, wanted
                )
                self.assertEqual(len(rows), len(wanted))
                words = [
                    "items",
                    "--form",
                    "baskets",
                    "--weight",
                    "--sep",
                    word,
                    "--min",
                    "1",
                ]
                back = {
                    row[1]: int(row[0])
                    for row in records(run(words, report).out, separator)
                }
                sums: Counter[str] = Counter()
                for names, count in wanted.items():
                    sums.update(dict.fromkeys(names, count))
                self.assertEqual(back, sums)


def long_text(line_end: str, header: bool) -> tuple[str, Counter[str]]:
    """A text that is worth several workers, and how many of its records have each name."""
    source = random.Random(line_end)
    text = io.StringIO()
    writer = csv.writer(text, lineterminator=line_end)
    if header:
        writer.writerow(["two\nlines", "header"])
    counts: Counter[str] = Counter()
    for number in range(20_000):
        basket = source.sample(NAMES, source.randint(1, MOST_ITEMS))
        # New names in each part, and one that most records have for the first time.
        basket += [f"week {number // 1_000}", f"receipt {number}"]
        writer.writerow(basket)
        counts.update(basket)
    return text.getvalue(), counts


def long_pairs(line_end: str, header: bool) -> tuple[str, Counter[str]]:
    """Such a text of pairs, and how many baskets have each name. Most ids come in several parts.

    The first records of an id stand together, else one worker would read all.
    """
    source = random.Random(line_end)
    text = io.StringIO()
    writer = csv.writer(text, lineterminator=line_end)
    if header:
        writer.writerow(["two\nlines", "header"])
    found: dict[str, set[int]] = {}
    for number in range(60_000):
        basket = number // 4 if number < 6_000 else source.randrange(9_000)
        space = " " if basket % 50 else "\n"
        name = source.choice((*NAMES, f"week {number // 3_000}", f"new {number}", " "))
        row = [f" receipt{space}{basket}", name, "more"]
        writer.writerow(row[: source.randint(2, 3)])
        if name != " ":
            found.setdefault(name, set()).add(basket)
    return text.getvalue(), Counter({name: len(ids) for name, ids in found.items()})


LONG_TEXTS = {"baskets": long_text, "single": long_pairs}


class Workers(unittest.TestCase):
    """Reports over texts of which workers read parts."""

    words = ["items", "--min", "2", "--form"]

    def counted(self, given: bytes, words: list[str], workers: int) -> list[list[str]]:
        ended = run([*self.words, *words, "--workers", str(workers)], given)
        self.assertEqual((ended.said, ended.status), ("", 0))
        return records(ended.out, ",")

    def test_workers_count_what_another_reader_counts(self) -> None:
        for form, line_end, header in itertools.product(
            LONG_TEXTS, ("\n", "\r\n"), (False, True)
        ):
            text, counts = LONG_TEXTS[form](line_end, header)
            # In the order of their first appearance.
            wanted = [[str(n), name] for name, n in counts.items() if n > 1]
            words = [form, "--header"] if header else [form]
            for workers in (1, 2, 3, 4, 7):
                with self.subTest(words=words, line_end=line_end, workers=workers):
                    self.assertEqual(
                        self.counted(text.encode(), words, workers), wanted
                    )

    def test_records_are_right_before_and_after_the_first_field_in_quotes(self) -> None:
        source = random.Random("quotes")
        parts = ("a", "é", ' in "the" middle', "two words", "𝄞", "x" * 17)
        names = [part * times for part in parts for times in range(1, 6)]
        for first, line_end in itertools.product(
            (0, 1, 15, 7_000, 8_000), ("\n", "\r\n", "\r", "\n\n")
        ):
            rows = [source.sample(names, source.randint(1, 9)) for _ in range(8_000)]
            lines = [",".join(row) for row in rows]
            lines.insert(first, '"in ""quotes"", at last","two\nlines"')
            counts = Counter(name.strip() for row in rows for name in {*row})
            wanted = {name: str(n) for name, n in counts.items()}
            for workers in (1, 4):
                with self.subTest(first=first, line_end=line_end, workers=workers):
                    given = line_end.join(lines).encode()
                    found = self.counted(given, ["baskets"], workers)
                    self.assertEqual({name: n for n, name in found}, wanted)

    def test_a_record_may_go_on_over_many_parts(self) -> None:
        lines = "bread\n" * 100_000
        given = f'tea\ntea\n"{lines}",tea\ntea\n'.encode()
        pairs = f'1,tea\n2,tea\n"{lines}",tea\n2,tea\n'.encode()
        blank = b"\n" * 200_000 + b"id,name\n1,tea\n2,tea\n"
        for workers in (1, 2, 4, 7):
            with self.subTest(workers=workers):
                for words, text, found in (
                    (["baskets"], given, [["4", "tea"]]),
                    (["single"], pairs, [["3", "tea"]]),
                    (["baskets", "--header"], blank, [["2", "tea"]]),
                    (["single", "--header"], blank, [["2", "tea"]]),
                ):
                    self.assertEqual(self.counted(text, words, workers), found)

    def test_a_fault_in_any_part_is_that_of_its_record(self) -> None:
        lines = [f"1,name {number % 50}".encode() for number in range(40_000)]
        for place, (words, bad, told) in itertools.product(
            (0, 1, 13_333, 20_000, 39_999),
            (
                (["baskets", "--weight"], b"1,\xff", "field is not UTF-8"),
                (["baskets", "--weight"], b"0,tea", "bad weight"),
                (["single"], b"1,tea,\xff", "field is not UTF-8"),
                (["single"], b"1", "fewer than two fields"),
            ),
        ):
            given = b"\n".join([*lines[:place], bad, *lines[place + 1 :], b"0"])
            for workers in (1, 2, 4, 7):
                with self.subTest(place=place, told=told, workers=workers):
                    ended = run([*self.words, *words, "--workers", str(workers)], given)
                    said = f"basket: record {place + 1}: {told}\n"
                    self.assertEqual((ended.out, ended.said), (b"", said))

    def test_sets_of_pairs_are_the_same_for_every_number_of_workers(self) -> None:
        given = long_pairs("\n", False)[0].encode()
        words = ["sets", "--min", "40", "--form", "single"]
        one, *others = (
            run([*words, "--workers", workers], given)
            for workers in ("1", "2", "5", "7")
        )
        self.assertEqual((one.said, one.status), ("", 0))
        for other in others:
            self.assertEqual((other.out, other.said), (one.out, one.said))

    def test_weights_of_all_parts_are_added(self) -> None:
        # The greatest weight of all baskets is 256 times that of one, and 255.
        half = b"4294967295,tea\n" * 128
        light = (b"1099511627520,tea\n255,bread\n254,milk\n", "", 0)
        heavy = (b"", "basket: total weight above 1099511627775\n", 3)
        for more, wanted in ((255, light), (256, heavy)):
            given = half + b"1,bread,milk\n" * (more - 1) + b"\n" * 200_000 + half
            for workers in (1, 2, 4):
                with self.subTest(more=more, workers=workers):
                    words = [*self.words, "baskets", "--weight", "--workers"]
                    ended = run([*words, str(workers)], given + b"1,bread\n")
                    self.assertEqual((ended.out, ended.said, ended.status), wanted)
