"""The five miners over inputs that are large enough for each of their fast paths.

The numbers of lines and the sums of the reports are those of two C++ programs that share no code with
this one: one mines frequent itemsets by Apriori and, in another way, by the classes of a prefix tree,
which gave the same bytes, and the other makes closed and maximal itemsets and rules from their list.
"""

import hashlib
import itertools
import random
import unittest
from collections import Counter
from fractions import Fraction

from . import inputs
from .program import MINERS, Run, run

INPUTS = {
    "shop": inputs.shop,
    "dense": inputs.dense,
    "repeated": inputs.repeated,
    "pairs": inputs.pairs,
}

# Input, minimum, number of lines and sum of `sets`.
SETS = (
    (
        "shop",
        "12",
        22072,
        "8de5180b3511ef6446119dbf541094c5a79ebf591d2f193f2db42465f2dedc50",
    ),
    (
        "shop",
        "8%",
        110,
        "b5adc412122e39509ad04a52c4a17531ad71f0afb506d5598fda5cfa8e3f15c0",
    ),
    (
        "dense",
        "10%",
        41157,
        "2a8efd3499cebd9091e8d77ba376dff31c941d8e757c6d23f6e81253f7c146a2",
    ),
    (
        "repeated",
        "1000",
        25,
        "1551e0d5012b57dac40253f992cbb91dff25735d71fcb942f34ba99413c2f40a",
    ),
    (
        "repeated",
        "1",
        255,
        "4a92e3dcc5ab59bc9a1334ecb5e6fcb9d723878cdf940f15f4a1e5c77d53412a",
    ),
    (
        "pairs",
        "2",
        236,
        "4a94417a322ae32c158c5f3b461a02c7ee1ce47f75e1284e5c5af59fe918de9d",
    ),
)

# Input and words, number of lines and sum.
ANSWERS = (
    (
        "dense",
        "closed --min 10%",
        41157,
        "2a8efd3499cebd9091e8d77ba376dff31c941d8e757c6d23f6e81253f7c146a2",
    ),
    (
        "dense",
        "maximal --min 10%",
        10660,
        "a5216a0f9e59e4399215835ff67fe5e66519e756be985af72ad3fcbe27cfac53",
    ),
    (
        "dense",
        "rules --min 10% --conf 9/10",
        15275,
        "ddd13487cc7600ddf44ed51a9699e75ca52fa6405d2a71ccad8b3ac5c4ebc286",
    ),
    (
        "shop",
        "closed --min 16",
        12044,
        "76f1b1a904c1261055703c258230158e8bbdc8c10f4d3fb0c33fa4d6dd25f33c",
    ),
    (
        "shop",
        "maximal --min 16",
        6061,
        "a3485a2849f16b01f90ac3ebcc3ba19534dcd0a0255d38e41f7eed904e019c44",
    ),
    (
        "shop",
        "rules --min 16 --conf 9/10",
        208,
        "cf6d8d114a3b2ecf9d1b82288478dc174a3f859bfa6a3cd2c935055dd377ec85",
    ),
)


def summed(ended: Run) -> tuple[int, str, str, int]:
    """How many lines a run wrote, their sum, what it said and its status."""
    lines = ended.out.count(b"\n")
    return lines, hashlib.sha256(ended.out).hexdigest(), ended.said, ended.status


class Miners(unittest.TestCase):
    """Reports beside those of other programs."""

    def test_each_miner_by_one_and_by_four_workers_writes_what_another_program_writes(
        self,
    ) -> None:
        # 512 pieces are more than the frequent items, so that most pieces have no class.
        for (
            (name, minimum, lines, digest),
            miner,
            (workers, pieces),
        ) in itertools.product(SETS, MINERS, (("1", "16"), ("4", "16"), ("4", "512"))):
            with self.subTest(
                input=name, minimum=minimum, miner=miner, workers=workers, pieces=pieces
            ):
                words = [
                    "sets",
                    "--min",
                    minimum,
                    "--miner",
                    miner,
                    "--workers",
                    workers,
                    "--pieces",
                    pieces,
                ]
                ended = run(words, inputs.fimi(INPUTS[name]()))
                self.assertEqual(summed(ended), (lines, digest, "", 0))

    def test_equal_baskets_may_be_one_line_with_a_weight(self) -> None:
        for (name, minimum, lines, digest), miner in itertools.product(SETS, MINERS):
            with self.subTest(input=name, minimum=minimum, miner=miner):
                words = ["sets", "--min", minimum, "--miner", miner]
                ended = run(words, inputs.weighted(INPUTS[name]()))
                self.assertEqual(summed(ended), (lines, digest, "", 0))

    def test_closed_and_maximal_sets_and_rules_are_those_of_another_program(
        self,
    ) -> None:
        for name, words, lines, digest in ANSWERS:
            with self.subTest(input=name, words=words):
                ended = run(
                    [*words.split(), "--miner", "eclat-bits"],
                    inputs.fimi(INPUTS[name]()),
                )
                self.assertEqual(summed(ended), (lines, digest, "", 0))

    def test_a_limit_is_passed_exactly_also_in_the_midst_of_a_piece(self) -> None:
        # Four times 1,023 sets and three more, of which none alone has more subsets than a limit.
        lines = [range(10 * ten, 10 * ten + 10) for ten in range(4)]
        given = "".join(
            f"2x {' '.join(map(str, line))}\n" for line in (*lines, [40], [41], [42])
        ).encode()
        for miner, pieces, limit in itertools.product(
            MINERS, ("1", "2"), (1_100, 2_048, 4_094, 4_095)
        ):
            with self.subTest(miner=miner, pieces=pieces, limit=limit):
                words = [
                    "sets",
                    "--min",
                    "2",
                    "--miner",
                    miner,
                    "--workers",
                    "2",
                    "--pieces",
                    pieces,
                ]
                ended = run([*words, "--limit", str(limit)], given)
                if limit < 4_095:
                    said = f"basket: more than {limit} frequent itemsets\n"
                    self.assertEqual(
                        (ended.out, ended.said, ended.status), (b"", said, 5)
                    )
                else:
                    self.assertEqual(
                        (ended.out.count(b"\n"), ended.said, ended.status),
                        (4_095, "", 0),
                    )

    def test_many_candidates_of_sparse_baskets_have_the_counts_of_every_subset(
        self,
    ) -> None:
        # Each pair of a common item and a rare one has few baskets, and the two common ones have a thousand candidates.
        source = random.Random(5)
        given: list[tuple[int, list[int]]] = []
        counts: Counter[tuple[int, ...]] = Counter()
        for _ in range(1_000):
            items = [1, 2, *sorted(source.sample(range(3, 1_003), 5))]
            weight = source.choice((1, 1, 2, 7))
            given.append((weight, items))
            for size in range(1, 8):
                for subset in itertools.combinations(items, size):
                    counts[subset] += weight
        text = "".join(f"{weight}x {' '.join(map(str, it))}\n" for weight, it in given)
        ordered = sorted(counts, key=lambda items: (len(items), items))
        wanted = "".join(
            f"{' '.join(map(str, items))} ({counts[items]})\n" for items in ordered
        )
        for workers in ("1", "2", "4"):
            with self.subTest(workers=workers):
                words = ["sets", "--min", "1", "--miner", "apriori"]
                ended = run([*words, "--workers", workers], text.encode())
                self.assertEqual(
                    (ended.out.decode() == wanted, ended.said, ended.status),
                    (True, "", 0),
                )

    def test_itemsets_that_are_too_long_for_a_word_are_mined_and_found_again(
        self,
    ) -> None:
        # A place among 1,110 items takes 11 bits and a count 40, so a word has room for seven items.
        heavy = 900_000_000
        alone = range(100, 1_200)
        given = "".join(
            [f"{heavy}x {item}\n" for item in alone]
            + [f"{heavy}x 1 2 3 4 5 6 7 8 9 10\n", "7x 1 2 3 4 5 6 7 8 9\n"]
        ).encode()
        together = [
            items
            for size in range(1, 11)
            for items in itertools.combinations(range(1, 11), size)
        ]
        lines = {
            items: f"{' '.join(map(str, items))} ({heavy + 7 * (10 not in items)})\n"
            for items in together
        }
        lines.update({(item,): f"{item} ({heavy})\n" for item in alone})
        ordered = sorted(lines, key=lambda items: (len(items), items))
        closed: list[tuple[int, ...]] = [(item,) for item in alone]
        closed += [tuple(range(1, last)) for last in (10, 11)]
        for ask, miner, workers in itertools.product(
            ("sets", "closed"), MINERS, ("1", "4")
        ):
            with self.subTest(ask=ask, miner=miner, workers=workers):
                words = [ask, "--min", "1", "--miner", miner, "--workers", workers]
                ended = run(words, given)
                wanted = ordered if ask == "sets" else closed
                self.assertEqual(
                    (ended.out.decode(), ended.said, ended.status),
                    ("".join(lines[items] for items in wanted), "", 0),
                )
        rules = sum(
            2 ** len(items) - 2 if 10 not in items else 2 ** (len(items) - 1) - 1
            for items in together
        )
        ended = run(["rules", "--min", "1", "--conf", "1/1"], given)
        self.assertEqual(
            (ended.out.count(b"\n"), ended.said, ended.status), (rules, "", 0)
        )

    def test_a_limit_stops_classes_that_no_memory_holds(self) -> None:
        # That they are too many isn't known before they are mined: the most frequent item is in no larger set.
        given = f"3x 0\n2x {' '.join(map(str, range(1, 41)))}\n".encode()
        for miner, workers in itertools.product(MINERS, ("1", "2")):
            with self.subTest(miner=miner, workers=workers):
                words = [
                    "sets",
                    "--min",
                    "2",
                    "--miner",
                    miner,
                    "--workers",
                    workers,
                    "--limit",
                    "1100",
                ]
                ended = run(words, given)
                self.assertEqual((ended.out, ended.status), (b"", 5))

    def test_one_basket_of_many_items_is_refused_at_once_under_a_limit(self) -> None:
        given = f"{' '.join(map(str, range(70_000)))}\n".encode()
        for miner in MINERS:
            with self.subTest(miner=miner):
                ended = run(
                    ["sets", "--min", "1", "--miner", miner, "--limit", "1000"], given
                )
                self.assertEqual((ended.out, ended.status), (b"", 5))


class Counts(unittest.TestCase):
    """Counts and fractions beside those of Python."""

    def test_items_with_great_numbers_are_counted_as_python_counts_them(self) -> None:
        # The greatest come first, so that the first baskets wait for a table with room for them,
        # and with numbers that no table has room for all of them do, or those of one worker.
        for greatest, first, last in (
            (90_000, 60_000, 0),
            (4_294_967_295, 60_000, 0),
            (4_294_967_295, 60_000, 30_000),
            (4_294_967_295, 30_000, 0),
        ):
            baskets = [
                [place % 7, greatest - 60_000 + place % 60_000 // 2, greatest]
                if last < place <= first
                else [place % 7, 10 + place % 11]
                for place in range(60_000, 0, -1)
            ]
            counts = Counter(item for basket in baskets for item in basket)
            wanted = "".join(f"{item} ({counts[item]})\n" for item in sorted(counts))
            with self.subTest(greatest=greatest, first=first, last=last):
                ended = run(
                    ["items", "--min", "1", "--workers", "2"], inputs.fimi(baskets)
                )
                self.assertEqual(
                    (ended.out.decode(), ended.said, ended.status), (wanted, "", 0)
                )

    def test_itemsets_of_many_unlike_baskets_are_counted_as_python_counts_them(
        self,
    ) -> None:
        # So many that four workers sort and merge a quarter of them each.
        source = random.Random(5)
        baskets = [
            sorted(source.sample(range(1, 101), 1 + place % 3))
            for place in range(60_000)
        ]
        counts = Counter(
            items
            for basket in baskets
            for size in range(1, len(basket) + 1)
            for items in itertools.combinations(basket, size)
        )
        frequent = sorted(
            (items for items, count in counts.items() if count >= 3),
            key=lambda items: (len(items), items),
        )
        wanted = "".join(
            f"{' '.join(map(str, items))} ({counts[items]})\n" for items in frequent
        )
        given = inputs.fimi(baskets)
        for miner, workers in itertools.product(MINERS, ("1", "4")):
            with self.subTest(miner=miner, workers=workers):
                words = ["sets", "--min", "3", "--miner", miner, "--workers", workers]
                ended = run(words, given)
                self.assertEqual(
                    (ended.out.decode(), ended.said, ended.status), (wanted, "", 0)
                )

    def test_items_of_long_names_are_counted_as_python_counts_them(self) -> None:
        names = [
            f"the article of number {place * 7 % 20_000}" for place in range(60_000)
        ]
        counts = Counter(names)
        wanted = "".join(f"{count},{name}\n" for name, count in counts.items())
        ended = run(
            ["items", "--form", "baskets", "--min", "1"],
            "".join(f"{name}\n" for name in names).encode(),
        )
        self.assertEqual(
            (ended.out.decode(), ended.said, ended.status), (wanted, "", 0)
        )

    def test_fractions_of_great_counts_are_in_lowest_terms(self) -> None:
        heavy, light, other = 4_294_967_291, 4_294_967_279, 4_294_967_231
        lines = (
            [f"{heavy}x 1 2\n"] * 60 + [f"{light}x 1\n"] * 50 + [f"{other}x 2\n"] * 40
        )
        both, left, right = heavy * 60, heavy * 60 + light * 50, heavy * 60 + other * 40
        total = heavy * 60 + light * 50 + other * 40
        rules = ((2, 1, Fraction(both, right)), (1, 2, Fraction(both, left)))
        lift = Fraction(both * total, left * right)
        shown = f"{lift.numerator}/{lift.denominator}"
        wanted = "".join(
            f"{antecedent} => {consequent} ({both}) {share.numerator}/{share.denominator} {shown}\n"
            for antecedent, consequent, share in rules
        )
        ended = run(["rules", "--min", "1", "--conf", "1/10"], "".join(lines).encode())
        self.assertEqual(
            (ended.out.decode(), ended.said, ended.status), (wanted, "", 0)
        )
