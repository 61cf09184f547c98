"""Baskets and sets of 70,000 items, under a stack of 256 KiB."""

import itertools
import resource
import tempfile
import unittest

from .inputs import Baskets, fimi
from .program import MINERS, Run, run
from .test_counted import NO_SUBSET

STACK = 1 << 18
ITEMS = 70_000
WORKERS = ("1", "3")
REPORTS = ("sets", "closed", "maximal", "rules --conf 1/1")
NUMBERS = " ".join(map(str, range(ITEMS)))
NAMES = NUMBERS.replace(" ", ",")

# A set of all items, one that has another for its last, and a short one, each with its count in one
# basket of all items; the same by names.
BY_NUMBERS = f"(1)\n{NUMBERS} (1)\n{NUMBERS[:-5]}{ITEMS} (0)\n0 {ITEMS - 1} (1)\n"
BY_NAMES = f"1\n1,{NAMES}\n0,{NAMES[:-5]}{ITEMS}\n1,0,{ITEMS - 1}\n"

# One basket of all items, and the lines of each of them alone, for each form of baskets.
FORMS = (
    ("fimi", f"{NUMBERS}\n", "{item} (1)\n"),
    ("baskets", f"{NAMES}\n", "1,{item}\n"),
    ("single", "".join(f"a,{item}\n" for item in range(ITEMS)), "1,{item}\n"),
)


def keep_low() -> None:
    """Leaves the program little room on the stack, also on those of its threads."""
    resource.setrlimit(resource.RLIMIT_STACK, (STACK, STACK))


def deep(words: str, given: bytes | str) -> Run:
    """Runs the program so."""
    text = given.encode() if isinstance(given, str) else given
    return run(words.split(), text, prepare=keep_low)


def counted(sets: bytes | str, words: str, given: bytes | str) -> Run:
    """Runs `count` so over a file of sets."""
    with tempfile.NamedTemporaryFile() as file:
        file.write(sets.encode() if isinstance(sets, str) else sets)
        file.flush()
        return deep(f"count --sets {file.name} {words}", given)


def comb(size: int, step: int) -> Baskets:
    """Sets of so many items, each of which has more of its first items from the last set, whose items are
    even."""
    last = [2 * item for item in range(1, size + 1)]
    others = [
        last[:place] + [item - 1 for item in last[place:]]
        for place in range(0, size, step)
    ]
    return [*others, last]


class Deep(unittest.TestCase):
    """Long baskets and long sets."""

    def test_items_of_a_long_basket_are_listed(self) -> None:
        for (form, given, line), workers in itertools.product(FORMS, WORKERS):
            with self.subTest(form=form, workers=workers):
                ended = deep(f"items --min 1 --form {form} --workers {workers}", given)
                wanted = "".join(line.format(item=item) for item in range(ITEMS))
                self.assertEqual(ended, Run(wanted.encode(), "", 0))

    def test_more_sets_of_a_long_basket_than_the_limit_end_with_5(self) -> None:
        said = "basket: more than 1000 frequent itemsets\n"
        for report, miner, workers in itertools.product(REPORTS, MINERS, WORKERS):
            with self.subTest(report=report, miner=miner, workers=workers):
                words = f"{report} --min 1 --limit 1000 --miner {miner}"
                ended = deep(f"{words} --workers {workers}", f"{NUMBERS}\n")
                self.assertEqual(ended, Run(b"", said, 5))
        for (form, given, _), workers in itertools.product(FORMS[1:], WORKERS):
            with self.subTest(form=form, workers=workers):
                words = f"sets --min 1 --limit 1000 --form {form}"
                ended = deep(f"{words} --workers {workers}", given)
                self.assertEqual(ended, Run(b"", said, 5))

    def test_sets_of_many_items_end_with_5_or_are_mined(self) -> None:
        # The first forty or sixteen items have weight 3.
        for many, wanted in ((40, None), (16, range(1, 17))):
            few = range(many)
            given = fimi([list(range(ITEMS)), list(few), list(few)])
            report = "".join(
                f"{' '.join(map(str, subset))} (3)\n"
                for size in wanted or ()
                for subset in itertools.combinations(few, size)
            )
            for miner, workers in itertools.product(MINERS, WORKERS):
                with self.subTest(many=many, miner=miner, workers=workers):
                    words = f"sets --min 2 --limit 100000 --miner {miner}"
                    ended = deep(f"{words} --workers {workers}", given)
                    self.assertEqual(ended.out, report.encode())
                    self.assertEqual(ended.status, 0 if wanted else 5)

    def test_the_sets_that_two_long_baskets_share_are_mined(self) -> None:
        both = range(ITEMS - 4, ITEMS)
        given = fimi([list(range(ITEMS)), list(range(both.start, 2 * ITEMS))])
        subsets = [
            " ".join(map(str, subset))
            for size in range(1, 5)
            for subset in itertools.combinations(both, size)
        ]
        for report, miner, workers in itertools.product(REPORTS, MINERS, WORKERS):
            with self.subTest(report=report, miner=miner, workers=workers):
                words = f"{report} --min 2 --miner {miner} --workers {workers}"
                ended = deep(words, given)
                if report == "sets":
                    wanted = "".join(f"{subset} (2)\n" for subset in subsets)
                    self.assertEqual(ended, Run(wanted.encode(), "", 0))
                elif report in ("closed", "maximal"):
                    self.assertEqual(ended, Run(f"{subsets[-1]} (2)\n".encode(), "", 0))
                else:
                    # Each of four items on a side or on none, and some on both sides.
                    lines = ended.out.decode().splitlines()
                    self.assertEqual(len(lines), 3**4 - 2 * 2**4 + 1)
                    self.assertTrue(
                        all(line.endswith(" (2) 1/1 1/1") for line in lines)
                    )
                    self.assertEqual((ended.said, ended.status), ("", 0))

    def test_long_sets_are_counted(self) -> None:
        for (form, given, _), workers in itertools.product(FORMS, WORKERS):
            with self.subTest(form=form, workers=workers):
                sets = BY_NUMBERS if form == "fimi" else BY_NAMES
                ended = counted(sets, f"--form {form} --workers {workers}", given)
                self.assertEqual(ended, Run(sets.encode(), "", 0))

    def test_long_sets_that_share_more_and_more_items_are_counted(self) -> None:
        size = 3_000
        sets = comb(size, 20)
        odd = range(1, 2 * size, 2)
        half = [item for item in sets[-1] if item <= size]
        baskets = [list(range(2 * size + 1)), sets[-1], sorted([*half, *odd])]
        # The third basket has those sets of which half or more of the items are odd.
        counts = [2 if 2 * place <= size else 1 for place in range(0, size, 20)] + [2]
        wanted = "(3)\n" + "".join(
            f"{' '.join(map(str, items))} ({count})\n"
            for items, count in zip(sets, counts)
        )
        for workers in WORKERS:
            with self.subTest(workers=workers):
                ended = counted(fimi(sets), f"--workers {workers}", fimi(baskets))
                self.assertEqual(ended, Run(wanted.encode(), "", 0))

    def test_long_sets_with_counts_are_read(self) -> None:
        for form, given, last, others in (
            ("counts", BY_NUMBERS, f"{NUMBERS} (1)\n", f"0 {ITEMS - 1} (1)\n"),
            ("csv-counts", BY_NAMES, f"1,{NAMES}\n", f"1,0,{ITEMS - 1}\n"),
        ):
            with self.subTest(form=form):
                ended = counted(given, f"--form {form}", given)
                self.assertEqual(ended, Run(given.encode(), "", 0))
                ended = deep(f"items --min 1 --form {form}", given)
                self.assertEqual(ended, Run(b"", "", 0))
                ended = deep(f"sets --min 1 --form {form}", given)
                self.assertEqual(ended, Run((others + last).encode(), "", 0))
            said = f"basket: line or record 4: {NO_SUBSET}\n"
            for report in REPORTS[1:]:
                with self.subTest(form=form, report=report):
                    ended = deep(f"{report} --min 1 --form {form}", given)
                    self.assertEqual(ended, Run(b"", said, 3))
