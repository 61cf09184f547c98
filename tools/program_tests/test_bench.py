"""What the bench reads off its tables."""

import sys
import unittest

from .program import ROOT, run

sys.path.insert(0, str(ROOT / "bench"))

import instructions  # noqa: E402
import which  # noqa: E402
from run import inputs  # noqa: E402

BEFORE = """
| Baskets | Command | Lines | Million instructions |
|---|---|---|---|
| some | `items --min 1` | 4 | 100.0 |
| some | `sets --min 1` | 4 | 1000.0 |
| many | `items --min 1` | 4 |  |
"""
AFTER = """
| Baskets | Command | Million instructions | Lines |
|---|---|---|---|
| some | `items --min 1` | 103.1 | 4 |
| some | `sets --min 1` | 1029.9 | 4 |
| many | `items --min 1` | 7.0 | 4 |
| some | `sets --min 2` | 9.0 | 4 |
"""


def asked(baskets: int, sets: int, *seconds: float) -> which.Question:
    """A question, by the seconds of the five miners."""
    miners = ("apriori", "eclat", "eclat-diff", "eclat-bits", "fpgrowth")
    figures = (which.Figures(each, 1 + 9 * (each < 2)) for each in seconds)
    return which.Question(baskets, sets, dict(zip(miners, figures)))


class Bench(unittest.TestCase):
    """Tables that are written here."""

    def test_what_takes_more_than_three_per_cent_more_instructions_is_told(
        self,
    ) -> None:
        said = instructions.dearer(BEFORE, AFTER)
        self.assertEqual(said[0], "2 commands compared, 1 dearer by more than 3%")
        self.assertRegex(said[1], r"some: `items --min 1`: 100.0 to 103.1 .*, \+3.1%$")

    def test_results_say_what_each_input_is_and_after_which_data_it_is_made(
        self,
    ) -> None:
        page = (ROOT / "bench/RESULTS.md").read_text(encoding="utf-8")
        told = "\n".join(inputs())
        self.assertIn(f"{told}\n", page)
        self.assertIn("| `dense.py 8000 23 8 1` | the shape of mushroom |", told)

    def test_help_says_which_miner_suits_which_data_as_the_tables_do(self) -> None:
        tables = (ROOT / "bench/RESULTS.md").read_text(encoding="utf-8")
        said = run(["--help"]).out.decode()
        for miner, text in which.rule(which.questions(tables)).items():
            with self.subTest(miner=miner):
                self.assertIn(f"  {miner:11} {text}\n", f"{said}\n")

    def test_miners_are_named_for_what_they_are_quick_at(self) -> None:
        few, many = asked(9, 9, 2, 3, 3, 1, 3), asked(9, 50_000, 9, 0.8, 0.8, 1, 2)
        long = asked(2_000_000, 50_000, 9, 8, 8, 7, 5)
        rule = which.rule([few, many, many, long])
        self.assertEqual(
            [*rule.values()],
            [
                "the default: for up to some 25,000 frequent sets, and then with the least memory",
                "for more frequent sets",
                "worth one try if eclat-bits takes over a second; often faster over very many baskets",
                "as eclat-bits, by difference lists; seldom faster",
                "as eclat-bits, by lists of basket numbers; seldom faster",
            ],
        )
        slow = few._replace(miners={**few.miners, "apriori": which.Figures(2.1, 11)})
        quick = asked(9, 50_000, 9, 0.7, 0.8, 1, 2)
        other = which.rule([slow, few, quick, quick, long])
        self.assertEqual(other["apriori"], "the default")
        self.assertEqual(other["eclat"][-16:], "sometimes faster")
