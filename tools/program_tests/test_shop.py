"""The guide for shops has the figures that the program finds in its month."""

import csv
import re
import subprocess
import sys
import tempfile
import unittest
from fractions import Fraction
from pathlib import Path

from .program import ROOT, run

GUIDE = (ROOT / "docs/SHOP.md").read_text(encoding="utf-8")
RULE = re.compile(
    r"(?m)^\| ([^|]+) \| ([^|]+) \| (\d+) \| ([\d.]+)% \| ([\d.]+)% \| ([\d.]+) \|$"
)
MUESLI, OAT, NEW = "Muesli", "Oat milk 1 l", "OAT DRINK 1L"
Rule = tuple[tuple[str, ...], tuple[str, ...]]


def rounded(value: Fraction) -> str:
    """Three digits, as the page shows them."""
    return f"{float(value):.3g}" if value >= 10 else f"{float(value):.2f}"


class Shop(unittest.TestCase):
    """The month as it comes and as it is cleaned, by the columns that the page shows."""

    def setUp(self) -> None:
        folder = Path(self.enterContext(tempfile.TemporaryDirectory()))
        self.months = {}
        for word in ("", "clean"):
            words = [sys.executable, str(ROOT / "examples/month.py"), word]
            made = subprocess.run(words, stdout=subprocess.PIPE, check=True).stdout
            self.months[word] = folder / f"month{word}.csv"
            self.months[word].write_bytes(made)

    def pairs(self, word: str, basket: str) -> bytes:
        words = f"pairs --sep semicolon --header --basket {basket} --item 4"
        return run([*words.split(), str(self.months[word])]).out

    def baskets(self, word: str) -> int:
        lines = self.pairs(word, "3,1,2").decode().splitlines()
        return len({row[0] for row in csv.reader(lines)})

    def rules(self, word: str, least: int, confidence: str) -> dict[Rule, list[str]]:
        words = f"rules --min {least} --conf {confidence} --form single"
        out = run(words.split(), self.pairs(word, "3,1,2")).out.decode()
        found = {}
        for count, share, lift, left, *names in csv.reader(out.splitlines()):
            sides = tuple(names[: int(left)]), tuple(names[int(left) :])
            found[sides] = [count, share, lift]
        return found

    def test_baskets_are_as_many_as_the_guide_says(self) -> None:
        told = re.findall(r"([\d,]+) in the month", GUIDE)
        self.assertEqual(told, [f"{self.baskets(''):,}"])
        self.assertEqual(self.baskets("clean"), self.baskets(""))
        lines = self.pairs("", "3").decode().splitlines()
        alone = [*csv.reader(lines)]
        of_milk = {row[0] for row in alone if row[1] == "Milk 1 l"}
        said = f"{len({row[0] for row in alone})} baskets, and milk in {len(of_milk)}"
        self.assertIn(said, GUIDE)

    def test_rules_are_as_many_as_the_guide_says(self) -> None:
        first, second = self.rules("", 60, "1/2"), self.rules("clean", 60, "1/4")
        names = [{*left, *right} for left, right in first]
        of_deposit = [it for it in names if "Deposit 6 bottles" in it]
        of_bag = [it for it in names if "Paper bag" in it and it not in of_deposit]
        self.assertIn(f"Of the {len(first)} rules here {len(of_deposit)} are", GUIDE)
        self.assertEqual(len(of_bag), 9)
        self.assertIn("nine of the others are about the paper bag", GUIDE)
        self.assertIn(f"![{len(second)} rules, the strongest by lift first", GUIDE)

    def test_each_rule_that_is_shown_has_its_figures(self) -> None:
        found, baskets = self.rules("clean", 60, "1/4"), self.baskets("clean")
        shown = RULE.findall(GUIDE)
        self.assertEqual(len(shown), 6)
        for left, right, *figures in shown:
            count, share, lift = found[(left,), (right,)]
            support = Fraction(100 * int(count), baskets)
            wanted = [count, rounded(support)]
            wanted += [rounded(100 * Fraction(share)), rounded(Fraction(lift))]
            with self.subTest(rule=left):
                self.assertEqual(figures, wanted)

    def test_two_names_of_one_article_halve_its_confidence(self) -> None:
        before, after = self.rules("", 10, "1/10"), self.rules("clean", 10, "1/10")
        shares = [before[(MUESLI,), (OAT,)], before[(MUESLI,), (NEW,)]]
        shares.append(after[(MUESLI,), (OAT,)])
        told = re.search(
            r"goes with oat milk in ([\d.]+)%.*?([\d.]+)%.*?([\d.]+)%", GUIDE
        )
        assert told
        wanted = [rounded(100 * Fraction(share)) for _, share, _ in shares]
        self.assertEqual([*told.groups()], wanted)
