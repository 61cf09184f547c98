"""The points of the page on growth are those of RESULTS."""

import re
import sys
import unittest

from .program import ROOT

sys.path.insert(0, str(ROOT / "bench"))

from results import rows  # noqa: E402

PAGE = (ROOT / "docs/GROWTH.md").read_text(encoding="utf-8")
RESULTS = (ROOT / "bench/RESULTS.md").read_text(encoding="utf-8")


def measured(baskets: str, miner: str, least: str) -> dict[str, str]:
    """The first row of RESULTS about these baskets, which says what the page says."""
    command = f"`sets --min {least} --miner {miner}`"
    found = (
        row
        for row in rows(RESULTS)
        if row.get("Baskets") == baskets and row.get("Command") == command
    )
    return next(found)


class Growth(unittest.TestCase):
    """Two tables of figures."""

    def test_points_by_baskets_are_those_of_results(self) -> None:
        shown = re.findall(r"(?m)^\| ([\d,]+) \| (.*) \|$", PAGE)
        self.assertEqual(len(shown), 3)
        for baskets, cells in shown:
            wanted: list[str] = []
            for miner in ("eclat-bits", "apriori"):
                row = measured(f"{baskets} of some ten items", miner, "1/1000")
                wanted += [row["One"], row["Four"], row["MB of one"]]
            with self.subTest(baskets=baskets):
                self.assertEqual(cells.split(" | "), wanted)

    def test_points_by_sets_are_those_of_results(self) -> None:
        shown = re.findall(r"(?m)^\| (\d+%) \| (.*) \|$", PAGE)
        self.assertEqual(len(shown), 2)
        for least, cells in shown:
            row = measured("8,000 of 23 attributes", "eclat-bits", least)
            wanted = [row["Lines"], row["Seconds"], row["MB"]]
            with self.subTest(least=least):
                self.assertEqual(cells.split(" | "), wanted)
