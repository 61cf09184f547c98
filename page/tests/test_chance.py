# mypy: allow-untyped-calls
"""How likely rules are by chance and which repeat shorter ones, as the Python package says it and as exact rationals do."""

import csv
import random
from fractions import Fraction
from math import comb
from pathlib import Path

import pytest
from selenium import webdriver
from selenium.webdriver.common.by import By

from basket_miner import is_redundant, is_significant, items, p_values, rules
from browser import at, rows

from .use import choose, give

CHANCES = """
const [tables, done] = arguments;
const column = (place) => Float64Array.from(tables, (table) => table[place]);
const begins = Uint32Array.from([0, 1, 2]), members = Uint32Array.from([0, 1]);
const [left, right] = [0, 1].map((side) => new Uint32Array(tables.length).fill(side));
const asked = tables.map(([both, withLeft, withRight, total]) => ({
  items: 2,
  rules: { left: left.slice(0, 1), right: right.slice(0, 1), begins, members, total,
    both: [both], withLeft: [withLeft], withRight: [withRight] },
}));
(async () => {
  const own = begin();
  const found = [];
  for (const chance of asked) found.push((await askWorker(own, { chance })).p[0]);
  done(found);
})();
"""
JUDGED = """
const { p, isSignificant, isRedundant, hypotheses } = data.chance;
return { hypotheses, rules: Array.from(p, (chance, rule) =>
  [namesOf("left", rule), namesOf("right", rule), chance, isSignificant[rule] > 0, isRedundant[rule] > 0]) };
"""


def bought() -> list[list[str]]:
    """Baskets of what goes together and of what does not."""
    draw = random.Random(8)
    together = ("ab", "cde", "f", "gh")
    found = []
    for _ in range(300):
        by_chance = (it for it in "abcdefghijkl" if draw.random() < 0.12)
        found.append(sorted({*draw.choice(together), *by_chance}))
    return found


SHOP = "".join(f"{','.join(it)}\n" for it in bought()).encode()


def chance(both: int, left: int, right: int, total: int) -> float:
    """The chance of at least so many baskets with both sides, by exact rationals."""
    ways = sum(
        comb(left, n) * comb(total - left, right - n)
        for n in range(both, min(left, right) + 1)
        if right - n <= total - left
    )
    return float(Fraction(ways, comb(total, right)))


def test_chances_are_those_of_exact_rationals(example: webdriver.Chrome) -> None:
    draw = random.Random(5)
    tables = []
    for total in (1, 2, 7, 40, 300, 1000) * 12:
        left, right = draw.randint(1, total), draw.randint(1, total)
        least = max(left + right - total, 1)
        tables.append((draw.randint(least, min(left, right)), left, right, total))
    found = example.execute_async_script(CHANCES, tables)
    # Floats have no chance below 1e-307 as exact as others.
    assert found == pytest.approx([chance(*it) for it in tables], rel=1e-11, abs=1e-307)


def test_rules_are_judged_as_the_python_package_judges_them(
    shown: webdriver.Chrome, tmp_path: Path
) -> None:
    path = tmp_path / "shop.csv"
    path.write_bytes(SHOP)
    frame = rules(path, 5, "20%", form="baskets")
    significant = is_significant(frame, items=len(items(path, 5, form="baskets")))
    redundant = is_redundant(frame)
    give(shown, SHOP)
    choose(shown, "least", "5")
    choose(shown, "confidence-least", "20")
    found = shown.execute_script(JUDGED)
    judged = {(frozenset(it[0]), frozenset(it[1])): it[2:] for it in found["rules"]}
    assert found["hypotheses"] == str(significant.attrs["hypotheses"])
    assert len(judged) == len(frame) > 100
    mine = [judged[it] for it in zip(frame["antecedents"], frame["consequents"])]
    assert [it[0] for it in mine] == pytest.approx([*p_values(frame)], rel=1e-9)
    assert [it[1] for it in mine] == [*significant]
    assert [it[2] for it in mine] == [*redundant]
    assert 9 < sum(significant) < len(frame) and 9 < sum(redundant) < len(frame)


def test_of_a_long_list_what_says_nothing_more_is_hidden(
    shown: webdriver.Chrome, tmp_path: Path
) -> None:
    give(shown, SHOP)
    choose(shown, "least", "5")
    choose(shown, "confidence-least", "20")
    judged = shown.execute_script(JUDGED)["rules"]
    chosen = [it for it in judged if it[3] and not it[4]]
    weak = sum(not it[3] for it in judged)
    rest = sum(it[3] and it[4] for it in judged)
    assert at(shown, "status").text.startswith(f"{len(chosen)} rule")
    assert f"{weak:,} not significant" in at(shown, "hidden").text
    assert (f"{rest} redundant" in at(shown, "hidden").text) == (rest > 0)
    assert not any("not significant" in row[6] for row in rows(shown))
    at(shown, "show-hidden").click()
    assert at(shown, "status").text.startswith(
        f"{len(judged):,} rules of {len(judged):,}"
    )
    assert at(shown, "hidden").text == ""
    # What was chosen stays, and is a part of the link.
    choose(shown, "confidence-least", "19")
    assert not at(shown, "significant").is_selected()
    shown.execute_script("writeLink()")
    assert "hidden=&" in f"{shown.current_url}&"
    choose(shown, "least", "40")
    assert at(shown, "hidden").text == ""
    heads = shown.find_elements(By.CSS_SELECTOR, "th")
    assert [it.get_attribute("data-key") for it in heads][-1] == "p"


def test_what_is_saved_says_it_too(shown: webdriver.Chrome) -> None:
    give(shown, SHOP)
    script = (
        "const [done] = arguments; csvOf(shown).then((made) => made.text()).then(done)"
    )
    text = shown.execute_async_script(script)
    found = [*csv.DictReader(text.lstrip("\ufeff").splitlines())]
    assert found
    for row in found:
        counts = [
            int(row[name])
            for name in ("count", "antecedent count", "consequent count", "baskets")
        ]
        assert float(row["p_value"]) == pytest.approx(chance(*counts), rel=1e-11)
        assert row["is_significant"] in ("true", "false")
