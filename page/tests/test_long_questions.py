# mypy: allow-untyped-calls
"""Questions with many answers: which are listed, which are refused, and what is left of one that is stopped."""

import time
from pathlib import Path

from selenium import webdriver
from selenium.webdriver.support.wait import WebDriverWait

from browser import at, rows
from program_tests.inputs import fimi
from program_tests.program import run

from .use import choose, figures, give, report_of, settled


def twice(items: int) -> bytes:
    """Two baskets with all items, and one for each item alone: all itemsets are in two baskets, and an item in three."""
    alone = [[item] for item in range(1, items + 1)]
    return fimi([[item for [item] in alone]] * 2 + alone)


def test_of_many_rules_the_strongest_are_listed(shown: webdriver.Chrome) -> None:
    # Each of 11 items is on one side, on the other or on none, and no side is empty: 3^11 - 2 * 2^11 + 1 ways.
    # Where both sides have two items or more, the lift is 2 * 13 / (2 * 2), and elsewhere it is lower.
    give(shown, twice(11), "twice.dat")
    choose(shown, "confidence-least", "0")
    said = choose(shown, "least", "2")
    shown.execute_script("element('show-hidden').click()")
    listed = "the 100,000 strongest"
    assert said.startswith(f"173,052 rules, of which {listed} are listed, in 13 b")
    assert at(shown, "status").text.startswith(
        f"100,000 rules of {listed} of 173,052, page 1"
    )
    assert f"of {listed} of 173,052 rules" in at(shown, "plotted").text
    assert {row[5] for row in rows(shown)} == {"6.50"}
    assert shown.execute_script("return columns.lift.values.every((it) => it === 6.5)")
    words = ["rules", "--min", "2", "--conf", "0/1"]
    assert report_of(shown) == run(words, twice(11)).out
    at(shown, "save-shown").click()
    WebDriverWait(shown, 30).until(
        lambda _: at(shown, "done").text
        == f"The file has what is shown of {listed} of 173,052."
    )


def test_too_many_rules_are_not_asked_for(shown: webdriver.Chrome) -> None:
    # 3^15 - 2 * 2^15 + 1 of two equal baskets of 15 items.
    said = give(shown, fimi([[*range(15)]] * 2))
    assert "may have 14,283,372 rules" in said
    assert choose(shown, "ask", "closed").startswith("1 itemset in 2 baskets")


def test_a_question_that_is_stopped_leaves_the_one_before_it(
    shown: webdriver.Chrome, tmp_path: Path
) -> None:
    # 13 items have 1.6 million rules in two baskets, and none in three.
    give(shown, twice(13), "twice.dat")
    choose(shown, "ask", "sets")
    before = rows(shown), report_of(shown)
    assert figures(settled(shown))[:2] == [13, 15]
    shown.execute_script(
        "for (const [name, value] of [['ask', 'rules'], ['least', '2']]) {"
        "element(name).value = value; element(name).dispatchEvent(new Event('change')); }"
    )
    WebDriverWait(shown, 30, 0.05).until(lambda _: at(shown, "end").is_displayed())
    saved = tmp_path / "saved"
    behaviour = {"behavior": "allow", "downloadPath": str(saved)}
    shown.execute_cdp_cmd("Browser.setDownloadBehavior", behaviour)
    at(shown, "save-report").click()
    at(shown, "end").click()
    assert settled(shown) == "Stopped."
    assert (rows(shown), report_of(shown)) == before
    found = [at(shown, name).get_attribute("value") for name in ("ask", "least")]
    assert found == ["sets", "3"]
    assert shown.switch_to.active_element.get_attribute("id") == "ask"
    stop = time.monotonic() + 30
    while not (made := saved / "twice-sets.txt").exists():
        assert time.monotonic() < stop
        time.sleep(0.05)
    assert made.read_bytes() == before[1]


def test_sides_with_any_names_are_told_apart(shown: webdriver.Chrome) -> None:
    script = """
    const sides = new Sides();
    return [["a", "b"], ["a\\0b"], ["a, b"], ["a"]].map((names) => sides.placeOf(names));
    """
    assert shown.execute_script(script) == [0, 1, 2, 3]
