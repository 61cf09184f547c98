# mypy: allow-untyped-calls
"""What leaves a page of rules, or is seen of it elsewhere: its link, its CSV, on a phone, on paper; and how long a step takes."""

import csv
import io
import time
from pathlib import Path

import pandas as pd
import pytest
from selenium import webdriver
from selenium.webdriver.common.by import By
from selenium.webdriver.common.keys import Keys
from selenium.webdriver.support.wait import WebDriverWait

from basket_miner import explore, rules
from browser import at, rows, until

RECEIPTS = Path(__file__).parents[2] / "examples/receipts.csv"
SECONDS = 0.2


def of_many(size: int) -> pd.DataFrame:
    """A frame of rules whose figures are those of counts."""
    counts = pd.Series(range(1, size + 1))
    sides = (
        [frozenset([f"item {n % 500}", f"other {n // 500}"]) for n in counts],
        [frozenset([f"item {n % 77}"]) for n in counts],
    )
    figures = (
        counts / 10**6,
        counts / 200_000,
        counts * 10**6 / (200_000 * 250_000),
    )
    names = ["antecedents", "consequents", "count", "support", "confidence", "lift"]
    return pd.DataFrame(dict(zip(names, (*sides, counts, *figures))))


def test_a_link_shows_another_the_same(shop: webdriver.Chrome) -> None:
    at(shop, "either").send_keys('"milk"')
    at(shop, "lift").send_keys("0.9")
    shop.find_element(By.XPATH, "//th/button[.='Support']").click()
    shop.execute_script("selectBetween(placeOf(.1, .5), placeOf(.3, 1.01))")
    assert "support 10.0% to 30.0%" in at(shop, "area").text
    at(shop, "copy-link").click()
    said, kept, address = at(shop, "status").text, rows(shop), shop.current_url
    assert 0 < len(kept) < 20
    shop.get("about:blank")
    shop.get(address)
    until(shop, said)
    assert rows(shop) == kept
    assert at(shop, "either").get_attribute("value") == '"milk"'
    assert "support 10.0% to 30.0%" in at(shop, "area").text
    at(shop, "unselect").click()
    assert not at(shop, "selected").is_displayed()
    at(shop, "copy-link").click()
    assert "support-in" not in shop.current_url


def test_lift_by_support_is_another_picture(shop: webdriver.Chrome) -> None:
    at(shop, "picture").send_keys("lift")
    assert at(shop, "plotted").text == "Support and lift"
    canvas = at(shop, "marks")
    canvas.send_keys(Keys.HOME)
    assert at(shop, "tip").text.startswith("support 13.3%, lift 0.600")
    canvas.send_keys(Keys.ENTER)
    assert {row[5] for row in rows(shop)} == {"0.600"}


def test_what_is_shown_is_saved_as_csv(
    browser: webdriver.Chrome, tmp_path: Path
) -> None:
    sides = {("tea", "sugar, brown"), ('the "good" jam', "tea")}
    found = rules([[*side] for side in sides] + [["tea"]], 1, 0.5)
    browser.get(explore(found, tmp_path / "rules.html").as_uri())
    text = browser.execute_async_script(
        "csvOf(shown).then((blob) => blob.text()).then(arguments[0])"
    )
    table = [*csv.reader(io.StringIO(text.removeprefix("\ufeff")))]
    assert table[0][:3] == ["antecedents", "consequents", "count"]
    # A side is a record of CSV itself.
    assert {tuple(next(csv.reader([row[0]]))) for row in table[1:]} == {
        ("sugar, brown",),
        ('the "good" jam',),
    }
    assert {tuple(row[1:7]) for row in table[1:]} == {
        ("tea", "1", "1", "3", "3", "0.3333333333333333")
    }


def test_names_that_a_spreadsheet_takes_for_formulas_are_text_in_csv(
    browser: webdriver.Chrome, tmp_path: Path
) -> None:
    marks = "=+-@"
    found = rules([[f"{mark}1" for mark in marks]], 1, 0.5)
    browser.get(explore(found, tmp_path / "rules.html").as_uri())
    text = browser.execute_async_script(
        "csvOf(shown).then((blob) => blob.text()).then(arguments[0])"
    )
    table = [*csv.reader(io.StringIO(text.removeprefix("\ufeff")))]
    sides = [side for row in table[1:] for side in row[:2]]
    assert {side[:2] for side in sides} == {f"'{mark}" for mark in marks}
    at(browser, "save-shown").click()
    WebDriverWait(browser, 30).until(lambda _: "apostrophe" in at(browser, "done").text)


def test_100_percent_and_a_lift_of_1_are_these_values_alone(
    shop: webdriver.Chrome,
) -> None:
    script = "return arguments[0].map((value) => [percent(value), short(value)])"
    found = shop.execute_script(script, [1, 2999 / 3000, 0.9997, 1.0004, 0.5])
    assert found == [
        ["100%", "1.00"],
        ["99.97%", "0.9997"],
        ["99.97%", "0.9997"],
        ["100.04%", "1.0004"],
        ["50.0%", "0.500"],
    ]


def test_a_phone_shows_the_lift_and_the_confidence(shop: webdriver.Chrome) -> None:
    metrics = {"width": 375, "height": 700, "deviceScaleFactor": 2, "mobile": True}
    shop.execute_cdp_cmd("Emulation.setDeviceMetricsOverride", metrics)
    try:
        shop.refresh()
        until(shop, "27 rules of 27, page 1 of 1")
        assert shop.execute_script(
            "return document.documentElement.scrollWidth <= innerWidth"
        )
        first = shop.find_elements(By.CSS_SELECTOR, "tbody tr:first-child td")
        assert [cell.text for cell in first[-2:]] == ["28.6%", "2.14"]
        assert all(cell.rect["x"] + cell.rect["width"] <= 375 for cell in first)
        assert at(shop, "filtering").get_attribute("open") is None
    finally:
        shop.execute_cdp_cmd("Emulation.clearDeviceMetricsOverride", {})


def test_paper_has_a_thousand_rows_and_says_so(
    browser: webdriver.Chrome, tmp_path: Path
) -> None:
    browser.get(explore(of_many(1200), tmp_path / "rules.html").as_uri())
    until(browser, "1,200 rules of 1,200, page 1 of 24")
    browser.execute_script("dispatchEvent(new Event('beforeprint'))")
    assert len(rows(browser)) == 1000
    assert at(browser, "printed").text == "The first 1,000 are printed, 200 are not."
    browser.execute_script("dispatchEvent(new Event('afterprint'))")
    assert len(rows(browser)) == 50


def test_a_name_that_is_read_from_the_right_turns_nothing_else(
    browser: webdriver.Chrome, tmp_path: Path
) -> None:
    turned = "\u202eeert"
    browser.get(
        explore(rules([[turned, "b"]], 1, 0.5), tmp_path / "rules.html").as_uri()
    )
    names = browser.find_elements(By.CSS_SELECTOR, "tbody bdi")
    assert sorted(name.get_attribute("textContent") for name in names) == sorted(
        [turned, "b"] * 2
    )


@pytest.fixture(name="many", scope="module")
def page_of_many(
    browser: webdriver.Chrome, tmp_path_factory: pytest.TempPathFactory
) -> webdriver.Chrome:
    path = explore(of_many(100_000), tmp_path_factory.mktemp("many") / "rules.html")
    browser.execute_cdp_cmd("Performance.enable", {"timeDomain": "threadTicks"})
    browser.get(path.as_uri())
    until(browser, "100,000 rules of 100,000, page 1 of 2,000")
    return browser


@pytest.mark.parametrize(
    "step",
    [
        "take(data)",
        "startPicture()",
        "sorted = { key: 'left', isFalling: false }; sort()",
        "update()",
        "draw()",
        "select({ support: [0.01, 0.05], confidence: [0, 1] })",
        "forgetMarks(); showTip(goTo(1)); told(at)",
        "element('either').value = 'item 1, other 2'; update()",
        "Array.from(shown.slice(0, STEP), recordOf)",
    ],
)
def test_no_step_over_a_hundred_thousand_rules_is_long(
    many: webdriver.Chrome, step: str
) -> None:
    def processor() -> float:
        found = many.execute_cdp_cmd("Performance.getMetrics", {})["metrics"]
        return float({one["name"]: one["value"] for one in found}["ThreadTime"])

    taken = []
    for _ in range(3):
        # What an earlier step has left to be drawn is no part of this one.
        many.execute_async_script(
            "requestAnimationFrame(() => requestAnimationFrame(arguments[0]))"
        )
        time.sleep(0.05)
        before = processor()
        many.execute_script(step)
        taken.append(processor() - before)
    assert min(taken) < SECONDS, taken
