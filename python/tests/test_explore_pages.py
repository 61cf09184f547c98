# mypy: allow-untyped-calls
"""Pages of rules of other kinds: hostile names, many rules and none; and how they are written."""

import json
import re
import subprocess
import sys
import time
from collections.abc import Callable
from pathlib import Path
from typing import Any

import pandas as pd
import pytest
from selenium import webdriver
from selenium.webdriver.common.action_chains import ActionChains
from selenium.webdriver.common.by import By

from basket_miner import BasketError, DataError, FileError, explore, rules
from basket_miner.frequent_patterns import apriori, association_rules
from browser import at, rows, until

ROOT = Path(__file__).parents[2]
RECEIPTS = ROOT / "examples/receipts.csv"
HOSTILE = "</script><script>document.title='run'</script><img src=x onerror=\"document.title='run'\">"


def test_names_are_text(browser: webdriver.Chrome, tmp_path: Path) -> None:
    found = rules([[HOSTILE, "{{data}}"], [HOSTILE], ["tea"]], 1, 0.0)
    path = explore(found, tmp_path / "rules.html")
    browser.get(path.as_uri())
    assert [row[:2] for row in rows(browser)] == [
        ["{{data}}", HOSTILE],
        [HOSTILE, "{{data}}"],
    ]
    ActionChains(browser).move_to_element(at(browser, "marks")).perform()
    assert browser.title == "Association rules"
    assert browser.find_elements(By.TAG_NAME, "img") == []
    # The name of what a saved picture is written in stands for no address.
    text = path.read_text().replace("http://www.w3.org/2000/svg", "")
    found = re.search(r"(?i)https?:|src=(?!x)|@import|(?<!Object)url\(", text)
    assert found is None
    assert browser.get_log("browser") == []


@pytest.mark.parametrize("scheme", ["light", "dark"])
def test_the_page_follows_the_scheme_of_colours(
    shop: webdriver.Chrome, scheme: str
) -> None:
    media = {"features": [{"name": "prefers-color-scheme", "value": scheme}]}
    shop.execute_cdp_cmd("Emulation.setEmulatedMedia", media)
    body = shop.find_element(By.TAG_NAME, "body")
    levels = [
        [*map(int, re.findall(r"\d+", body.value_of_css_property(name))[:3])]
        for name in ("background-color", "color")
    ]
    is_light = sum(levels[0]) > sum(levels[1])
    assert is_light == (scheme == "light")


def test_a_hundred_thousand_rules_are_paged(
    browser: webdriver.Chrome, tmp_path: Path, capsys: pytest.CaptureFixture[str]
) -> None:
    total, size = 10**6, 100_000
    counts = pd.Series(range(1, size + 1))
    frame = pd.DataFrame(
        {
            "antecedents": [
                frozenset([f"item {n % 500}", f"other {n // 500}"]) for n in counts
            ],
            "consequents": [frozenset([f"item {n % 77}"]) for n in counts],
            "count": counts,
            "support": counts / total,
            "confidence": counts / 200_000,
            "lift": counts * total / (200_000 * 250_000),
        }
    )
    start = time.monotonic()
    path = explore(frame, tmp_path / "rules.html")
    written = time.monotonic()
    browser.get(path.as_uri())
    until(browser, "100,000 rules of 100,000, page 1 of 2,000")
    loaded = time.monotonic()
    with capsys.disabled():
        seconds = f"{written - start:.1f} s to write, {loaded - written:.1f} s to load"
        print(f"\n100,000 rules: {seconds}")
    at(browser, "last").click()
    until(browser, "100,000 rules of 100,000, page 2,000 of 2,000")
    assert [row[2] for row in rows(browser)] == [str(n) for n in range(50, 0, -1)]
    at(browser, "support").send_keys("9.9991")
    until(browser, "10 rules of 100,000, page 1 of 1")


def test_rules_of_mlxtends_calls_are_shown_with_their_counts(tmp_path: Path) -> None:
    table = pd.DataFrame({"a": [1, 1, 0], "b": [1, 0, 1]})
    found = association_rules(apriori(table, 0.3), metric="lift", min_threshold=0)
    text = explore(found, tmp_path / "rules.html").read_text()
    shown = re.search(r'id="data">(.*)</script>', text)
    assert shown
    data = json.loads(shown[1])
    assert data["sides"] == [["0"], ["1"]]
    assert {*zip(data["left"], data["right"])} == {(0, 1), (1, 0)}
    assert (data["both"], data["total"]) == ([1, 1], 3)
    assert data["withLeft"] == data["withRight"] == [2, 2]


@pytest.mark.parametrize(
    ("said", "change"),
    [
        ("no column 'count'", lambda frame: frame.drop(columns="count")),
        ("no column 'lift'", lambda frame: frame.drop(columns="lift")),
        ("not those of one number", lambda frame: frame.assign(lift=0.3)),
        ("not those of one number", lambda frame: frame.assign(support=0.0)),
        ("not those of one number", lambda frame: frame.round(2)),
    ],
)
def test_frames_that_are_no_rules_are_refused(
    said: str, change: Callable[[pd.DataFrame], pd.DataFrame], tmp_path: Path
) -> None:
    found = rules(RECEIPTS, 2, "1/4", form="single", header=True)
    with pytest.raises(DataError, match=said):
        explore(change(found), tmp_path / "rules.html")


def test_a_rule_of_just_the_least_support_stays(
    browser: webdriver.Chrome, tmp_path: Path
) -> None:
    found = rules([["a", "b"]] * 29 + [["c"]] * 71, 1, 0.5)
    browser.get(explore(found, tmp_path / "rules.html").as_uri())
    at(browser, "support").send_keys("29")
    at(browser, "confidence").send_keys("101")
    until(browser, "0 rules of 2, page 1 of 1")
    at(browser, "confidence").clear()
    at(browser, "confidence").send_keys("100")
    until(browser, "2 rules of 2, page 1 of 1")


def test_no_rule_is_a_page_too(browser: webdriver.Chrome, tmp_path: Path) -> None:
    found = rules([["a"], ["b"]], 1, 0.5)
    browser.get(explore(found, tmp_path / "rules.html").as_uri())
    assert at(browser, "summary").text == "There is no rule."
    assert browser.get_log("browser") == []


@pytest.mark.parametrize(
    ("said", "kind", "call"),
    [
        ("not None", DataError, lambda found, _: explore(found, None)),  # type: ignore[arg-type]
        ("it is a folder", FileError, explore),
        (
            "name too long",
            FileError,
            lambda found, at: explore(found, at / ("x" * 300)),
        ),
        ("no zero byte", FileError, lambda found, at: explore(found, at / "a\0b")),
        ("no folder", FileError, lambda found, at: explore(found, at / "a/b.html")),
        ("not list", DataError, lambda _, at: explore([1], at / "rules.html")),
    ],
)
def test_a_page_that_can_not_be_written_is_told(
    said: str, kind: type[BasketError], call: Callable[..., Any], tmp_path: Path
) -> None:
    with pytest.raises(kind, match=said):
        call(rules([["a", "b"]], 1, 0.5), tmp_path)


def test_a_page_has_a_title_and_a_source_that_are_text(
    browser: webdriver.Chrome, tmp_path: Path
) -> None:
    title = f"{HOSTILE} & {{{{data}}}}"
    found = rules([["a", "b"]], 1, 0.5)
    path = explore(found, tmp_path / "rules.html", title=title, source=HOSTILE)
    browser.get(path.as_uri())
    assert browser.title == title
    assert browser.find_element(By.TAG_NAME, "h1").text == title
    assert at(browser, "source").text == HOSTILE
    assert len(rows(browser)) == 2


def test_a_notebook_shows_the_page_itself(
    browser: webdriver.Chrome, tmp_path: Path
) -> None:
    found = rules([[HOSTILE, "b"]], 1, 0.5)
    shown: Any = explore(found, tmp_path / "rules.html", title='"May"')
    notebook = tmp_path / "notebook.html"
    notebook.write_text(f"<title>notebook</title>{shown._repr_html_()}")
    browser.get(notebook.as_uri())
    browser.switch_to.frame(browser.find_element(By.TAG_NAME, "iframe"))
    until(browser, "2 rules of 2, page 1 of 1")
    assert browser.find_element(By.TAG_NAME, "h1").text == '"May"'
    assert ["b", HOSTILE] in [row[:2] for row in rows(browser)]
    browser.switch_to.default_content()
    assert browser.title == "notebook"


def test_the_shell_writes_the_page(tmp_path: Path) -> None:
    words = [sys.executable, "-m", "basket_miner", "explore", str(RECEIPTS)]
    words += ["--form=single", "--header", "--min=20%", "--conf=2/3", "-o"]
    run = {"cwd": ROOT / "python", "capture_output": True, "text": True}
    page = tmp_path / "rules.html"
    ended = subprocess.run([*words, str(page)], check=True, **run)  # type: ignore[call-overload]
    assert ended.stderr == f"3 rules in {page}\n"
    assert '"both":[7,3,5]' in page.read_text()
    assert f"{RECEIPTS}, minimum 20%, confidence 2/3<" in page.read_text()
    ended = subprocess.run([*words, "-", "--title=May"], check=True, **run)  # type: ignore[call-overload]
    assert ended.stdout.startswith("<!DOCTYPE html>") and "<h1>May</h1>" in ended.stdout
    ended = subprocess.run([*words, str(tmp_path)], check=False, **run)  # type: ignore[call-overload]
    assert (ended.returncode, ended.stdout) == (1, "")
    assert ended.stderr == f"cannot write {tmp_path}: it is a folder, and no file\n"
    words[words.index("--min=20%")] = "--min=x%"
    ended = subprocess.run([*words, str(page)], check=False, **run)  # type: ignore[call-overload]
    assert ended.returncode == 1
    assert "bad value for --min" in ended.stderr and "Traceback" not in ended.stderr
