# mypy: allow-untyped-calls
"""The form that the page sees in a file, what a person makes of it, and files that can't be mined."""

import gzip
from pathlib import Path

import pytest
from selenium import webdriver
from selenium.webdriver.common.by import By
from selenium.webdriver.common.keys import Keys

from browser import at
from program_tests.program import run
from program_tests.test_look import RECEIPTS, SHOP, sets_in

from .use import (
    asked_of_the_program,
    figures,
    choose,
    give,
    recognised,
    report_of,
    settled,
    shown_command,
)

COMMA = "an item on each line, separated by comma, with a header"
# Files that have the same receipts, and what the page says of their form.
SAME = (
    (RECEIPTS, COMMA),
    (gzip.compress(gzip.compress(RECEIPTS)), COMMA),
    (RECEIPTS.replace(b",", b",7,").replace(b"7", b"shelf", 1), COMMA),
    (
        RECEIPTS.replace(b",", b";").replace(b"\n", b"\r\n"),
        COMMA.replace("comma", "semicolon"),
    ),
    (
        RECEIPTS.decode().replace(",", "\t").encode("utf-16"),
        COMMA.replace("comma", "tab"),
    ),
    (RECEIPTS.partition(b"\n")[2], COMMA.replace("with a", "without a")),
)
SHELVES = "receipt,shelf,product\n" + "".join(
    f"{n // 2},s{n % 3},{'tea' if n % 2 else 'jam'}\n" for n in range(40)
)
CAFES = "receipt;product\n" + "".join(
    f"{n // 2};{('café', 'tea')[n % 2]}\n" for n in range(40)
)

ANOTHER = "Choose another encoding above."


@pytest.fixture(name="shown", scope="module")
def opened_page(browser: webdriver.Chrome, page: Path) -> webdriver.Chrome:
    browser.get("about:blank")
    browser.get(page.as_uri())
    return browser


def heads(browser: webdriver.Chrome) -> list[str]:
    """The columns that are shown, each with its role."""
    browser.execute_script("element('glance').open = true")
    found = browser.find_elements(By.CSS_SELECTOR, "#first-lines [role=columnheader]")
    return [one.text.replace("\n", ": ") for one in found]


def turn(browser: webdriver.Chrome, name: str) -> str:
    """Changes the role of a column by keyboard, and returns what is said then."""
    browser.execute_script("element('glance').open = true")
    path = f"//*[@id='first-lines']//button[bdi='{name}']"
    head = browser.find_element(By.XPATH, path)
    head.send_keys(Keys.ENTER)
    said = settled(browser)
    assert browser.switch_to.active_element == head
    return said


def because(browser: webdriver.Chrome) -> str:
    return str(browser.execute_script("return element('because').textContent"))


def items(browser: webdriver.Chrome) -> set[str]:
    choose(browser, "ask", "items")
    choose(browser, "least", "1")
    lines = report_of(browser).decode().splitlines()
    return {line.partition(",")[2] for line in lines}


@pytest.mark.parametrize(("content", "said"), SAME, ids=map(str, range(len(SAME))))
def test_files_of_the_same_receipts_have_the_same_sets(
    shown: webdriver.Chrome, content: bytes, said: str
) -> None:
    words = ["sets", "--min", "10%", "--form", "single", "--header"]
    wanted = sets_in(run(words, RECEIPTS).out.decode().splitlines())
    give(shown, content)
    assert recognised(shown) == said
    choose(shown, "least", "2")
    choose(shown, "ask", "sets")
    assert sets_in(report_of(shown).decode().splitlines()) == wanted


def test_numbers_and_counts_are_known(shown: webdriver.Chrome) -> None:
    numbers = SHOP.replace(b"3x ", b"")
    words = ["sets", "--min", "2"]
    report = run(words, numbers).out
    wanted = sets_in(report.decode().splitlines())
    fields = "a basket on each line, separated by space, without a header"
    for content, said in (
        (numbers, "numbers, a basket on each line"),
        (numbers.replace(b"\n", b"\r"), fields),
        (report + b"(13)\n", "sets with counts"),
    ):
        assert "in 13 baskets" in give(shown, content)
        assert recognised(shown) == said
        choose(shown, "ask", "sets")
        choose(shown, "least", "2")
        assert sets_in(report_of(shown).decode().splitlines()) == wanted


def test_a_person_chooses_what_the_columns_are(shown: webdriver.Chrome) -> None:
    give(shown, SHELVES.encode())
    assert heads(shown) == ["receipt: basket", "shelf: left out", "product: item"]
    assert items(shown) == {"jam", "tea"}
    assert turn(shown, "product") == "No column has the items. Choose one above."
    assert not at(shown, "listing").is_displayed()
    turn(shown, "shelf")
    turn(shown, "shelf")
    assert heads(shown) == ["receipt: basket", "shelf: item", "product: left out"]
    assert items(shown) == {"s0", "s1", "s2"}
    first = [it.text for it in at(shown, "baskets").find_elements(By.TAG_NAME, "li")]
    assert first[:2] == ["0: s0, s1", "1: s2, s0"]
    words = "pairs --header --basket 1 --item 2"
    assert shown_command(shown).startswith(
        f"basket {words} 'some file.csv' | basket items"
    )
    turn(shown, "receipt")
    assert "in 40 baskets" in turn(shown, "receipt")
    button = at(shown, "doubts").find_element(By.TAG_NAME, "button")
    button.click()
    assert "in 20 baskets" in settled(shown)
    assert items(shown) == {"jam", "tea"}


def test_columns_that_are_not_shown_keep_what_they_are(shown: webdriver.Chrome) -> None:
    head = ",".join(f"i{n}" for n in range(1, 71))
    rows = "".join(
        ",".join("1" if n in (row, row + 60) else "0" for n in range(70)) + "\n"
        for row in range(9)
    )
    give(shown, f"{head}\n{rows * 5}".encode())
    assert (
        recognised(shown) == "a column for each item, separated by comma, with a header"
    )
    turn(shown, "i3")
    assert items(shown) == {f"i{n}" for n in (1, 2, *range(4, 10), *range(61, 70))}


def test_letters_are_read_as_a_person_says(
    shown: webdriver.Chrome, tmp_path: Path
) -> None:
    content = CAFES.encode("cp1252")
    give(shown, content)
    assert items(shown) == {"café", "tea"}
    choose(shown, "encoding", "macintosh")
    assert items(shown) == {"cafÈ", "tea"}
    assert report_of(shown) == asked_of_the_program(shown, content, tmp_path).out
    assert "As you chose it." in because(shown)
    said = choose(shown, "encoding", "utf-8")
    assert said == f"The file is no text in UTF-8 at line 2. {ANOTHER}"
    assert not at(shown, "listing").is_displayed()
    choose(shown, "encoding", "windows-1252")
    assert because(shown).startswith("An item of a basket in each record")
    assert items(shown) == {"café", "tea"}


def test_another_reading_is_a_button(shown: webdriver.Chrome) -> None:
    weighted = (
        "a basket on each line, separated by comma, without a header, its weight first"
    )
    give(shown, b"10\n3,milk,tea\n4,tea\n3,milk\n1,jam\n")
    found = [(recognised(shown), figures(settled(shown))[1])]
    said = at(shown, "doubts").text
    assert said.startswith("Not sure: The number before a basket")
    for place in (0, 2):
        buttons = at(shown, "doubts").find_elements(By.TAG_NAME, "button")
        assert len(buttons) == 2
        buttons[place // 2].click()
        found.append((recognised(shown), figures(settled(shown))[1]))
    # The weights of the records with a name, these records, and the count of the empty set.
    assert found == [
        (weighted, 11),
        (weighted.removesuffix(", its weight first"), 4),
        ("sets with counts", 10),
    ]
    choose(shown, "ask", "sets")
    choose(shown, "least", "3")
    assert report_of(shown).decode().splitlines() == ["3,milk", "4,tea", "3,milk,tea"]


@pytest.mark.parametrize(
    ("content", "said"),
    [
        (b"", "some file.csv is empty"),
        (b"\n \n", "no basket"),
        (b"PK\x03\x04 and more", "The file is damaged or was cut off."),
        (b'{"a": 1}', "JSON"),
        (bytes(range(256)), "no text"),
        (b"BZh and more", "compressed by bzip2. Unpack it first."),
        (b"receipt,product\n", "too short to tell what it is. A few more lines"),
    ],
)
def test_what_can_not_be_mined_is_told(
    shown: webdriver.Chrome, content: bytes, said: str
) -> None:
    assert said in give(shown, content)
    for name in ("listing", "question"):
        assert not at(shown, name).is_displayed()
    assert not at(shown, "save-report").is_enabled()
