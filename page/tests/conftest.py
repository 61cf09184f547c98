# mypy: allow-untyped-calls
"""A browser, and the page with the program in it: PAGE names another than the one that is built."""

import os
from collections.abc import Iterator
from pathlib import Path

import pytest
from selenium import webdriver

from browser import at, opened

from .engine import Engine
from .use import settled

BUILT = Path(__file__).parents[2] / "dist/basket.html"


@pytest.fixture(scope="session")
def page() -> Path:
    return Path(os.environ.get("PAGE", BUILT)).resolve()


@pytest.fixture(scope="session")
def browser() -> Iterator[webdriver.Chrome]:
    with opened() as found:
        yield found


@pytest.fixture(scope="module")
def engine(browser: webdriver.Chrome, page: Path) -> Engine:
    return Engine(browser, page)


@pytest.fixture(name="shown")
def fresh_page(browser: webdriver.Chrome, page: Path) -> webdriver.Chrome:
    browser.get("about:blank")
    browser.get_log("browser")  # What an earlier test left there.
    browser.get(page.as_uri())
    return browser


@pytest.fixture(name="example")
def page_of_example(shown: webdriver.Chrome) -> webdriver.Chrome:
    at(shown, "example").click()
    settled(shown)
    return shown
