# mypy: allow-untyped-calls
"""A browser without a window, and what it shows of a page of rules: for tests and pictures."""

import contextlib
import shutil
import tempfile
import time
from collections.abc import Iterator
from typing import Any

from selenium import webdriver
from selenium.webdriver.chrome.service import Service
from selenium.webdriver.common.by import By


@contextlib.contextmanager
def opened(*more: str, log: str = "browser") -> Iterator[webdriver.Chrome]:
    """Debian's Chromium, with more words if need be. As root it runs without its sandbox: its pages are our own."""
    options = webdriver.ChromeOptions()
    with tempfile.TemporaryDirectory(prefix="basket-browser-") as folder:
        for word in (
            "--headless=new",
            "--no-sandbox",
            "--disable-gpu",
            "--disable-dev-shm-usage",
            "--window-size=1400,1000",
            f"--user-data-dir={folder}",
            *more,
        ):
            options.add_argument(word)
        options.set_capability("goog:loggingPrefs", {log: "ALL"})
        service = Service(shutil.which("chromedriver") or "chromedriver")
        browser = webdriver.Chrome(service=service, options=options)
        try:
            yield browser
        finally:
            browser.quit()


def rows(browser: webdriver.Chrome) -> list[list[str]]:
    """The texts of the table's cells."""
    script = "return [...document.querySelectorAll('tbody tr')].map(r => [...r.cells].map(c => c.textContent))"
    found: list[list[str]] = browser.execute_script(script)
    return found


def at(browser: webdriver.Chrome, name: str) -> Any:
    return browser.find_element(By.ID, name)


def until(browser: webdriver.Chrome, status: str) -> None:
    """Waits until the live region says a text."""
    stop = time.monotonic() + 120
    while (said := at(browser, "status").text) != status:
        assert time.monotonic() < stop, said
        time.sleep(0.02)
