#!/usr/bin/env python3
# mypy: allow-untyped-calls
"""Makes the pictures of README, docs/GUIDE.md and docs/SHOP.md from examples/.

usage: tools/pictures.py [FOLDER]    at the top of the repository; FOLDER is docs/pictures by default

It needs Debian's packages (tools/python-packages), the program, and the page dist/basket.html, or the one that
PAGE names. One version of matplotlib writes the same bytes each time; the pages are what Chromium shows.
"""

import contextlib
import os
import subprocess
import sys
import tempfile
import time
from pathlib import Path
from typing import Any

ROOT = Path(__file__).resolve().parents[1]
sys.path[:0] = [str(ROOT / "python"), str(ROOT / "python/tests")]
os.environ["MPLBACKEND"] = "agg"

from PIL import Image  # noqa: E402

from basket_miner import compare, explore, plot, rules  # noqa: E402
from browser import at, opened  # noqa: E402
from test_guide import blocks, printed_by  # noqa: E402

PAGE = Path(os.environ.get("PAGE", ROOT / "dist/basket.html")).resolve()
RECEIPTS = ROOT / "examples/receipts.csv"


def settle(browser: Any) -> None:
    """Waits until the page has answered."""
    while (
        browser.find_element("tag name", "main").get_attribute("aria-busy") != "false"
    ):
        time.sleep(0.1)


def shoot(browser: Any, path: Path, height: int) -> None:
    """A picture of so many rows of the page, in few colours."""
    browser.save_screenshot(str(path))
    with Image.open(path) as whole:
        part = whole.crop((0, 0, whole.width, min(height, whole.height)))
        part.convert("RGB").quantize(48).save(path, optimize=True)


def shop(folder: Path) -> None:
    """The pictures of the guide for shops: a made-up month, as it comes and as it is cleaned."""
    with tempfile.TemporaryDirectory() as place, opened(
        "--window-size=1120,1100"
    ) as browser:
        month = Path(place, "month.csv")
        for word, name in (("", "shop-first"), ("clean", "shop-rules")):
            words = [sys.executable, str(ROOT / "examples/month.py"), word]
            month.write_bytes(subprocess.run(words, stdout=-1, check=True).stdout)
            browser.get(PAGE.as_uri())
            if not word:
                shoot(browser, folder / "shop-empty.png", 420)
            at(browser, "file").send_keys(str(month))
            settle(browser)
            if word:
                set_confidence(browser, 25)
            shoot(browser, folder / f"{name}.png", 700)
            if not word:
                browser.execute_script("element('glance').open = true")
                time.sleep(0.5)
                shoot(browser, folder / "shop-columns.png", 620)


def set_confidence(browser: Any, least: int) -> None:
    script = (
        "const one = element('confidence-least'); one.value = arguments[0]; "
        "one.dispatchEvent(new Event('input')); one.dispatchEvent(new Event('change'))"
    )
    browser.execute_script(script, least)
    time.sleep(0.5)
    settle(browser)


def months() -> dict[str, Any]:
    """What the guide's blocks on decisions name: two months of a shop that is made up."""
    names: dict[str, Any] = {}
    sections = (blocks()[0].section, "From receipts to a decision")
    with contextlib.chdir(ROOT):
        for block in blocks():
            if block.section in sections and "savefig" not in block.code:
                printed_by(block, names)
    return names


def main(words: list[str]) -> None:
    folder = Path(words[0]) if words else ROOT / "docs/pictures"
    folder.mkdir(parents=True, exist_ok=True)
    found = rules(RECEIPTS, 2, "1/4", form="single", header=True)
    both = months()
    counts = [1, 2, 3, 4, 5, 6, 8, 10, 12]
    pictures = {
        "rules": plot.rules(found),
        "minimums": plot.minimums(RECEIPTS, counts, form="single", header=True),
        "changes": plot.changes(
            compare(both["first"], both["second"], 10, **both["columns"])
        ),
        "strongest": plot.strongest(found[found["count"] >= 3]),
    }
    for name, axes in pictures.items():
        axes.figure.savefig(folder / f"{name}.png", metadata={"Software": None})
    with tempfile.TemporaryDirectory() as place, opened() as browser:
        browser.get(explore(found, Path(place, "rules.html")).as_uri())
        browser.save_screenshot(str(folder / "explore.png"))
        if not PAGE.is_file():
            print(f"{PAGE} is not here, nor is its picture: `make page` makes it")
            return
        browser.get(PAGE.as_uri())
        at(browser, "example").click()
        settle(browser)
        browser.save_screenshot(str(folder / "page.png"))
    shop(folder)


if __name__ == "__main__":
    main(sys.argv[1:])
