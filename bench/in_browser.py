#!/usr/bin/python3
# mypy: allow-untyped-calls
"""Prints what questions take in the page with the program in it, in seconds of processors, beside the program.

usage: bench/in_browser.py    with the page and the program that are built, or that `PAGE` and `BASKET` name

The page's figure is that of its own thread, in the least of three runs in turn; memory is that of the run alone,
without the input and the report, which the page holds too.
"""

import os
import subprocess
import sys
import tempfile
from pathlib import Path
from typing import Any

ROOT = Path(__file__).resolve().parents[1]
sys.path[:0] = [str(ROOT / name) for name in ("page", "python/tests", "tools")]

from selenium import webdriver  # noqa: E402

from browser import at, opened  # noqa: E402
from run import RUNS  # noqa: E402
from runs import adopt, measured  # noqa: E402
from tests.engine import Engine  # noqa: E402

PAGE = Path(os.environ.get("PAGE", ROOT / "dist/basket.html")).resolve()
PROGRAM = os.environ.get("BASKET", str(ROOT / "crates/basket_cli/out/basket_cli"))
WORKER = ROOT / "page/worker.js"
# The worker's own code in the page's thread, whose time the browser tells, and a field for a file.
BEGIN = """
window.miner.answerTo = answerTo;
readiness(window.miner.module);
window.onmessage = null;
const field = Object.assign(document.createElement("input"), { type: "file", id: "measured" });
document.body.append(field);
"""
READ = """
const [done] = arguments;
document.getElementById("measured").files[0].arrayBuffer().then((input) => {
  window.miner.input = input;
  done();
});
"""
ASK = """
const { status, report, memory } = window.miner.answerTo({ words: arguments[0], input: window.miner.input, sets: null });
return [status, report.length, memory];
"""
QUESTIONS = (
    ("single", "items --min 1 --form single"),
    ("single", "sets --min 1/200 --form single"),
    ("single", "sets --min 1/1000 --form single --miner eclat-bits"),
    ("single", "rules --min 1/200 --conf 1/2 --form single --miner eclat-bits"),
    ("baskets", "items --min 1 --form baskets"),
    ("baskets", "sets --min 1/10000 --form baskets --miner eclat-bits"),
)
INPUTS = {
    "single": "a million records of CSV, an item of one of 100,000 baskets in each",
    "baskets": "a million records of CSV, a basket of eight items in each",
}


def generated(*words: str) -> str:
    script, *rest = words
    words = (sys.executable, str(ROOT / "bench" / script), *rest)
    return subprocess.run(words, stdout=subprocess.PIPE, text=True, check=True).stdout


def write_inputs(folder: Path) -> None:
    lines = generated("quest.py", "10", "4", "100000", "1000", "2000", "1").splitlines()
    with open(folder / "single", "w", encoding="ascii") as single:
        for place, line in enumerate(lines):
            single.writelines(f"r{place},item {item}\n" for item in line.split())
    text = generated("baskets.py", "1000000", "8", "100000", "1", ",")
    (folder / "baskets").write_text(text, encoding="ascii")


def thread_seconds(browser: webdriver.Chrome) -> float:
    """How long the page's thread has worked."""
    found: Any = browser.execute_cdp_cmd("Performance.getMetrics", {})["metrics"]
    return float(next(it["value"] for it in found if it["name"] == "TaskDuration"))


def row(browser: webdriver.Chrome, words: str, data: Path) -> str:
    """What a question takes in both, in a line."""
    in_page, alone = [], []
    report = data.with_suffix(".report")
    for _ in range(RUNS):
        before = thread_seconds(browser)
        status, length, memory = browser.execute_script(ASK, words.split())
        in_page.append(thread_seconds(browser) - before)
        alone.append(measured((PROGRAM, *words.split()), str(data), str(report)))
        assert status == 0 and length == report.stat().st_size
    least, own = min(in_page), min(run.seconds for run in alone)
    most = max(run.memory for run in alone)
    return (
        f"  {words}: page {least:.2f} s, {memory / 1e6:.0f} MB; program {own:.2f} s, {most:.0f} MB; "
        f"{least / own:.1f} times"
    )


def main() -> None:
    adopt()
    with tempfile.TemporaryDirectory() as folder, opened() as browser:
        write_inputs(Path(folder))
        Engine(browser, PAGE)
        browser.execute_script(WORKER.read_text(encoding="utf-8") + BEGIN)
        browser.execute_cdp_cmd("Performance.enable", {"timeDomain": "threadTicks"})
        print(f"Chromium {browser.capabilities['browserVersion']}")
        last = None
        for name, words in QUESTIONS:
            data = Path(folder, name)
            if name != last:
                print(f"{INPUTS[name]}, {data.stat().st_size / 1e6:.0f} MB:")
                at(browser, "measured").send_keys(str(data))
                browser.execute_async_script(READ)
                last = name
            print(row(browser, words, data), flush=True)


main()
