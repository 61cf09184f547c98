# mypy: allow-untyped-calls
"""What a person does in the page: opens, moves sliders, types, saves, sends a link; with a mouse and without one."""

import csv
import io
import time
from pathlib import Path

import pytest
from selenium import webdriver
from selenium.webdriver.common.by import By
from selenium.webdriver.common.keys import Keys
from selenium.webdriver.support.wait import WebDriverWait

from browser import at, rows
from program_tests.inputs import dense, fimi
from program_tests.program import run_at_terminal

from .use import asked_of_the_program, choose, figures, give, report_of, settled

ROOT = Path(__file__).parents[2]
RECEIPTS = (ROOT / "examples/receipts.csv").read_bytes()
SHOP = (ROOT / "examples/shop.dat").read_bytes()
SECONDS_OF_A_STEP = 0.2
DROP = """
const [kind, target, key] = arguments;
const transfer = new DataTransfer();
transfer.items.add(new File([arguments[3]], "dropped.dat"));
target.dispatchEvent(new (key === "clipboardData" ? ClipboardEvent : DragEvent)(kind, { [key]: transfer, bubbles: true, cancelable: true }));
"""


def test_an_example_is_one_click_away(
    example: webdriver.Chrome, tmp_path: Path
) -> None:
    wanted = asked_of_the_program(example, RECEIPTS, tmp_path)
    assert report_of(example) == wanted.out
    found = [*csv.reader(io.StringIO(wanted.out.decode()))]
    assert len(rows(example)) == len(found) > 10
    assert ["tea", "milk", "3", "20.0%", "100%", "1.25"] in [
        row[:6] for row in rows(example)
    ]
    assert ["3", "1/1", "5/4", "1", "tea", "milk"] in found


@pytest.mark.parametrize("ask", ["rules", "sets", "closed", "maximal", "items"])
@pytest.mark.parametrize(
    ("content", "name"),
    [(RECEIPTS, "receipts.csv"), (SHOP, "shop.dat")],
    ids=["names", "numbers"],
)
def test_what_is_listed_is_the_programs_report(
    shown: webdriver.Chrome, tmp_path: Path, ask: str, content: bytes, name: str
) -> None:
    give(shown, content, name)
    said = choose(shown, "ask", ask)
    wanted = asked_of_the_program(shown, content, tmp_path).out
    assert report_of(shown) == wanted
    lines = wanted.splitlines()
    assert figures(said)[:2] == [len(lines), 15]
    column = 2 if ask in ("rules", "items", "sets", "closed", "maximal") else 1
    counts = [
        int(
            line.split(b",")[0]
            if name.endswith("csv")
            else line.split(b"(")[1].split(b")")[0]
        )
        for line in lines
    ]
    assert sorted(int(row[column]) for row in rows(shown)) == sorted(counts)


def test_the_saved_report_has_the_programs_bytes(
    example: webdriver.Chrome, tmp_path: Path
) -> None:
    saved = tmp_path / "saved"
    behaviour = {"behavior": "allow", "downloadPath": str(saved)}
    example.execute_cdp_cmd("Browser.setDownloadBehavior", behaviour)
    at(example, "save-report").click()
    stop = time.monotonic() + 30
    while not (made := saved / "example-rules.csv").exists():
        assert time.monotonic() < stop
        time.sleep(0.05)
    wanted = asked_of_the_program(example, RECEIPTS, tmp_path)
    assert (made.read_bytes(), wanted.status) == (wanted.out, 0)


def test_a_slider_that_is_moved_by_keys_mines_again(example: webdriver.Chrome) -> None:
    before = figures(settled(example))[0]
    slider = at(example, "minimum")
    slider.send_keys(Keys.ARROW_RIGHT)
    assert figures(settled(example))[0] < before
    assert at(example, "least").get_attribute("value") == "3"
    assert slider.get_attribute("aria-valuetext") == "3 of 15 baskets: 20.0%"
    at(example, "confidence-least").send_keys(Keys.HOME)
    settled(example)
    assert "--conf 0%" in example.execute_script(
        "return element('command').textContent"
    )
    slider.send_keys(Keys.HOME)
    settled(example)
    assert at(example, "least").get_attribute("value") == "1"


def test_rules_come_back_the_strongest_first(example: webdriver.Chrome) -> None:
    before = rows(example)
    choose(example, "ask", "sets")
    counts = [int(row[2]) for row in rows(example)]
    assert counts == sorted(counts, reverse=True)
    choose(example, "ask", "rules")
    assert rows(example) == before


def test_a_newer_question_ends_an_older_one(example: webdriver.Chrome) -> None:
    give(example, fimi(dense()), "dense.dat")
    example.execute_script(
        "ask(turn, ['sets', '--min', '1', '--miner', 'apriori', '-'], file.bytes)"
    )
    choose(example, "ask", "items")
    assert "itemsets in" in settled(example)


def test_a_question_is_stopped(example: webdriver.Chrome) -> None:
    give(example, fimi(dense()), "dense.dat")
    example.execute_script(
        "saySoon(begin(), 'Mining.'); ask(turn, ['sets', '--min', '1', '-'], file.bytes)"
    )
    WebDriverWait(example, 30).until(lambda _: at(example, "end").is_displayed())
    at(example, "end").click()
    assert settled(example) == "Stopped."
    assert "itemsets in" in choose(example, "ask", "items")


def test_a_fault_says_where_it_is_without_words_of_a_command_line(
    shown: webdriver.Chrome,
) -> None:
    # The first MiB has none, which is what is looked at.
    content = b"1 2 3\n" * 200_000
    said = give(shown, content + b"3 4,5\n")
    wanted = run_at_terminal(["items", "--min", "1"], content + b"3 4,5\n").said
    assert wanted.startswith("basket: line 200001: byte 0x2C is no digit or blank\n")
    assert said == "In line 200001 of the file: byte 0x2C is no digit or blank."
    assert not at(shown, "listing").is_displayed()
    assert "rules in 15 baskets" in give(shown, SHOP)


def test_counts_of_sets_that_are_typed(example: webdriver.Chrome) -> None:
    choose(example, "ask", "count")
    choose(example, "given", 'milk, bread\n"sugar, brown"\nwine')
    assert {tuple(row[:3]) for row in rows(example)} == {
        ("milk, bread", "2", "7"),
        ('"sugar, brown"', "1", "1"),
        ("wine", "1", "0"),
    }
    give(example, SHOP, "shop.dat")
    choose(example, "given", "1, 2\n9 1")
    assert {tuple(row[:3]) for row in rows(example)} == {
        ("1, 2", "2", "7"),
        ("1, 9", "2", "0"),
    }


def test_a_link_restores_the_question_and_the_selection(
    example: webdriver.Chrome,
) -> None:
    choose(example, "least", "3")
    choose(example, "confidence-least", "20")
    at(example, "filtering").find_element(By.TAG_NAME, "summary").click()
    at(example, "without").send_keys("tea")
    example.execute_script("selectBetween(placeOf(.1, .3), placeOf(.4, .9))")
    at(example, "copy-link").click()
    kept, address = rows(example), example.current_url
    assert 0 < len(kept) < 6
    example.get("about:blank")
    example.get(address)
    settled(example)
    assert rows(example) == kept
    assert at(example, "least").get_attribute("value") == "3"
    assert at(example, "area").text.startswith("Selected: support 10.0% to 40.0%")


@pytest.mark.parametrize(
    ("kind", "key"), [("drop", "dataTransfer"), ("paste", "clipboardData")]
)
def test_a_file_is_dropped_or_pasted(
    shown: webdriver.Chrome, kind: str, key: str
) -> None:
    body = shown.find_element(By.TAG_NAME, "body")
    shown.execute_script(
        "document.querySelector('main').setAttribute('aria-busy', 'true')"
    )
    shown.execute_script(DROP, kind, body, key, SHOP.decode())
    assert "in 15 baskets" in settled(shown)
    assert shown.title == "dropped.dat - basket"


def test_names_of_a_file_are_text(shown: webdriver.Chrome) -> None:
    hostile = "</script><img src=x onerror=\"document.title='run'\">"
    quoted = hostile.replace('"', '""')
    give(shown, f'"{quoted}",b\n"{quoted}",b,d\nb,c\n'.encode())
    choose(shown, "least", "1")
    assert hostile in {row[0] for row in rows(shown)}
    assert shown.find_elements(By.TAG_NAME, "img") == []
    assert shown.title != "run"


def test_a_browser_without_wide_memory_is_told_so(
    browser: webdriver.Chrome, page: Path
) -> None:
    source = {"source": "WebAssembly.validate = () => false"}
    made = browser.execute_cdp_cmd("Page.addScriptToEvaluateOnNewDocument", source)
    try:
        browser.get("about:blank")
        browser.get(page.as_uri())
        assert "Chromium have it from version 133 on" in at(browser, "trouble").text
        assert not at(browser, "example").is_enabled()
    finally:
        browser.execute_cdp_cmd("Page.removeScriptToEvaluateOnNewDocument", made)


def test_a_report_is_not_drawn_before_its_picture_begins(
    example: webdriver.Chrome,
) -> None:
    # A frame may come between the two, while another report's marks are still there, and a mouse may be let go.
    script = """
    take({ ...data, both: data.both.slice(0, 1) });
    draw();
    const point = (kind, pointerType, clientX) =>
      canvas.dispatchEvent(new PointerEvent(kind, { pointerType, clientX, clientY: 200 }));
    point("pointerdown", "touch", 100);
    point("pointerup", "mouse", 300);
    startPicture();
    update();
    return shown.length;
    """
    assert example.execute_script(script) == 1
    assert example.get_log("browser") == []


STEPS = """
const [done] = arguments;
const sides = new Sides();
for (let n = 0; n < 100_000; n++) sides.placeOf([`item ${n % 997}`, `item ${n}`]);
const text = Array.from({ length: STEP }, (_, n) => `${n + 1};1/2;3/4;1;item ${n};"another; ${n}"\\n`).join("");
window.steps = { order: () => sides.inOrder(), read: () => readReport(turn, new TextEncoder().encode(text), ";", true, 10 ** 6) };
done();
"""


@pytest.mark.parametrize("step", ["order", "read"])
def test_no_step_over_a_hundred_thousand_lines_is_long(
    example: webdriver.Chrome, step: str
) -> None:
    example.execute_cdp_cmd("Performance.enable", {"timeDomain": "threadTicks"})
    example.execute_async_script(STEPS)

    def processor() -> float:
        found = example.execute_cdp_cmd("Performance.getMetrics", {})["metrics"]
        return float({one["name"]: one["value"] for one in found}["ThreadTime"])

    taken = []
    for _ in range(3):
        before = processor()
        example.execute_script(f"return void steps.{step}()")
        taken.append(processor() - before)
    assert min(taken) < SECONDS_OF_A_STEP, taken
