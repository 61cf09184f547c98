# mypy: allow-untyped-calls
"""What may happen while a file is opened, how an opening ends, and what an address says of a file."""

from pathlib import Path

import pytest
from selenium import webdriver
from selenium.webdriver.support.wait import WebDriverWait

from browser import at, rows
from program_tests.program import run
from program_tests.test_look import RECEIPTS, SHOP

from .use import choose, give, report_of, settled

PRICES = RECEIPTS.replace(b"\n", b",0.99\n").replace(b"0.99", b"price", 1)
# Gives a field another value as soon as the page shows the name of the file that is opened.
CHANGE_SOON = """
const [name, value] = arguments;
new MutationObserver((_, observer) => {
  observer.disconnect();
  element(name).value = value;
  for (const kind of ["input", "change"]) element(name).dispatchEvent(new Event(kind));
}).observe(element("file-name"), { childList: true });
"""
# What a spreadsheet leaves of its cells.
PASTE = """
const transfer = new DataTransfer();
transfer.setData("text/plain", arguments[0]);
transfer.setData("text/html", "<table><tr><td>1</td></tr></table>");
transfer.items.add(new File(["\\x89PNG"], "image.png", { type: "image/png" }));
document.body.dispatchEvent(new ClipboardEvent("paste", { clipboardData: transfer, bubbles: true }));
"""
DROP_TEXT = """
const dataTransfer = new DataTransfer();
dataTransfer.setData("text/plain", arguments[0]);
const [kind, target] = ["drop", arguments[1] ? element(arguments[1]) : document.body];
return target.dispatchEvent(new DragEvent(kind, { dataTransfer, bubbles: true, cancelable: true }));
"""
# Has another worker, which does another script, and changes a column.
WITH_WORKER = """
const [script, column] = arguments;
element("worker").textContent = script;
worker.terminate();
startWorker();
document.querySelectorAll("#first-lines button")[column].click();
"""


@pytest.mark.parametrize(
    ("name", "value", "words"),
    [
        ("ask", "sets", ["sets"]),
        ("confidence-least", "80", ["rules", "--conf", "80%"]),
    ],
)
def test_a_change_while_a_file_is_opened_is_of_that_file(
    shown: webdriver.Chrome, name: str, value: str, words: list[str]
) -> None:
    give(shown, b"1 2\n" * 300, "first.dat")
    shown.execute_script(CHANGE_SOON, name, value)
    assert "in 15 baskets" in give(shown, PRICES, "second.csv")
    least = str(at(shown, "least").get_attribute("value"))
    words = [*words, "--min", least, "--form", "single", "--header"]
    assert report_of(shown) == run(words, RECEIPTS).out != b""


@pytest.mark.parametrize(("shelf", "place"), [("", "record"), (",s", "line")])
def test_bytes_that_are_no_text_are_told_wherever_they_are(
    shown: webdriver.Chrome, shelf: str, place: str
) -> None:
    # The first MiB has none, which is what is looked at. One file is read as it is, the other is rewritten.
    lines = "".join(f"r{n // 2}{shelf},item no. {n % 50}\n" for n in range(60_000))
    given = f"receipt{shelf},product\n{lines}r1{shelf},caf\xe9\n".encode("latin-1")
    said = f"The file is no text in UTF-8 at {place} 60002."
    assert give(shown, given).startswith(said)
    assert not at(shown, "listing").is_displayed()
    assert at(shown, "encoding").is_displayed()


def test_a_file_that_was_changed_since_is_told(
    shown: webdriver.Chrome, tmp_path: Path
) -> None:
    # The page keeps no bytes of it: the worker reads it for a question.
    file = tmp_path / "till.csv"
    for content in (RECEIPTS, RECEIPTS + b"1016,tea\n"):
        file.write_bytes(content)
        if content != RECEIPTS:
            said = choose(shown, "ask", "items")
            assert (
                said
                == "The file can't be read. If it was changed or moved, open it again."
            )
        shown.execute_script(
            "document.querySelector('main').setAttribute('aria-busy', 'true')"
        )
        at(shown, "file").send_keys(str(file))
        settled(shown)
    assert "in 16 baskets" in settled(shown)


def test_a_change_of_a_column_is_told_and_can_be_stopped(
    shown: webdriver.Chrome,
) -> None:
    give(shown, PRICES)
    script = shown.execute_script("return element('worker').textContent")
    shown.execute_script(WITH_WORKER, "onmessage = () => {};", 2)
    WebDriverWait(shown, 30).until(lambda _: at(shown, "end").is_displayed())
    assert at(shown, "answered").text == "Reading some file.csv."
    at(shown, "end").click()
    assert settled(shown) == "Stopped."
    assert not at(shown, "listing").is_displayed()
    shown.execute_script(WITH_WORKER, script, 2)
    assert "in 15 baskets" in settled(shown)


def test_a_miner_that_fails_is_told(shown: webdriver.Chrome) -> None:
    give(shown, SHOP)
    script = shown.execute_script(
        "const one = element('worker'), before = one.textContent; one.textContent = 'throw new Error(1)';"
        "worker.terminate(); startWorker(); return before"
    )
    assert choose(shown, "ask", "items").startswith("The miner failed:")
    shown.execute_script("element('worker').textContent = arguments[0]", script)
    assert "in 15 baskets" in choose(shown, "ask", "sets")


def test_cells_are_pasted_though_their_picture_lies_beside_them(
    shown: webdriver.Chrome,
) -> None:
    shown.execute_script(
        "document.querySelector('main').setAttribute('aria-busy', 'true')"
    )
    shown.execute_script(PASTE, RECEIPTS.decode().replace(",", "\t"))
    assert "in 15 baskets" in settled(shown)
    assert shown.title == "pasted text - basket"


def test_a_text_is_dropped_on_the_page_or_into_a_field(
    shown: webdriver.Chrome,
) -> None:
    shown.execute_script(
        "document.querySelector('main').setAttribute('aria-busy', 'true')"
    )
    assert not shown.execute_script(DROP_TEXT, RECEIPTS.decode(), None)
    assert "in 15 baskets" in settled(shown)
    # The browser puts it into a field.
    assert shown.execute_script(DROP_TEXT, "tea", "given")
    assert shown.title == "dropped text - basket"


def test_an_address_is_of_its_file(shown: webdriver.Chrome) -> None:
    give(shown, SHOP, "shop.dat")
    choose(shown, "ask", "sets")
    choose(shown, "least", "9")
    shown.execute_script("element('either').value = '2'; update(); writeLink()")
    kept, address = rows(shown), shown.current_url
    for content, name in ((RECEIPTS, "till.csv"), (SHOP, "shop.dat")):
        shown.get("about:blank")
        shown.get(address)
        give(shown, content, name)
        assert at(shown, "ask").get_attribute("value") == "sets"
        is_its_own = name == "shop.dat"
        found = [
            at(shown, field).get_attribute("value") for field in ("least", "either")
        ]
        assert (found == ["9", "2"]) == is_its_own
        assert (rows(shown) == kept) == is_its_own
        assert rows(shown) != []
