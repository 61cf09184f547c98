# mypy: allow-untyped-calls
"""Workbooks that can't be read are refused by a sentence that says what to do."""

import io
import zipfile
from pathlib import Path

import pytest
from selenium import webdriver

from browser import at

from .test_workbooks import EMPTY, plain, rows_from, shared
from .use import give, settled
from .workbooks import Sheet, inline, number, workbook, zipped

OLE = b"\xd0\xcf\x11\xe0\xa1\xb1\x1a\xe1" + bytes(600)


@pytest.fixture(name="shown", scope="module")
def opened_page(browser: webdriver.Chrome, page: Path) -> webdriver.Chrome:
    browser.get("about:blank")
    browser.get(page.as_uri())
    return browser


def flipped(content: bytes) -> bytes:
    """Another byte in the middle of a part that is stored as it is."""
    with zipfile.ZipFile(io.BytesIO(content)) as file:
        parts = {name: file.read(name).decode() for name in file.namelist()}
    stored = bytearray(zipped(parts, zipfile.ZIP_STORED))
    stored[stored.index(b"<v>1001<") + 3] = ord("2")
    return bytes(stored)


def declared(content: bytes, place: int, value: bytes) -> bytes:
    """A zip file with another value in the entry of its last part."""
    at_entry = content.rindex(b"PK\x01\x02") + place
    return content[:at_entry] + value + content[at_entry + len(value) :]


REFUSED = {
    "cut": (shared()[:-30], "is damaged or was cut off"),
    "changed": (flipped(workbook(plain())), "is damaged or was cut off"),
    "zip64": (
        shared()[:-6] + b"\xff\xff\xff\xff\0\0",
        "zip64, which this page doesn't read. Instead, open it",
    ),
    "too long": (
        declared(shared(), 24, b"\xff\xff\xff\x7f"),
        "more than 512 MB when it is unpacked. Instead, open it",
    ),
    "longer than it says": (declared(shared(), 24, b"\x10\0\0\0"), "is damaged"),
    "with a password": (declared(shared(), 8, b"\x01"), "is encrypted. Open it"),
    "encrypted": (OLE + "EncryptedPackage".encode("utf-16-le"), "is encrypted. Open"),
    "old": (OLE + "Workbook".encode("utf-16-le"), "an old workbook of Excel (.xls)"),
    "empty": (workbook(EMPTY), "No sheet of this workbook has a cell"),
    "binary": (
        zipped(
            {
                "_rels/.rels": '<a><Relationship Type="r/officeDocument" Target="xl/workbook.bin"/></a>'
            }
        ),
        "a binary one (.xlsb)",
    ),
    "no workbook": (zipped({"a.csv": "1,tea\n"}), "a zip file, as Excel's workbooks"),
}


@pytest.mark.parametrize("name", REFUSED)
def test_what_is_no_workbook_that_is_read_is_refused(
    shown: webdriver.Chrome, name: str
) -> None:
    content, said = REFUSED[name]
    assert said in give(shown, content, "till.xlsx")
    assert not at(shown, "listing").is_displayed()
    assert "in 240 baskets" in give(shown, shared(), "till.xlsx")


def test_a_sheet_that_unpacks_to_more_than_is_read_is_refused(
    shown: webdriver.Chrome,
) -> None:
    # What it says of its length is wrong.
    shown.execute_script(
        "const text = element('worker').textContent; element('worker').dataset.kept = text;"
        "element('worker').textContent = text.replace('2 ** 29', '2 ** 20'); worker.terminate(); startWorker()"
    )
    rows = [[number(n), inline("tea " * 99)] for n in range(9_000)]
    content = workbook(Sheet("Till", rows_from(1, rows)))
    said = give(shown, declared(content, 24, b"\x10\0\0\0"), "till.xlsx")
    shown.execute_script(
        "element('worker').textContent = element('worker').dataset.kept; worker.terminate(); startWorker()"
    )
    assert "more than 1 MB when it is unpacked" in said
    assert settled(shown) == said
