# mypy: allow-untyped-calls
"""Workbooks of Excel have the sets of their CSV."""

import base64
import csv
import gzip
import io
from collections.abc import Sequence
from datetime import datetime
from pathlib import Path

import pytest
from selenium import webdriver

import odd_files as shop
from browser import at
from program_tests.program import run_script
from program_tests.test_look import sets_in

from .test_odd_files import SETS
from .use import choose, give, report_of, shown_command
from .workbooks import (
    CLOCK,
    DAY,
    FIVE_DIGITS,
    MOMENT,
    Parts,
    Row,
    Sheet,
    Strings,
    formula,
    inline,
    number,
    truth,
    workbook,
)

# Files of tools/odd_files.py that LibreOffice 7.4 wrote as workbooks.
FIXTURES = Path(__file__).parent / "workbooks"
NAMED = shop.sets_of(shop.NAMES)
CODED = shop.sets_of([f"{40 + item:05}" for item in shop.ALL])
HEAD = [inline("receipt"), inline("product")]
LINES = [(shop.IDS[place], shop.NAMES[item], place, item) for place, item in shop.LINES]
EXCEL_DAY = datetime(1899, 12, 30)
DATA = """
const [done] = arguments;
const reader = new FileReader();
reader.onload = () => done(reader.result.split(",")[1] ?? "");
reader.readAsDataURL(source.given);
"""


def rows_from(first: int, rows: Sequence[Row], head: Row = HEAD) -> dict[int, Row]:
    return dict(enumerate([head, *rows], first))


def plain() -> Sheet:
    return Sheet("Till", rows_from(1, [[number(it[0]), inline(it[1])] for it in LINES]))


def shared() -> bytes:
    strings = Strings()
    rows = [[number(it[0]), strings(it[1])] for it in LINES]
    return workbook(Sheet("Till", rows_from(1, rows)), strings=strings)


def with_gaps() -> Sheet:
    # A title, rows that are empty, a column that is empty before the table, and one with gaps.
    rows = [
        [None, number(it[0]), inline(it[1]), number(2.5) if it[3] % 3 else None]
        for it in LINES
    ]
    made = rows_from(5, rows, [None, *HEAD, inline("amount")])
    return Sheet(
        "November", {2: [None, inline("Sales in November")], 3: [None], **made}
    )


def merged() -> Sheet:
    # A receipt's number stands once, in a cell over all its lines.
    rows: list[Row] = []
    ranges = []
    for place, items in enumerate(shop.BASKETS):
        first = len(rows) + 2
        rows += [
            [None if n else number(shop.IDS[place]), inline(shop.NAMES[item])]
            for n, item in enumerate(items)
        ]
        if len(items) > 1:
            ranges.append(f"A{first}:A{len(rows) + 1}")
    return Sheet("Till", rows_from(1, rows), ranges)


def formulas() -> Sheet:
    rows = [
        [formula(f"R{it[0]}"), formula(it[1]), truth(it[3] % 2 == 0)] for it in LINES
    ]
    return Sheet("Till", rows_from(1, rows, [*HEAD, inline("offer")]))


def dated(style: int, per_day: int, from_1904: bool = False) -> bytes:
    """The basket is a day and a number of that day, or a moment alone."""
    rows: list[Row] = []
    for place, item in shop.LINES:
        gone = shop.WHEN[place] - EXCEL_DAY
        days = gone.days + gone.seconds / 86_400 - (1462 if from_1904 else 0)
        of_day = int(days) if style == DAY else repr(days)
        rows.append(
            [number(of_day, style), number(place % per_day), inline(shop.NAMES[item])]
        )
    head = [inline("date"), inline("receipt"), inline("product")]
    properties = 'date1904="1"' if from_1904 else ""
    return workbook(Sheet("Till", rows_from(1, rows, head)), properties=properties)


def codes() -> Sheet:
    rows = [[number(it[0]), number(40 + it[3], FIVE_DIGITS)] for it in LINES]
    return Sheet("Till", rows_from(1, rows))


def matrix() -> Sheet:
    rows = [
        [number(n), *(truth(item in items) for item in shop.ALL)]
        for n, items in zip(shop.IDS, shop.BASKETS)
    ]
    return Sheet("Table", rows_from(1, rows, [HEAD[0], *map(inline, shop.NAMES)]))


def otherwise(parts: Parts) -> Parts:
    """Names with prefixes, places that are not said, cells with nothing in them and line feeds between elements."""
    sheet = parts["xl/worksheets/s0.xml"].replace(" spans", "\n spans")
    for name in ("worksheet", "sheetData", "row", "c", "is", "t", "v", "r"):
        for before in ("<", "</"):
            sheet = sheet.replace(f"{before}{name}>", f"{before}x:{name}>")
        sheet = sheet.replace(f"<{name} ", f"<x:{name} ")
    sheet = sheet.replace("</x:c>", "</x:c ><x:c r='Z9' s='1'/>")
    return {**parts, "xl/worksheets/s0.xml": sheet.replace("</x:row>", "</x:row>\n")}


EMPTY = Sheet("Cover", {1: [None]})
HIDDEN = Sheet("Lists", {1: [inline("hidden")]}, state="hidden")
WORKBOOKS = {
    "inline": (workbook(plain()), NAMED),
    "shared": (shared(), NAMED),
    "gaps": (workbook(with_gaps()), NAMED),
    "merged": (workbook(merged()), NAMED),
    "formulas": (workbook(formulas()), NAMED),
    "days": (dated(DAY, 40), NAMED),
    "days from 1904": (dated(DAY, 40, True), NAMED),
    "moments": (dated(MOMENT, 1), NAMED),
    "codes": (workbook(codes()), CODED),
    "matrix": (workbook(matrix()), NAMED),
    "two sheets": (workbook(HIDDEN, EMPTY, plain()), NAMED),
    "written otherwise": (workbook(plain(), changed=otherwise), NAMED),
    "packed twice": (gzip.compress(workbook(plain())), NAMED),
    **{it.name: (it.read_bytes(), NAMED) for it in sorted(FIXTURES.glob("*.xlsx"))},
}


@pytest.fixture(name="shown", scope="module")
def opened_page(browser: webdriver.Chrome, page: Path) -> webdriver.Chrome:
    browser.get("about:blank")
    browser.get(page.as_uri())
    return browser


def data_of(browser: webdriver.Chrome) -> bytes:
    """The bytes that the page would save as the data."""
    return base64.b64decode(browser.execute_async_script(DATA))


def cells_of(browser: webdriver.Chrome) -> list[list[str]]:
    return [*csv.reader(io.StringIO(data_of(browser).decode(), newline=""))]


def test_workbooks_have_the_sets_of_their_baskets(shown: webdriver.Chrome) -> None:
    given = [base64.b64encode(it[0]).decode() for it in WORKBOOKS.values()]
    found = shown.execute_async_script(SETS, given)
    for report, (name, (_, sets)) in zip(found, WORKBOOKS.items(), strict=True):
        assert sets_in(report.splitlines()) == sets, name


def test_cells_are_written_as_a_workbook_shows_them(shown: webdriver.Chrome) -> None:
    row: Row = [
        number(1001),
        number("1E3"),
        number(0.1 + 0.2),
        number(4006381333931),
        number(46328, DAY),
        number(46328.38, MOMENT),
        number(0.5, CLOCK),
        number(59, DAY),
        number(61, DAY),
        number(42, FIVE_DIGITS),
        truth(True),
        inline('a "b", c\nd & <e> _x0041_ ä'),
        ('t="e"', "<v>#N/A</v>"),
    ]
    give(shown, workbook(Sheet("Cells", {3: row})), "cells.xlsx")
    days = ["2026-11-02", "2026-11-02 09:07:12", "12:00:00", "1900-02-28", "1900-03-01"]
    assert cells_of(shown) == [
        ["1001", "1000", "0.3", "4006381333931", *days, "00042", "TRUE"]
        + ['a "b", c\nd & <e> A ä', "#N/A"]
    ]


def test_a_sheet_is_chosen_and_the_shown_command_repeats_it(
    shown: webdriver.Chrome, tmp_path: Path
) -> None:
    other = Sheet(
        "Tea & more",
        rows_from(
            1,
            [[number(n), inline("tea")] for n in range(30)]
            + [[number(n), inline("jam")] for n in range(20)],
        ),
    )
    give(shown, workbook(EMPTY, plain(), HIDDEN, other), "till.xlsx")
    options = at(shown, "sheet").text.split("\n")
    assert [it.strip() for it in options] == ["Cover", "Till", "Tea & more"]
    assert at(shown, "sheet").get_attribute("value") == "Till"
    assert "in 30 baskets" in choose(shown, "sheet", "Tea & more")
    choose(shown, "ask", "sets")
    choose(shown, "least", "2")
    assert sets_in(report_of(shown).decode().splitlines()) == [
        ["20", "jam"],
        ["20", "jam", "tea"],
        ["30", "tea"],
    ]
    saved = tmp_path / "saved"
    behaviour = {"behavior": "allow", "downloadPath": str(saved)}
    shown.execute_cdp_cmd("Browser.setDownloadBehavior", behaviour)
    shown.execute_script("element('save-data').click()")
    data = data_of(shown)
    (tmp_path / "till.csv").write_bytes(data)
    assert run_script(shown_command(shown), tmp_path).out == report_of(shown)


def test_a_table_that_is_packed_is_saved_as_it_is_mined(
    shown: webdriver.Chrome,
) -> None:
    content = shop.table(shop.TWO, ["receipt", "product"]).encode()
    give(shown, gzip.compress(content), "till.csv.gz")
    assert data_of(shown) == content
    assert shown_command(shown).endswith(" till.csv")
