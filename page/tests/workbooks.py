"""Workbooks of Excel, written part by part: as Excel writes them, and in the other ways that the standard allows."""

import io
import zipfile
from collections.abc import Callable, Sequence
from typing import NamedTuple
from xml.sax.saxutils import escape, quoteattr

MAIN = "http://schemas.openxmlformats.org/spreadsheetml/2006/main"
RELATED = "http://schemas.openxmlformats.org/officeDocument/2006/relationships"
PACKED = "http://schemas.openxmlformats.org/package/2006/relationships"
# The formats of cells, by their places among the styles.
GENERAL, DAY, MOMENT, CLOCK, FIVE_DIGITS = range(5)
STYLES = f"""<styleSheet xmlns="{MAIN}">
<numFmts count="2"><numFmt numFmtId="164" formatCode="[$-407]d\\.\\ mmm\\ yyyy;@"/><numFmt numFmtId="165" formatCode="00000"/></numFmts>
<cellStyleXfs count="1"><xf numFmtId="14"/></cellStyleXfs>
<cellXfs count="5"><xf numFmtId="0"/><xf numFmtId="164"><alignment/></xf><xf numFmtId="22"/><xf numFmtId="20"/><xf numFmtId="165"/></cellXfs>
</styleSheet>"""

Cell = tuple[str, str]
Row = Sequence[Cell | None]
Parts = dict[str, str]


class Sheet(NamedTuple):
    """A sheet: its rows by their numbers, from 1, and the ranges of cells that are merged."""

    name: str
    rows: dict[int, Row]
    merged: Sequence[str] = ()
    state: str = "visible"


def number(value: object, style: int = GENERAL) -> Cell:
    return f's="{style}"', f"<v>{value}</v>"


def inline(text: str) -> Cell:
    return (
        't="inlineStr"',
        f'<is><r><t xml:space="preserve">{escape(text)}</t></r><rPh><t>spoken</t></rPh></is>',
    )


def formula(text: str) -> Cell:
    return 't="str"', f'<f>A1&amp;"&lt;/c&gt;"</f><v>{escape(text)}</v>'


def truth(value: bool) -> Cell:
    return 't="b"', f"<v>{value:d}</v>"


class Strings:
    """The strings that cells share: some in parts, of two formats."""

    def __init__(self) -> None:
        self.places: dict[str, int] = {}

    def __call__(self, text: str) -> Cell:
        place = self.places.setdefault(text, len(self.places))
        return 't="s"', f"<v>{place}</v>"

    def part(self) -> str:
        parts = "".join(
            f"<si><r><t>{escape(it[:2])}</t></r><r><rPr><b/></rPr><t>{escape(it[2:])}</t></r></si>"
            for it in self.places
        )
        return f'<sst xmlns="{MAIN}">{parts}</sst>'


def column(place: int) -> str:
    return (column(place // 26 - 1) if place >= 26 else "") + chr(65 + place % 26)


def of_sheet(sheet: Sheet) -> str:
    rows = []
    for at, row in sheet.rows.items():
        cells = (
            f'<c r="{column(place)}{at}" {cell[0]}>{cell[1]}</c>'
            for place, cell in enumerate(row)
            if cell
        )
        rows.append(f'<row r="{at}" spans="1:9">{"".join(cells)}</row>')
    merged = "".join(f'<mergeCell ref="{it}"/>' for it in sheet.merged)
    return f'<worksheet xmlns="{MAIN}"><cols><col min="1"/></cols><sheetData>{"".join(rows)}</sheetData><mergeCells>{merged}</mergeCells></worksheet>'


def related(*parts: tuple[str, str]) -> str:
    found = "".join(
        f'<Relationship Id="r{place}" Type="{RELATED}/{kind}" Target="{target}"/>'
        for place, (kind, target) in enumerate(parts)
    )
    return f'<?xml version="1.0"?>\n<Relationships xmlns="{PACKED}">{found}</Relationships>'


def parts_of(
    sheets: Sequence[Sheet], strings: Strings, properties: str = ""
) -> dict[str, str]:
    named = "".join(
        f'<sheet name={quoteattr(it.name)} sheetId="{place + 9}" state="{it.state}" r:id="r{place}"/>'
        for place, it in enumerate(sheets)
    )
    of_book = [("worksheet", f"worksheets/s{n}.xml") for n in range(len(sheets))]
    of_book += [("styles", "/xl/styles.xml"), ("sharedStrings", "strings.xml")]
    return {
        "_rels/.rels": related(("officeDocument", "xl/workbook.xml")),
        "xl/workbook.xml": f'<workbook xmlns="{MAIN}" xmlns:r="{RELATED}"><workbookPr {properties}/><sheets>{named}</sheets></workbook>',
        "xl/_rels/workbook.xml.rels": related(*of_book),
        "xl/styles.xml": STYLES,
        "xl/strings.xml": strings.part(),
        **{f"xl/worksheets/s{n}.xml": of_sheet(it) for n, it in enumerate(sheets)},
    }


def zipped(parts: Parts, method: int = zipfile.ZIP_DEFLATED) -> bytes:
    made = io.BytesIO()
    with zipfile.ZipFile(made, "w", method) as file:
        for name, text in parts.items():
            file.writestr(name, text)
    return made.getvalue()


def workbook(
    *sheets: Sheet,
    strings: Strings | None = None,
    properties: str = "",
    changed: Callable[[Parts], Parts] = lambda parts: parts,
) -> bytes:
    return zipped(changed(parts_of(sheets, strings or Strings(), properties)))
