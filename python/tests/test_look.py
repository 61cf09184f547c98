"""What `look` returns, and how a notebook and a terminal show it."""

import gzip
import re
from html.parser import HTMLParser
from pathlib import Path
from typing import Any

import pytest

import basket_miner as miner

ROWS = "Bon;Datum;Artikel\n1;02.11.2026;<b>Käse\n1;02.11.2026;Öl & Salz\n2;03.11.2026;<b>Käse\n"


class Tags(HTMLParser):
    """The tags and the text of HTML."""

    def __init__(self, html: str) -> None:
        super().__init__()
        self.tags: list[str] = []
        self.text: list[str] = []
        self.feed(html)

    def handle_starttag(self, tag: str, attrs: Any) -> None:
        self.tags.append(tag)

    def handle_data(self, data: str) -> None:
        self.text.append(data)


@pytest.fixture
def seen(tmp_path: Path) -> miner.Look:
    path = tmp_path / "till.csv"
    path.write_bytes(ROWS.encode("cp1252"))
    return miner.look(path)


def test_a_look_has_what_a_file_is(seen: miner.Look) -> None:
    assert (seen.kind, seen.encoding, seen.separator) == (
        "single",
        "windows-1252",
        "semicolon",
    )
    assert (seen.header, seen.skip, seen.sure) == (True, 0, True)
    columns = [(column.position, column.name, column.role) for column in seen.columns]
    assert columns == [(0, "Bon", "basket"), (1, "Datum", ""), (2, "Artikel", "item")]
    assert seen.baskets == (("1", ("<b>Käse", "Öl & Salz")), ("2", ("<b>Käse",)))
    assert seen.because and not seen.doubts
    assert "basket pairs" in seen.commands[0] and seen.readings[0].pairs


def test_a_notebook_shows_columns_with_roles_and_baskets_with_nothing_of_the_file_as_tags(
    seen: miner.Look,
) -> None:
    shown = Tags(seen._repr_html_())
    assert {*shown.tags} <= {"div", "p", "b", "br", "table", "tr", "th", "td"}
    text = " ".join(shown.text)
    assert "Artikel item 2 <b>Käse, Öl & Salz" in text
    assert "1 <b>Käse, Öl & Salz 2 <b>Käse" in text
    assert all(sentence in text for sentence in seen.because)
    assert seen._repr_html_().count("font-weight: bold") == 2


def test_a_terminal_shows_the_same_as_lines(seen: miner.Look) -> None:
    lines = str(seen).splitlines()
    assert re.search("till.csv: single, .* windows-1252.* semicolon.* header", lines[0])
    assert lines[3].startswith("  column 3 Artikel (item): position 2, ")
    assert "  1: <b>Käse, Öl & Salz" in lines


def test_a_terminal_gets_no_commands_of_the_bytes_of_a_file(tmp_path: Path) -> None:
    path = tmp_path / "till.csv"
    path.write_text("receipt,product\n1,\x9b2Jtea\n1,jam\n2,\x9b2Jtea\n")
    assert "\ufffd2Jtea" in str(miner.look(path))
    assert "\x9b" not in str(miner.look(path))


def test_a_doubt_is_shown_and_refused(tmp_path: Path) -> None:
    path = tmp_path / "members.csv"
    lines = [f"{n % 3},2026-11-0{n % 2 + 1},item {n % 5}" for n in range(30)]
    path.write_text("\n".join(["member,date,product", *lines]))
    seen = miner.look(path)
    assert not seen.sure
    for shown in (str(seen), seen._repr_html_()):
        assert all(doubt in shown for doubt in seen.doubts)
    with pytest.raises(miner.DataError, match="isn't sure .* member, date, product"):
        miner.rules(path, 1, 0)


def test_a_file_that_is_not_read_says_its_kind_and_what_helps(tmp_path: Path) -> None:
    path = tmp_path / "till.csv.gz"
    path.write_bytes(gzip.compress(ROWS.encode()))
    seen = miner.look(path)
    assert (seen.kind, seen.readings, seen.columns) == ("foreign", (), ())
    for shown in (str(seen), seen._repr_html_()):
        assert "compressed by gzip" in shown and seen.remedy in shown
    assert (
        seen.remedy == "Unpack it, or read it by pandas.read_csv, and give the frame."
    )


def test_a_look_at_nothing_is_refused(tmp_path: Path) -> None:
    with pytest.raises(miner.DataError, match="the path of a file, not list"):
        miner.look([["tea"]])  # type: ignore[arg-type]
    with pytest.raises(miner.FileError):
        miner.look(tmp_path / "none.csv")
