"""Files by their paths: as `look` sees them, with columns by name or place, and what is said wrongly."""

import json
import os
import subprocess
import sys
import threading
import warnings
from collections.abc import Callable
from pathlib import Path
from typing import Any

import pandas as pd
import pytest

import basket_miner as miner
from basket_miner import _pairs, _program

ROOT = Path(__file__).parents[2]
ODD = ROOT / "tools/odd_files.py"
SHOP = ROOT / "examples/shop.dat"
SECONDS = 60
# On two days the till began anew: four baskets, and tea with jam in two.
TILL = """day,receipt,product
2026-11-02,1,tea
2026-11-02,1,jam
2026-11-02,2,tea
2026-11-03,1,bread
2026-11-03,2,tea
2026-11-03,2,jam
"""
BOTH: Any = {"basket": ["day", "receipt"], "item": "product"}
OF_TILL = {("tea",): 3, ("jam",): 2, ("jam", "tea"): 2}


@pytest.fixture(scope="module")
def odd(tmp_path_factory: pytest.TempPathFactory) -> Path:
    """A folder of files as tills, spreadsheets and databases write them."""
    folder = tmp_path_factory.mktemp("odd")
    subprocess.run([sys.executable, ODD, folder], check=True)
    return folder


@pytest.fixture
def till(tmp_path: Path) -> Path:
    path = tmp_path / "till.csv"
    path.write_text(TILL)
    return path


def counts_of(frame: pd.DataFrame) -> dict[tuple[str, ...], int]:
    """The counts of itemsets by their items as texts."""
    items = (tuple(sorted(map(str, itemset))) for itemset in frame["itemsets"])
    return dict(zip(items, frame["count"]))


def told_by(call: Callable[[], Any]) -> list[str]:
    """The warnings of a call, each of which is at its line in this file."""
    with warnings.catch_warnings(record=True) as told:
        warnings.simplefilter("always")
        call()
    assert all(one.filename == __file__ for one in told)
    return [str(one.message) for one in told]


def test_each_file_gives_the_right_sets_or_says_that_it_is_not_sure(odd: Path) -> None:
    files = json.loads((odd / "sets.json").read_text(encoding="utf-8"))
    unsure = []
    for name, sets in files.items():
        right = {tuple(sorted(items)): int(count) for count, *items in sets}
        with warnings.catch_warnings(record=True) as told:
            warnings.simplefilter("always")
            try:
                found = counts_of(miner.sets(odd / name, "10%"))
            except miner.DataError as fault:
                assert str(fault).startswith("it isn't sure how ")
                found = {}
        if told or not found:
            # What was looked at is taken at its word.
            unsure.append(name)
            found = counts_of(miner.sets(miner.look(odd / name), "10%"))
        assert found == right, name
    # By customer, by the hour, quotes over many lines, and numbers that may be no items.
    assert unsure == [
        *("codes.csv", "members.csv", "visits.csv", "hours.csv", "cells_lines.csv"),
        *("shop_ids.dat", "shop_counts.dat", "pairs.txt"),
    ]


@pytest.mark.parametrize("columns", [BOTH, {"basket": [0, 1], "item": 2}])
def test_columns_of_a_path_are_names_or_places_from_0(till: Path, columns: Any) -> None:
    assert counts_of(miner.sets(till, 2, **columns)) == OF_TILL
    assert counts_of(miner.sets(till, 2, max_items=1, **columns)) == {
        ("tea",): 3,
        ("jam",): 2,
    }
    pairs = miner.count(till, [["tea", "jam"]], **columns)
    assert pairs["count"].tolist() == [4, 2]
    ready = miner.baskets(till, total=8, **columns)
    assert miner.items(ready, 2)["support"].tolist() == [3 / 8, 2 / 8]


def test_names_of_columns_say_how_a_table_is_written_that_look_does_not_know(
    tmp_path: Path,
) -> None:
    path = tmp_path / "fair.csv"
    rows = ["a;b;c;d", "1;2;3;4", "5;6;7;8", "9;9;9;9", "1;2;3;4", "1;2;3;5"]
    path.write_text("\n".join(rows))
    assert miner.look(path).kind == "unclear"
    right = {("4",): 1, ("5",): 1, ("8",): 1, ("9",): 1, ("4", "5"): 1}
    found = miner.sets(path, 1, basket="a", item="d")
    assert counts_of(found) == right
    found = miner.sets(path, 1, basket=0, item=3, header=True, sep=";")
    assert counts_of(found) == right
    with pytest.raises(miner.DataError, match="isn't sure if the first record"):
        miner.sets(path, 2, basket=0, item=2, sep=";")
    with pytest.raises(miner.DataError, match="no column has the name 'shop'"):
        miner.sets(path, 2, basket="a", item="shop")


def test_a_column_far_to_the_right_has_its_name(tmp_path: Path) -> None:
    path = tmp_path / "wide.csv"
    names = ["receipt", *(f"note {n}" for n in range(80)), "product"]
    rows = [["1", *["-"] * 80, "tea"], ["2", *["-"] * 80, "tea"]] * 5
    lines = ["Shop 7", "", *map(";".join, [names, *rows])]
    path.write_text("\n".join(lines))
    found = miner.sets(path, 2, basket="receipt", item="product")
    assert counts_of(found) == {("tea",): 2}


def test_a_column_is_read_as_it_is_said_where_a_file_is_too_short_to_look_at(
    tmp_path: Path,
) -> None:
    path = tmp_path / "one.tsv"
    path.write_text("x\ttea\n")
    assert miner.look(path).kind == "short"
    found = miner.sets(path, 1, basket=0, item=1, form="single")
    assert counts_of(found) == {("tea",): 1}


def test_a_pipe_is_read_by_columns_too(tmp_path: Path) -> None:
    path = tmp_path / "pipe"
    os.mkfifo(path)
    writer = threading.Thread(target=path.write_text, args=(TILL,))
    writer.start()
    found = miner.sets(path, 2, basket=[0, 1], item=2, header=True)
    writer.join(SECONDS)
    assert counts_of(found) == OF_TILL


@pytest.mark.parametrize(
    ("said", "columns"),
    [
        ("needs both basket= and item=", {"basket": "receipt"}),
        ("needs both basket= and item=", {"item": 0}),
        (
            "no column has the name 'shop': the columns are 'day', 'receipt', 'product'",
            {"basket": "shop", "item": "product"},
        ),
        ("from 0 on, not -1", {"basket": -1, "item": "product"}),
        ("list is empty", {"basket": [], "item": "product"}),
        (
            "basket= does not go with form",
            {"basket": "receipt", "item": "product", "form": "baskets"},
        ),
        ("weight= does not go with a path", {**BOTH, "weight": "day"}),
        ("encoding is one of ascii", {**BOTH, "encoding": "klingon"}),
    ],
)
def test_columns_that_a_path_does_not_have_are_refused(
    said: str, columns: Any, till: Path
) -> None:
    with pytest.raises(miner.DataError, match=said):
        miner.sets(till, 1, **columns)


@pytest.mark.parametrize("encoding", ["cp1252", "utf-16", "utf-8", "mac_roman"])
def test_an_encoding_that_is_said_is_that_of_the_file(
    encoding: str, tmp_path: Path
) -> None:
    path = tmp_path / "kiosk.csv"
    path.write_bytes("1,Käse\n1,Öl\n2,Käse\n3,Öl\n4,Öl\n".encode(encoding))
    right = {("Öl",): 3, ("Käse",): 2}
    for options in ({"form": "single"}, {"basket": 0, "item": 1}):
        found = miner.sets(path, 2, encoding=encoding, **options)  # type: ignore[arg-type]
        assert counts_of(found) == right


def test_bytes_of_another_encoding_are_told_with_their_line(tmp_path: Path) -> None:
    path = tmp_path / "kiosk.csv"
    path.write_bytes("1,Tee\n2,Öl\n3,Tee\n".encode("cp1252"))
    with pytest.raises(miner.InputError, match="line 2 is not utf-8") as caught:
        miner.sets(path, 1, basket=0, item=1, form="single", encoding="utf-8")
    assert caught.value.line == 2
    assert 'give encoding="cp1252"' in caught.value.__notes__[0]


def test_three_columns_that_are_read_as_two_bring_a_warning(till: Path) -> None:
    (told,) = told_by(lambda: miner.sets(till, 1, form="single", header=True))
    assert "column 3 is the item" in told
    assert not told_by(lambda: miner.sets(till, 1, **BOTH))


def test_what_is_said_of_a_file_brings_a_warning_where_it_changes_baskets(
    tmp_path: Path,
) -> None:
    rows = "receipt,product\n1,tea\n1,jam\n2,tea\n3,jam\n"
    cases: list[tuple[str, str, dict[str, Any], str]] = [
        ("a.csv", rows, {"form": "single"}, "header=True"),
        ("b.csv", rows, {"form": "single", "header": True}, ""),
        ("c.txt", rows.replace(",", "\t"), {"form": "baskets"}, 'sep="tab"'),
        ("d.tsv", rows.replace(",", "\t"), {"form": "single", "header": True}, ""),
        ("e.csv", "1,2\n1,3\n2,3\n", {"form": "single"}, ""),
        ("e.txt", "1 2\n1 3\n2 3\n", {"form": "baskets"}, "numbers on each line"),
        ("f.csv", "tea,jam\ntea,jam,bread\n", {"form": "baskets"}, ""),
        ("g.csv", "2,tea,jam\n1,tea,jam\n", {"form": "baskets", "weighted": True}, ""),
    ]
    for name, text, options, said in cases:
        path = tmp_path / name
        path.write_text(text)
        told = told_by(lambda: miner.sets(path, 1, **options))
        assert len(told) == bool(said) and said in " ".join(told), name


def test_numbers_are_read_as_before_and_bring_a_warning_if_they_may_be_no_items(
    odd: Path,
) -> None:
    assert not told_by(lambda: miner.sets(SHOP, 8))
    # Each receipt is a number, and so is each item.
    pairs = odd / "pairs.txt"
    (told,) = told_by(lambda: miner.sets(pairs, "10%"))
    assert 'Give form="fimi" if each is' in told
    assert not told_by(lambda: miner.sets(pairs, "10%", form="fimi"))
    assert not told_by(lambda: miner.sets(pairs, "10%", basket=0, item=1))


def test_a_word_among_numbers_is_refused_with_its_line(tmp_path: Path) -> None:
    path = tmp_path / "shop.dat"
    path.write_text("1 2 3\n2 3\n1 O 3\n1 2\n3 4 5 6\n" * 9)
    with pytest.raises(miner.InputError, match="line 3: byte 0x4F"):
        miner.sets(path, 1)


def test_a_file_of_another_kind_is_refused_with_what_helps(tmp_path: Path) -> None:
    path = tmp_path / "shop.json"
    path.write_text('[{"receipt": 1, "product": "tea"}]\n')
    seen = miner.look(path)
    assert (seen.kind, seen.sure, seen.readings) == ("foreign", False, ())
    assert "JSON" in seen.what and "CSV" in seen.remedy
    columns: Any
    for columns in ({}, {"basket": 0, "item": 1}):
        with pytest.raises(miner.DataError, match="is JSON, it seems. Write it as CSV"):
            miner.sets(path, 1, **columns)
    with pytest.raises(miner.DataError, match="is JSON"):
        miner.sets(seen, 1)


def test_what_is_rewritten_is_read_once_and_by_the_program(
    till: Path, monkeypatch: pytest.MonkeyPatch
) -> None:
    sources: list[Any] = []

    def recorded(report: Any, words: Any, source: Any, **options: Any) -> None:
        sources.append(source)
        _program.run_into(report, words, source, **options)

    monkeypatch.setattr(_pairs, "run_into", recorded)
    assert counts_of(miner.sets(till, "1/2")) == OF_TILL
    assert sources == [till]
