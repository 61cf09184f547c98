"""Baskets from databases: SQLite by pandas, and PostgreSQL through a pipe."""

import csv
import os
import sqlite3
import subprocess
from collections.abc import Iterator
from contextlib import closing
from pathlib import Path
from typing import Any

import pandas as pd
import pytest

import basket_miner as miner

RECEIPTS = pd.read_csv(Path(__file__).parents[2] / "examples/receipts.csv")
COLUMNS: Any = {"basket": "receipt", "item": "product"}
NAMES = [
    "jam, red",
    'say "milk"',
    "two\nlines",
    "\\.",
    "\\N",
    "béchamel",
    "a;b",
    "NULL",
]


def test_sqlite_is_read_by_pandas() -> None:
    with closing(sqlite3.connect(":memory:")) as till:
        RECEIPTS.sample(frac=1, random_state=1).to_sql("sale", till, index=False)
        rows = pd.read_sql("select receipt, product from sale order by rowid", till)
    found = miner.sets(rows, "20%", **COLUMNS)
    wanted = miner.sets(RECEIPTS, "20%", **COLUMNS)
    assert {*zip(found["itemsets"], found["count"])} == {
        *zip(wanted["itemsets"], wanted["count"])
    }
    assert len(found) == 9


@pytest.fixture(name="sale")
def filled_table(
    database: dict[str, str], tmp_path: Path, monkeypatch: pytest.MonkeyPatch
) -> Iterator[None]:
    """A table of rows in no order, with odd names and a missing one, in the server's database."""
    for name, value in database.items():
        monkeypatch.setenv(name, value)
    rows = [(number % 4, name) for number, name in enumerate(NAMES)]
    rows += [(0, NAMES[2]), (1, NAMES[2])]
    with open(tmp_path / "sale.csv", "w", newline="") as file:
        csv.writer(file, quoting=csv.QUOTE_NONNUMERIC).writerows(rows)
    asked(
        "drop table if exists sale; create table sale (receipt integer, product text)"
    )
    asked(f"\\copy sale from '{tmp_path}/sale.csv' csv")
    asked("insert into sale values (3, null), (9, null)")
    yield
    asked("drop table sale")


def asked(query: str) -> str:
    words = ["psql", "-q", "-v", "ON_ERROR_STOP=1", "-c", query]
    done = subprocess.run(words, stdout=subprocess.PIPE, text=True, check=True)
    return done.stdout


@pytest.mark.usefixtures("sale")
def test_postgresql_is_streamed_into_the_program() -> None:
    copy = "copy (select receipt, product from sale) to stdout csv"
    with subprocess.Popen(["psql", "-q", "-c", copy], stdout=subprocess.PIPE) as sale:
        assert sale.stdout
        path = f"/dev/fd/{sale.stdout.fileno()}"
        found = miner.sets(path, 1, form="single")
    assert sale.returncode == 0
    baskets = [{NAMES[at] for at in (number, number + 4)} for number in range(4)]
    for number in (0, 1):
        baskets[number].add(NAMES[2])
    wanted = miner.sets(map(sorted, baskets), 1)
    assert dict(zip(found["itemsets"], found["count"])) == dict(
        zip(wanted["itemsets"], wanted["count"])
    )
    assert len(found) > len(NAMES)
    # Of four baskets: the ninth receipt has no product, and a missing product is no item.
    assert found["support"].max() == 3 / 4


@pytest.mark.usefixtures("sale")
def test_a_query_goes_into_the_call_and_into_a_frame_with_the_same_sets() -> None:
    copy = "copy (select receipt, product from sale) to stdout csv header"
    words = ["psql", "-q", "-c", copy]
    with subprocess.Popen(words, stdout=subprocess.PIPE) as sale:
        found = miner.sets(sale.stdout, 1, form="single", header=True)
    with subprocess.Popen(words, stdout=subprocess.PIPE) as again:
        assert again.stdout
        frame = pd.read_csv(again.stdout, na_filter=False)
    assert (sale.returncode, again.returncode) == (0, 0)
    rows = frame[frame["product"] != ""]
    wanted = miner.sets(rows, 1, **COLUMNS)
    assert dict(zip(found["itemsets"], found["count"])) == dict(
        zip(wanted["itemsets"], wanted["count"])
    )
    assert {label for itemset in found["itemsets"] for label in itemset} == {*NAMES}


@pytest.mark.usefixtures("sale")
def test_a_shell_streams_postgresql_into_the_program() -> None:
    line = (
        'set -o pipefail; psql -q -c "copy (select receipt, product from sale) to stdout '
        'csv" | "$PROGRAM" items --min 3 --form single'
    )
    program = str(miner._program.find())
    done = subprocess.run(
        ["bash", "-euc", line],
        env={**os.environ, "PROGRAM": program},
        stdout=subprocess.PIPE,
        check=True,
    )
    assert done.stdout == b'3,"two\nlines"\n'
