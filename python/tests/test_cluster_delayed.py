# mypy: allow-untyped-calls
"""Parts that are delayed or futures, and clients as Dask finds them."""

import subprocess
import sys
import time
from pathlib import Path
from typing import Any

import pandas as pd
import pytest
import scipy.sparse
from dask.dataframe.io.io import from_pandas
from dask.delayed import delayed
from distributed import Client, worker_client

import basket_miner
from basket_miner import DataError, TimedOut, cluster
from cut_files import cut, written

ROOT = Path(__file__).parents[2]
SHOP = ROOT / "examples/shop.dat"
RECEIPTS = pd.read_csv(ROOT / "examples/receipts.csv")
COLUMNS: Any = {"basket": "receipt", "item": "product"}
# Cut in the midst of receipts 1003 and 1009.
ROWS = [RECEIPTS[:8], RECEIPTS[8:8], RECEIPTS[8:30], RECEIPTS[30:]]
RULES = basket_miner.rules(RECEIPTS, 2, "1/2", **COLUMNS)
TRUTHS = pd.crosstab(RECEIPTS["receipt"], RECEIPTS["product"]) > 0
WIDE = [TRUTHS[:4], TRUTHS[4:11], TRUTHS[11:]]


class Polars:
    """A table of another package."""

    def __init__(self, frame: pd.DataFrame) -> None:
        self.frame = frame

    def to_pandas(self) -> pd.DataFrame:
        return self.frame


def same(found: pd.DataFrame, wanted: pd.DataFrame) -> None:
    pd.testing.assert_frame_equal(found, wanted)
    assert len(found) > 8


@pytest.mark.parametrize("kind", [pd.DataFrame, Polars])
def test_delayed_parts_and_futures_of_rows_are_put_together_by_basket(
    client: Client, kind: Any
) -> None:
    lists: list[list[Any]] = [
        [delayed(kind)(rows) for rows in ROWS],
        client.map(kind, ROWS, pure=False),
        client.scatter([kind(rows) for rows in ROWS]),
        [client.submit(kind, ROWS[0]), *(delayed(kind)(rows) for rows in ROWS[1:])],
    ]
    for parts in lists:
        same(cluster.rules(parts, 2, "1/2", **COLUMNS), RULES)


def test_delayed_parts_and_futures_of_whole_baskets_are_taken_as_they_are(
    client: Client,
) -> None:
    named = [
        [[*table.columns[truths]] for truths in table.to_numpy()] for table in WIDE
    ]
    wanted = basket_miner.rules(sum(named, []), 2, "1/2")
    for parts in (client.scatter(named), [delayed(iter)(part) for part in named]):
        same(cluster.rules(parts, 2, "1/2"), wanted)
    wanted = basket_miner.rules(TRUTHS, 2, "1/2")
    for kind in (pd.DataFrame, Polars):
        same(cluster.rules(client.map(kind, WIDE), 2, "1/2"), wanted)
    same(cluster.rules(from_pandas(TRUTHS, npartitions=3), 2, "1/2"), wanted)
    wanted = basket_miner.sets(scipy.sparse.csr_matrix(TRUTHS), "1/5")
    matrices = client.scatter([scipy.sparse.csr_matrix(table) for table in WIDE])
    same(cluster.sets(matrices, "1/5"), wanted)


def test_whole_baskets_have_weights(client: Client) -> None:
    tables = [table.assign(times=range(1, len(table) + 1)) for table in WIDE]
    wanted = basket_miner.sets(pd.concat(tables), 4, weight="times")
    same(cluster.sets(client.scatter(tables), 4, weight="times"), wanted)


def test_parts_that_do_not_go_together_are_refused(
    client: Client, tmp_path: Path
) -> None:
    (file,) = written(tmp_path, cut(SHOP.read_bytes()))
    for parts, options, said in (
        ([file, delayed(list)()], {}, "and one is of the type Delayed"),
        ([delayed(str)(file)], {}, "no name of a file"),
        ([delayed([["tea"]])], COLUMNS, "is a data frame, not list"),
        (client.scatter(ROWS), {}, "basket= and item="),
        (client.scatter(ROWS), {"basket": "receipt"}, "both basket= and item="),
        (client.scatter(ROWS), COLUMNS | {"item": "good"}, "no column 'good'"),
        (client.scatter([[["tea", None]]]), {}, "missing item"),
        (
            client.scatter([ROWS[0], ROWS[2].replace("milk", None)]),
            COLUMNS,
            "'product' has missing values, .*part 2 of 2",
        ),
        (
            client.scatter([ROWS[0], ROWS[2].set_axis(["r", "p"], axis=1)]),
            COLUMNS,
            "no column 'receipt' .part 2 of 2.",
        ),
    ):
        with pytest.raises(DataError, match=said):
            cluster.sets(parts, 2, **options)


def test_the_current_client_is_asked(client: Client, tmp_path: Path) -> None:
    files = written(tmp_path, cut(SHOP.read_bytes(), 4, 9))
    wanted = basket_miner.sets(SHOP, "20%")
    same(cluster.sets(files, "20%"), wanted)
    same(cluster.sets(cluster.prepare(files), "20%"), wanted)
    with Client(client.cluster, set_as_default=False) as other, other.as_current():
        same(cluster.sets(files, "20%"), wanted)

    def in_a_task() -> bytes:
        with worker_client():
            return cluster.report(files, "sets", "--min=20%")

    report = client.submit(in_a_task, pure=False).result()
    assert report == cluster.report(files, "sets", "--min=20%", client=client)


def test_a_timeout_ends_the_reading_of_parts_and_leaves_the_cluster_free(
    client: Client, tmp_path: Path
) -> None:
    go = tmp_path / "go"

    def slow(rows: Any) -> Any:
        while not go.exists():
            time.sleep(0.05)
        return rows

    rows = [client.submit(slow, part) for part in ROWS]
    lists = [client.submit(slow, [["tea", "milk"], ["tea"]])]
    given: list[tuple[Any, Any]] = [(rows, COLUMNS), (lists, {})]
    for parts, columns in given:
        with pytest.raises(TimedOut, match="timeout= was over"):
            cluster.prepare(parts, timeout=0.5, **columns)
        with pytest.raises(TimedOut, match="timeout= was over"):
            cluster.rules(parts, 2, "1/2", timeout=0.5, **columns)
    with pytest.raises(DataError, match="timeout is a number of seconds above 0"):
        cluster.prepare(lists, timeout=0)
    go.touch()
    same(cluster.rules(rows, 2, "1/2", timeout=60, **COLUMNS), RULES)
    prepared = cluster.prepare(lists, timeout=60)
    assert cluster.sets(prepared, 2)["itemsets"].tolist() == [{"tea"}]


def test_without_a_client_the_question_says_how_to_make_one() -> None:
    script = """
from basket_miner import DataError, TimedOut, cluster
try:
    cluster.sets(["part"], 2)
except DataError as fault:
    print(fault)
"""
    words = [sys.executable, "-c", script]
    done = subprocess.run(words, cwd=ROOT / "python", stdout=subprocess.PIPE, text=True)
    assert done.stdout == (
        "there is no client: make a distributed.Client, or give client=\n"
    )
