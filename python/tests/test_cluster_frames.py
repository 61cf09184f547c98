# mypy: allow-untyped-calls
"""Baskets of Dask frames whose ids are equal and look different, beside one run over the rows."""

import datetime
import math
import random
import warnings
from collections.abc import Sequence
from decimal import Decimal
from fractions import Fraction
from pathlib import Path
from typing import Any

import numpy as np
import pandas as pd
import pytest
from dask.bag.core import from_sequence
from dask.dataframe.multi import concat
from dask.dataframe.io.io import from_pandas
from distributed import Client, worker

import basket_miner
from basket_miner import cluster
from basket_miner._program import run
from basket_miner.cluster._keys import keys_of
from basket_miner.cluster._labels import Numbering, joined, packed, unpacked

COLUMNS: dict[str, Any] = {"basket": "receipt", "item": "product"}
PAIR = [[{"tea"}, 40, 1.0], [{"jam"}, 40, 1.0], [{"tea", "jam"}, 40, 1.0]]


def rows_of(frame: pd.DataFrame) -> list[list[Any]]:
    rows: list[list[Any]] = frame[["itemsets", "count", "support"]].to_numpy().tolist()
    return rows


def test_ids_that_are_equal_are_one_basket_whatever_their_types(client: Client) -> None:
    ids = [*range(40), *map(float, range(40))]
    frame = pd.DataFrame(
        {
            "receipt": pd.Series(ids, dtype=object),
            "product": ["tea"] * 40 + ["jam"] * 40,
        }
    )
    assert rows_of(basket_miner.sets(frame, 1, **COLUMNS)) == PAIR
    cut_up = from_pandas(frame, npartitions=5, sort=False)
    assert rows_of(cluster.sets(cut_up, 1, client=client, **COLUMNS)) == PAIR


def test_a_basket_may_have_an_id_of_several_columns(client: Client) -> None:
    chance = random.Random(3)
    rows = [
        (chance.choice(["east", "west"]), chance.randint(1, 9), chance.choice("abc"))
        for _ in range(80)
    ]
    frame = pd.DataFrame(rows, columns=["store", "receipt", "product"])
    options: Any = {"basket": ["store", "receipt"], "item": "product"}
    wanted = rows_of(basket_miner.sets(frame, 2, **options))
    cut_up = from_pandas(frame, npartitions=4, sort=False)
    found = rows_of(cluster.sets(cut_up, 2, client=client, **options))
    assert found == wanted and len(found) > 3


def test_months_of_ids_of_two_types_are_put_together(client: Client) -> None:
    months = [
        pd.DataFrame({"receipt": np.arange(40), "product": "tea"}),
        pd.DataFrame({"receipt": np.arange(40.0), "product": "jam"}),
    ]
    cut_up = concat([from_pandas(month, npartitions=3, sort=False) for month in months])
    assert rows_of(cluster.sets(cut_up, 1, client=client, **COLUMNS)) == PAIR


def test_numbers_of_the_type_object_keep_their_values_as_labels(client: Client) -> None:
    items = [2**53 + 1, 2.5, 2**53, True]
    frame = pd.DataFrame({"receipt": 1, "product": pd.Series(items, dtype=object)})
    cut_up = from_pandas(frame, npartitions=2, sort=False)
    found = cluster.sets(cut_up, 1, client=client, **COLUMNS)
    labels = [item for itemset in found["itemsets"][:4] for item in itemset]
    assert [(label, type(label)) for label in labels] == [
        (item, type(item)) for item in items
    ]


def test_labels_that_are_not_equal_to_their_copies_come_back(client: Client) -> None:
    gap = ("a", np.nan)
    pairs: list[tuple[int, Any]] = [(1, gap), (1, "tea"), (2, gap), (3, "tea")]
    frame = pd.DataFrame(
        {
            "receipt": [receipt for receipt, _ in pairs],
            "product": pd.Series([item for _, item in pairs], dtype=object),
        }
    )
    cut_up = from_pandas(frame, npartitions=3, sort=False)
    bag = from_sequence([[gap, "tea"], [gap], ["tea"]], npartitions=3)
    given: list[tuple[Any, dict[str, Any]]] = [(cut_up, COLUMNS), (bag, {})]
    for parts, options in given:
        found = cluster.sets(parts, 1, client=client, **options)
        assert found["count"].tolist() == [2, 2, 1]
        sizes = [sorted(map(str, itemset)) for itemset in found["itemsets"]]
        assert sizes == [[str(gap)], ["tea"], [str(gap), "tea"]]


def test_a_label_that_one_part_has_twice_has_the_number_of_the_first(
    client: Client,
) -> None:
    # On their way to a worker the tuples of two baskets become two, which are not equal.
    gap = ("a", np.nan)
    shop: list[list[Any]] = [[gap, "tea"], [gap], ["tea", "milk"], [gap]]
    bag = from_sequence(shop, npartitions=1)
    found, wanted = cluster.sets(bag, 1, client=client), basket_miner.sets(shop, 1)
    assert rows_of(found)[0][1] == 3
    for frame in (found, wanted):
        frame["itemsets"] = frame["itemsets"].map(lambda it: sorted(map(str, it)))
    assert rows_of(found) == rows_of(wanted)


@pytest.mark.parametrize(
    "labels",
    [
        *([], [""], ["tea", ""], ["tea", "a\0b"], ["\0"], ["\ud800", "tä"]),
        *([1, "tea"], [True, 2.5], [np.str_("tea")], [("a", math.nan), "tea"]),
    ],
    ids=ascii,
)
def test_labels_of_any_type_come_back_from_their_bytes(labels: list[Any]) -> None:
    content = packed(labels)
    assert str(unpacked(content)) == str(labels)
    numbering = Numbering(joined(packed(["first"]), content, content))
    numbers = numbering.of(packed(["first", *labels])).tolist()
    assert numbers == [*range(len(labels) + 1)]


def test_many_labels_keep_their_numbers_and_bring_no_warning_of_the_engine(
    client: Client, monkeypatch: pytest.MonkeyPatch
) -> None:
    # The engine warns of a megabyte in its graph, once in a process.
    monkeypatch.setattr(worker, "_warn_dumps_warned", [False], raising=False)
    chance = random.Random(1)
    names = [f"product {number}" for number in range(100_000)]
    lists = [chance.sample(names, 8) for _ in range(20_000)]
    rows = pd.DataFrame({"receipt": range(20_000), "product": lists}).explode("product")
    # Cut in the midst of baskets.
    cuts = [rows[start::3] for start in range(3)]
    given: list[tuple[list[Any], Any, Any]] = [
        ([lists[:9_000], lists[9_000:]], {}, lists),
        (cuts, COLUMNS, pd.concat(cuts)),
    ]
    for parts, columns, everything in given:
        whole = basket_miner.baskets(everything, **columns)
        with warnings.catch_warnings():
            warnings.filterwarnings("error", message="(Large object|Sending large)")
            found = cluster.prepare(client.scatter(parts), client=client, **columns)
        assert found.labels == whole.labels and len(found.labels or ()) > 70_000
        report = cluster.report(found, "items", "--min=1", client=client)
        assert report == run(["items", "--min=1"], whole.source)


@pytest.mark.parametrize("kind", ["int8", "uint64", "Int64", "object", "float64"])
def test_weights_are_whole_numbers_of_any_type(client: Client, kind: str) -> None:
    frame = pd.DataFrame({"receipt": [1, 1, 2], "product": ["tea", "jam", "tea"]})
    frame["times"] = pd.Series([3, 3, 4]).astype(kind)
    cut_up = from_pandas(frame, npartitions=2, sort=False)
    found = cluster.sets(cut_up, 1, client=client, weight="times", **COLUMNS)
    assert found["count"].tolist() == [7, 3, 3]


SUMMER = datetime.timezone(datetime.timedelta(hours=2))


@pytest.mark.parametrize(
    "ids",
    [
        (7, 7.0, np.int64(7), np.float32(7), Decimal("7.0"), Fraction(7), 7 + 0j),
        (1, True, np.bool_(True)),
        (0.0, -0.0, False),
        (2**60, float(2**60)),
        ("tea", np.str_("tea")),
        ((1, "tea"), (1.0, "tea")),
        (
            datetime.datetime(2026, 7, 1, 14, tzinfo=SUMMER),
            pd.Timestamp("2026-07-01 12:00", tz="UTC"),
        ),
        (datetime.datetime(2026, 7, 1), pd.Timestamp("2026-07-01")),
        (frozenset([1]), frozenset([1.0])),
    ],
    ids=str,
)
def test_equal_ids_share_a_number(ids: Sequence[Any]) -> None:
    assert len({*ids}) == 1
    forms = [pd.Series([value], dtype=object).to_numpy() for value in ids]
    forms += [pd.Index([value]) for value in ids if not isinstance(value, tuple)]
    assert len({int(keys_of(form)[0]) for form in forms}) == 1


def test_different_ids_are_spread_over_the_parts() -> None:
    kinds: list[list[Any]] = [
        [*range(1000)],
        [number / 8 for number in range(1000)],
        [f"r{number}" for number in range(1000)],
        [(number, "a") for number in range(1000)],
        [pd.Timestamp(number, unit="s") for number in range(1000)],
    ]
    for kind in kinds:
        keys = keys_of(pd.Series(kind, dtype=object).to_numpy())
        assert len({*keys.tolist()}) == 1000


def test_files_of_the_home_folder_are_found_and_what_is_no_file_is_refused(
    client: Client, tmp_path: Path, monkeypatch: pytest.MonkeyPatch
) -> None:
    monkeypatch.setenv("HOME", str(tmp_path))
    for number in (0, 1):
        (tmp_path / f"part{number}").write_bytes(b"1 2\n1\n")
    found = cluster.sets(["~/part0", "~/part1"], 2, client=client)
    assert rows_of(found) == [[{1}, 4, 1.0], [{2}, 2, 0.5], [{1, 2}, 2, 0.5]]
    with pytest.raises(basket_miner.DataError, match="s3://shop/part is no path"):
        cluster.sets(["~/part0", "s3://shop/part"], 2, client=client)
    with pytest.raises(basket_miner.DataError, match="read several times"):
        cluster.sets(["~/part0", "/dev/null"], 2, client=client)


def test_a_client_that_cannot_be_asked_is_refused(client: Client) -> None:
    address = client.scheduler_info()["address"]

    async def asked() -> None:
        async with Client(address, asynchronous=True) as other:
            with pytest.raises(basket_miner.DataError, match="client= is a"):
                cluster.sets(["part"], 2, client=other)

    client.sync(asked)
    other: Any = address
    for call in (cluster.sets, cluster.closed):
        with pytest.raises(basket_miner.DataError, match="client= is a"):
            call(["part"], 2, client=other)
    with pytest.raises(basket_miner.DataError, match="client= is a"):
        cluster.report(["part"], "sets", "--min=2", client=other)
