"""Baskets in each form give what counting every subset gives, in the same order."""

import csv
import random
from collections.abc import Hashable
from fractions import Fraction
from pathlib import Path
from typing import Any

import brute
import numpy as np
import pandas as pd
import pytest
import scipy.sparse

import basket_miner as miner

GOODS = ["tea", 'jam, "red"', "milk\nfresh", "bread", "soap|bar"]
LEAST = 4


def made(count: int = 40) -> list[list[str]]:
    """Baskets of one to four of the goods, each once, by a fixed seed."""
    chance = random.Random(46)
    return [chance.sample(GOODS, chance.randint(1, 4)) for _ in range(count)]


BASKETS = made()
WEIGHTS = [random.Random(7).randint(1, 3) for _ in BASKETS]


def pairs(frame: pd.DataFrame) -> list[tuple[Any, int]]:
    return list(zip(frame["itemsets"], frame["count"]))


def long_frame(shuffled: bool = False) -> pd.DataFrame:
    rows = [
        (f"r{place}", item, WEIGHTS[place])
        for place, basket in enumerate(BASKETS)
        for item in basket
    ]
    if shuffled:
        random.Random(3).shuffle(rows)
    return pd.DataFrame(rows, columns=["receipt", "product", "times"])


def wide_frame() -> pd.DataFrame:
    return pd.DataFrame(
        [[item in basket for item in GOODS] for basket in BASKETS], columns=GOODS
    )


def by_place() -> list[tuple[brute.Itemset, int]]:
    """The frequent sets where the goods have the numbers of their places."""
    count = brute.supports([[*basket] for basket in BASKETS])
    found = [(key, n) for key, n in count.items() if key and n >= LEAST]
    found.sort(key=lambda pair: (len(pair[0]), sorted(map(GOODS.index, pair[0]))))  # type: ignore[arg-type]
    return found


def test_an_iterable_of_iterables_is_mined() -> None:
    frame = miner.sets((iter(basket) for basket in BASKETS), LEAST)
    assert pairs(frame) == brute.frequent(BASKETS, LEAST)
    assert frame["support"].tolist() == [
        count / len(BASKETS) for count in frame["count"]
    ]


def test_a_long_frame_is_mined_wherever_the_rows_of_a_basket_stand() -> None:
    frame = miner.sets(long_frame(), LEAST, basket="receipt", item="product")
    assert pairs(frame) == brute.frequent(BASKETS, LEAST)
    rows = long_frame(shuffled=True)
    frame = miner.sets(rows, LEAST, basket="receipt", item="product")
    first_seen = [[item] for item in rows["product"]]
    order = [itemset for itemset, _ in brute.frequent(first_seen, 1)]
    assert pairs(frame)[: len(order)] == [
        (itemset, brute.supports(BASKETS)[itemset]) for itemset in order
    ]
    assert dict(pairs(frame)) == dict(brute.frequent(BASKETS, LEAST))


def test_weights_count_a_basket_several_times() -> None:
    found = brute.frequent(BASKETS, LEAST, WEIGHTS)
    columns: Any = {"basket": "receipt", "item": "product", "weight": "times"}
    frame = miner.sets(long_frame(), LEAST, exact=True, **columns)
    assert pairs(frame) == found
    whole = sum(WEIGHTS)
    assert frame["exact_support"].tolist() == [Fraction(n, whole) for _, n in found]
    wide = wide_frame().assign(times=WEIGHTS)
    assert dict(pairs(miner.sets(wide, LEAST, weight="times"))) == dict(found)


WIDE = {
    "bool": wide_frame(),
    "int": wide_frame().astype(int),
    "float": wide_frame().astype(float),
    "object": wide_frame().astype(object),
    "boolean": wide_frame().astype("boolean"),
    "Int8": wide_frame().astype(int).astype("Int8"),
    "sparse": wide_frame().astype(pd.SparseDtype(bool, False)),
    "sparse float": wide_frame().astype(float).astype(pd.SparseDtype(float, 0.0)),
    "sparse of true": wide_frame().astype(pd.SparseDtype(bool, True)),
}


@pytest.mark.parametrize("kind", WIDE)
def test_a_column_an_item_is_numbered_by_its_place(kind: str) -> None:
    assert pairs(miner.sets(WIDE[kind], LEAST)) == by_place()


@pytest.mark.parametrize("kind", ["csr", "coo", "csc"])
def test_a_sparse_matrix_is_mined_with_names_or_by_its_columns(kind: str) -> None:
    matrix = scipy.sparse.csr_matrix(wide_frame().to_numpy()).asformat(kind)
    assert pairs(miner.sets(matrix, LEAST, names=GOODS)) == by_place()
    numbered = [
        (frozenset(GOODS[place] for place in itemset), count)
        for itemset, count in pairs(miner.sets(matrix, LEAST))
    ]
    assert numbered == by_place()


def test_a_fimi_file_has_numbers_as_labels(tmp_path: Path) -> None:
    path = tmp_path / "shop.dat"
    path.write_text("3x 7 9\n9\n\n7 9 4\n")
    frame = miner.sets(str(path), 3)
    baskets, weights = [[7, 9], [9], [7, 9, 4]], [3, 1, 1]
    assert dict(pairs(frame)) == dict(brute.frequent(baskets, 3, weights))
    assert frame["support"].tolist() == [4 / 5, 1.0, 4 / 5]


@pytest.mark.parametrize(("sep", "character"), [("|", "|"), ("semicolon", ";")])
def test_csv_of_a_basket_a_record_is_mined(
    tmp_path: Path, sep: str, character: str
) -> None:
    path = tmp_path / "shop.csv"
    with open(path, "w", encoding="utf-8", newline="") as file:
        writer = csv.writer(file, delimiter=character)
        writer.writerow(["times", "goods"])
        writer.writerow([8])
        for weight, basket in zip(WEIGHTS, BASKETS):
            writer.writerow([weight, *basket])
    frame = miner.sets(path, LEAST, form="baskets", sep=sep, header=True, weighted=True)
    found = brute.frequent(BASKETS, LEAST, WEIGHTS)
    assert pairs(frame) == found
    assert frame["support"].tolist() == [n / sum(WEIGHTS) for _, n in found]


def test_csv_of_an_item_a_record_is_mined(tmp_path: Path) -> None:
    path = tmp_path / "shop.csv"
    long_frame(shuffled=True).to_csv(path, index=False)
    options: Any = {"form": "single", "header": True}
    frame = miner.rules(path, LEAST, 0.5, exact=True, **options)
    found = brute.rules(BASKETS, LEAST, Fraction(1, 2))
    rows = zip(
        zip(frame["antecedents"], frame["consequents"]),
        zip(frame["count"], frame["exact_confidence"], frame["exact_lift"]),
    )
    assert dict(rows) == found
    shares = [Fraction(count, len(BASKETS)) for count, _, _ in found.values()]
    assert sorted(frame["exact_support"]) == sorted(shares)


def test_a_basket_without_an_item_is_none() -> None:
    frame = miner.items([[], ["tea"], []], 1.0)
    assert frame.to_dict("list") == {
        "itemsets": [frozenset(["tea"])],
        "count": [1],
        "support": [1.0],
    }
    wide = pd.DataFrame({"tea": [True, False]})
    assert miner.items(wide, 1)["support"].tolist() == [1.0]


LABELS: list[list[Hashable]] = [
    [1, 2, 10**20],
    [2.5, -1.0],
    [("a", 1), frozenset([3])],
    [pd.Timestamp("2026-11-27"), pd.Timestamp("2026-11-28")],
    ["", " tea ", "a,b", '"', "\r\n", "=>", "(7)", "x\0y"],
]


@pytest.mark.parametrize("labels", LABELS)
def test_labels_come_back_as_they_were_given(labels: list[Hashable]) -> None:
    column = pd.Series(labels)
    frame = pd.DataFrame({"receipt": 1, "product": column})
    one_basket = [
        miner.items([labels], 1),
        miner.items(frame, 1, basket="receipt", item="product"),
    ]
    for found in one_basket:
        back = [item for itemset in found["itemsets"] for item in itemset]
        assert back == labels
        assert [type(item) for item in back] == [type(label) for label in labels]
    wide = pd.DataFrame([[True] * len(labels)])
    wide.columns = pd.Index(labels, dtype=object, tupleize_cols=False)
    assert [*map(set, miner.items(wide, 1)["itemsets"])] == [{x} for x in labels]


def test_a_categorical_column_and_numbers_of_numpy_are_labels() -> None:
    frame = pd.DataFrame({"receipt": [1, 1], "product": pd.Categorical(["b", "a"])})
    found = miner.items(frame, 1, basket="receipt", item="product")
    assert [*found["itemsets"]] == [frozenset("b"), frozenset("a")]
    found = miner.items(np.array([[3], [4, 3]], dtype=object), 1)
    assert pairs(found) == [(frozenset([3]), 2), (frozenset([4]), 1)]


@pytest.mark.filterwarnings("error")
@pytest.mark.parametrize(
    ("items", "labels"),
    [
        ([1, 2.5], [1, 2.5]),
        ([2**53 + 1, 2.5, 2**53], [2**53 + 1, 2.5, 2**53]),
        ([True, "tea", 2], [True, "tea", 2]),
        ([1, 1.0, 2.0], [1, 2.0]),
        ([(float("nan"), 1), (float("nan"), 1)], [(float("nan"), 1)]),
    ],
    ids=str,
)
def test_values_of_a_column_of_objects_come_back_as_they_were_given(
    items: list[Any], labels: list[Any]
) -> None:
    frame = pd.DataFrame({"receipt": 1, "product": pd.Series(items, dtype=object)})
    found = miner.items(frame, 1, basket="receipt", item="product")
    back = [item for itemset in found["itemsets"] for item in itemset]
    assert list(map(type, back)) == list(map(type, labels))
    assert list(map(repr, back)) == list(map(repr, labels))


def test_a_basket_may_have_an_id_of_several_columns() -> None:
    chance = random.Random(5)
    stores, months = ["east", "west", 3], [1.5, 2.0]
    shop: dict[tuple[Any, ...], list[str]] = {}
    rows = [
        (chance.choice(stores), chance.randint(1, 9), chance.choice(months), item)
        for item in chance.choices(GOODS, k=150)
    ]
    for *key, item in rows:
        shop.setdefault(tuple(key), []).append(item)
    frame = pd.DataFrame(rows, columns=["store", "receipt", "month", "product"])
    keys = ["store", "receipt", "month"]
    known = brute.frequent([*shop.values()], LEAST)
    found = miner.sets(frame, LEAST, basket=keys, item="product")
    assert dict(pairs(found)) == dict(known)
    weighed = frame.assign(times=2)
    found = miner.sets(weighed, 2 * LEAST, basket=keys, item="product", weight="times")
    assert dict(pairs(found)) == {itemset: 2 * count for itemset, count in known}
    # One column in a list is that column.
    one = miner.sets(frame, LEAST, basket=["receipt"], item="product")
    assert one.equals(miner.sets(frame, LEAST, basket="receipt", item="product"))


def test_gaps_in_an_id_of_several_columns_are_refused_or_dropped() -> None:
    frame = pd.DataFrame(
        {"s": ["a", "a", None], "r": [1, None, 1], "p": ["tea", "jam", "tea"]}
    )
    options: Any = {"basket": ["s", "r"], "item": "p"}
    for said, given in (
        ("'s' has missing values", frame),
        ("'r' has missing values", frame.head(2)),
        ("no column 's'", frame[["r", "p"]]),
    ):
        with pytest.raises(miner.DataError, match=said):
            miner.sets(given, 1, **options)
    assert pairs(miner.sets(frame, 1, missing="drop", **options)) == [({"tea"}, 1)]
    with pytest.raises(miner.DataError, match="this list is empty"):
        miner.sets(frame, 1, basket=[], item="p")
