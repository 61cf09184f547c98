"""Columns of any type are numbered by first appearance, whatever way is the quickest."""

import random
from collections.abc import Callable
from typing import Any

import numpy as np
import pandas as pd
import pytest

import basket_miner as miner
from basket_miner._numbering import numbered

CHANCE = random.Random(4)
# More rows than tell whether few objects stand in many rows.
ROWS = 70_000
TEXTS = [f"product {number}" for number in range(50)]


def by_first_appearance(values: list[Any]) -> tuple[list[int], list[Any]]:
    numbers: dict[Any, int] = {}
    found = [
        -1 if pd.isna(value) else numbers.setdefault(value, len(numbers))
        for value in values
    ]
    return found, [*numbers]


KINDS: dict[str, Callable[[], Any]] = {
    "few objects": lambda: CHANCE.choices(TEXTS, k=ROWS),
    "an object for each row": lambda: [f"{CHANCE.choice(TEXTS)}!" for _ in range(ROWS)],
    "equal objects": lambda: CHANCE.choices([*TEXTS, *map("".join, TEXTS)], k=ROWS),
    "few at first": lambda: [TEXTS[0]] * ROWS + [f"{number}" for number in range(99)],
    "numbers and texts": lambda: CHANCE.choices([1, True, 1.0, "1", (1, 2)], k=ROWS),
    "gaps": lambda: CHANCE.choices([*TEXTS, None, np.nan, pd.NA], k=ROWS),
    "gaps alone": lambda: [None, np.nan],
    "nothing": lambda: [],
}


@pytest.mark.parametrize("kind", KINDS)
def test_objects_are_numbered_as_a_dictionary_does(kind: str) -> None:
    given = KINDS[kind]()
    numbers, values = numbered(pd.Series(given, dtype=object), "product")
    assert (numbers.tolist(), values.tolist()) == by_first_appearance(given)
    if kind not in ("numbers and texts", "gaps alone", "nothing"):
        numbers, values = numbered(pd.Series(given, dtype="string"), "product")
        assert (numbers.tolist(), values.tolist()) == by_first_appearance(given)


@pytest.mark.parametrize("dtype", ["int64", "uint8", "Int64", "float64", "category"])
def test_numbers_are_numbered_in_and_out_of_order(dtype: str) -> None:
    rising = sorted(CHANCE.choices(range(200), k=999))
    lists: list[list[int]] = [rising, rising[::-1], CHANCE.sample(rising, 999), [7], []]
    for given in lists:
        column = pd.Series(given, dtype=dtype)
        numbers, values = numbered(column, "receipt")
        found = [*map(values.tolist().__getitem__, numbers.tolist())]
        assert found == given
        if dtype != "category":
            assert (numbers.tolist(), values.tolist()) == by_first_appearance(given)


@pytest.mark.parametrize("rows", [2, ROWS])
def test_texts_with_a_zero_byte_are_refused_wherever_they_stand(rows: int) -> None:
    texts = CHANCE.choices(TEXTS, k=rows)
    for last in ("tea\0green", "\0"):
        given = pd.Series([*texts, last[: last.index("\0")], last], dtype=object)
        with pytest.raises(miner.DataError, match="'product' has texts with a zero"):
            numbered(given, "product")


def test_rows_of_a_frame_may_stand_in_any_order() -> None:
    rows = pd.DataFrame(
        [(receipt, text) for receipt in range(300) for text in CHANCE.sample(TEXTS, 3)],
        columns=["receipt", "product"],
    )
    columns: Any = {"basket": "receipt", "item": "product"}
    wanted = miner.sets(rows, 9, **columns)
    shuffled = miner.sets(rows.sample(frac=1, random_state=4), 9, **columns)
    assert {*zip(shuffled["itemsets"], shuffled["count"])} == {
        *zip(wanted["itemsets"], wanted["count"])
    }
    assert len(wanted) > 40
