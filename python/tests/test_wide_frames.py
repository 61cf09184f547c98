"""Frames of true and false in each type of column give the baskets of one of plain truths."""

import random
from typing import Any

import numpy as np
import pandas as pd
import pytest

import basket_miner as miner

CHANCE = random.Random(7)
TRUTHS = pd.DataFrame(
    [[CHANCE.random() < 0.4 for _ in range(9)] for _ in range(50)],
    columns=[*"abcdefghi"],
)
WANTED = miner.sets(TRUTHS, 3)

TYPES: list[Any] = ["int64", "uint8", "int8", "float32", "float64", "boolean", "object"]
TYPES += ["Int64", "UInt8", "Int8", "Float64", pd.SparseDtype(bool, False)]
TYPES += [pd.SparseDtype("int64", 0), pd.SparseDtype(float, 1.0), "category"]


def objects(*ones: Any) -> pd.DataFrame:
    """The truths as objects, where a true one is one of these and a false one is equal to 0."""
    zeros = [type(one)(0) for one in ones]
    return TRUTHS.applymap(lambda truth: CHANCE.choice(ones if truth else zeros))


def same(frame: pd.DataFrame, **options: Any) -> None:
    pd.testing.assert_frame_equal(miner.sets(frame, 3, **options), WANTED)


@pytest.mark.parametrize("kind", TYPES, ids=str)
def test_each_type_of_column_gives_the_same_baskets(kind: Any) -> None:
    same(TRUTHS.astype(kind))


@pytest.mark.parametrize("first", TYPES, ids=str)
def test_columns_of_several_types_give_the_same_baskets(first: Any) -> None:
    kinds = {"a": first, "d": first, "b": "boolean", "c": object, "h": "Int64"}
    same(TRUTHS.astype(kinds))


@pytest.mark.parametrize(
    "ones",
    [(True,), (1,), (True, 1), (np.True_, np.int64(1)), (1.0,), (True, 1, 1.0)],
    ids=str,
)
def test_objects_that_are_equal_to_1_are_true(ones: Any) -> None:
    frame = objects(*ones).astype(object)
    assert {*frame.dtypes} == {np.dtype(object)}
    same(frame)
    frame.iloc[3, 4] = 2
    with pytest.raises(miner.DataError, match="column 'e' has values other than 0"):
        miner.sets(frame, 3)


@pytest.mark.parametrize("kind", ["object", "boolean", "Int64", "float64", "Float64"])
def test_gaps_are_refused_or_false(kind: str) -> None:
    frame = TRUTHS.astype(kind)
    for gap in (None, np.nan, pd.NA) if kind == "object" else (None,):
        # Where the truth is false, so that the baskets stay.
        at = CHANCE.choice([*zip(*np.nonzero(~TRUTHS.to_numpy()))])
        frame.iloc[at] = gap
    with pytest.raises(miner.DataError, match='missing values, . of them; missing="dr'):
        miner.sets(frame, 3)
    same(frame, missing="drop")


def test_numbers_that_a_smaller_type_takes_for_0_or_1_are_refused() -> None:
    for kind, value in (("UInt16", 257), ("uint64", 2**63 + 1), ("Int64", -1)):
        with pytest.raises(miner.DataError, match="column 'b' has values other than 0"):
            miner.sets(
                TRUTHS.astype(kind).assign(b=pd.Series(value, range(50), kind)), 3
            )
