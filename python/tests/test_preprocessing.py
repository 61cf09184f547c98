"""The encoder answers as that of mlxtend.

The example is that of the user guide's page `TransactionEncoder`,
https://rasbt.github.io/mlxtend/user_guide/preprocessing/TransactionEncoder/, typed here from memory with what it prints.
"""

from typing import Any

import numpy as np
import pandas as pd
import pytest

from basket_miner import DataError
from basket_miner.frequent_patterns import apriori
from basket_miner.preprocessing import TransactionEncoder

DATASET = [
    ["Apple", "Beer", "Rice", "Chicken"],
    ["Apple", "Beer", "Rice"],
    ["Apple", "Beer"],
    ["Apple", "Bananas"],
    ["Milk", "Beer", "Rice", "Chicken"],
    ["Milk", "Beer", "Rice"],
    ["Milk", "Beer"],
    ["Apple", "Bananas"],
]
COLUMNS = ["Apple", "Bananas", "Beer", "Chicken", "Milk", "Rice"]
TABLE = [
    [1, 0, 1, 1, 0, 1],
    [1, 0, 1, 0, 0, 1],
    [1, 0, 1, 0, 0, 0],
    [1, 1, 0, 0, 0, 0],
    [0, 0, 1, 1, 1, 1],
    [0, 0, 1, 0, 1, 1],
    [0, 0, 1, 0, 1, 0],
    [1, 1, 0, 0, 0, 0],
]


def test_the_encoder_is_copied_as_scikit_learn_does() -> None:
    # What its `clone` does, and what a pipeline asks.
    encoder = TransactionEncoder().fit(DATASET)
    copied = type(encoder)(**encoder.get_params(deep=False))
    assert copied.set_params() is copied
    assert not hasattr(copied, "columns_")
    with pytest.raises(DataError, match="no parameter, as 'sparse'"):
        copied.set_params(sparse=True)


def test_the_encoder_makes_the_documented_table_and_goes_back() -> None:
    encoder = TransactionEncoder()
    table = encoder.fit(DATASET).transform(DATASET)
    assert (table.dtype, table.astype(int).tolist()) == (bool, TABLE)
    assert encoder.columns_ == [*encoder.get_feature_names_out()] == COLUMNS
    sparse = encoder.transform(DATASET, sparse=True)
    assert sparse.toarray().astype(int).tolist() == TABLE
    for given in (table, sparse, TABLE, pd.DataFrame(TABLE)):
        assert encoder.inverse_transform(given)[:2] == [
            ["Apple", "Beer", "Chicken", "Rice"],
            ["Apple", "Beer", "Rice"],
        ]


def test_the_table_goes_into_the_calls_of_mlxtend() -> None:
    encoder = TransactionEncoder()
    table = encoder.fit_transform(map(iter, DATASET))
    frame = pd.DataFrame(table, columns=encoder.columns_)
    found = apriori(frame, min_support=0.6, use_colnames=True)
    assert [*zip(found["itemsets"], found["support"])] == [
        ({"Apple"}, 0.625),
        ({"Beer"}, 0.75),
    ]
    sparse = encoder.fit_transform(DATASET, sparse=True)
    frame = pd.DataFrame.sparse.from_spmatrix(sparse, columns=encoder.columns_)
    again = apriori(frame, min_support=0.6, use_colnames=True)
    pd.testing.assert_frame_equal(again, found)


def test_items_stand_once_in_ascending_order_or_that_of_their_texts() -> None:
    encoder = TransactionEncoder().fit([[10, 9, 9], [2]])
    assert encoder.columns_ == [2, 9, 10]
    assert encoder.columns_mapping_ == {2: 0, 9: 1, 10: 2}
    assert TransactionEncoder().fit([[10, "9"], [2]]).columns_ == [10, 2, "9"]
    assert encoder.transform([]).shape == (0, 3)


@pytest.mark.parametrize(
    ("said", "call"),
    [
        ("call fit first", lambda new: new.transform([["tea"]])),
        ("call fit first", lambda new: new.inverse_transform([[1]])),
        ("saw no item 'jam'", lambda new: new.fit([["tea"]]).transform([["jam"]])),
        ("a missing item", lambda new: new.fit([["tea", np.nan]])),
        ("iterable of items, not 'tea'", lambda new: new.fit(["tea"])),
        ("an item has a hash", lambda new: new.fit([[["tea"]]])),
        ("of one length", lambda new: new.fit(DATASET).inverse_transform([[1], []])),
        ("each of 1 items", lambda new: new.fit([["tea"]]).inverse_transform([[1, 0]])),
    ],
)
def test_what_does_not_fit_is_refused(said: str, call: Any) -> None:
    with pytest.raises(DataError, match=said):
        call(TransactionEncoder())
