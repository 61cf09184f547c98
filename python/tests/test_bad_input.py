"""What is refused, with the exception's type and what it says."""

import io
from collections.abc import Callable, Iterator
from pathlib import Path
from typing import Any

import numpy as np
import pandas as pd
import pytest
import scipy.sparse

import basket_miner as miner

ROWS = pd.DataFrame({"receipt": [1, 1, 2], "product": ["tea", None, "jam"]})
LONG: Any = {"basket": "receipt", "item": "product"}


def weighted(*weights: object) -> pd.DataFrame:
    return pd.DataFrame({"receipt": [1, 1], "product": ["a", "b"], "times": weights})


def refused(said: str, data: object, **options: Any) -> None:
    with pytest.raises(miner.DataError, match=said):
        miner.sets(data, 1, **options)


@pytest.mark.parametrize("gone", [None, np.nan, float("nan"), pd.NA, pd.NaT], ids=str)
def test_a_missing_item_is_refused_or_dropped_and_never_a_name(gone: Any) -> None:
    rows = ROWS.assign(product=pd.Series(["tea", gone, "jam"], dtype=object))
    refused("'product' has missing values, 1 of them", rows, **LONG)
    found = miner.sets(rows, 1, missing="drop", **LONG)
    assert found["itemsets"].tolist() == [frozenset(["tea"]), frozenset(["jam"])]
    assert found["support"].tolist() == [0.5, 0.5]
    refused("a basket has a missing item", [["tea", gone], ["jam"]])
    refused("a basket has a missing item", [[gone, 1], [1]])
    found = miner.sets([["tea", gone], ["jam"], [gone]], 1, missing="drop")
    assert found["itemsets"].tolist() == [frozenset(["tea"]), frozenset(["jam"])]
    assert found["support"].tolist() == [0.5, 0.5]


def test_a_missing_basket_id_or_weight_is_refused_or_dropped() -> None:
    rows = pd.DataFrame({"receipt": [1, None, 2], "product": ["a", "a", "b"]})
    refused("'receipt' has missing values", rows, **LONG)
    found = miner.sets(rows, 1, missing="drop", **LONG)
    assert found["count"].tolist() == [1, 1]
    refused("'times' has missing values", weighted(2, None), weight="times", **LONG)


def test_a_missing_truth_is_refused_or_taken_for_false() -> None:
    for gone in (None, np.nan):
        wide = pd.DataFrame({"tea": [True, gone], "jam": [True, True]})
        refused("'tea' has missing values", wide)
        found = miner.sets(wide, 2, missing="drop")
        assert found["itemsets"].tolist() == [frozenset(["jam"])]


@pytest.mark.parametrize("value", [2, 0.5, -1, "yes", np.inf], ids=str)
def test_values_other_than_0_and_1_are_refused(value: object) -> None:
    wide = pd.DataFrame({"tea": [1, value], "jam": [0, 1]})
    refused("column 'tea' has values other than 0 and 1", wide)
    if isinstance(value, (int, float)):
        kind = pd.SparseDtype(float, 0.0)
        refused("column 'tea' has values other", wide.astype(float).astype(kind))
        matrix = scipy.sparse.csr_matrix(wide.astype(float))
        refused("the matrix has values other than 0 and 1", matrix)


def test_a_frame_with_a_row_an_item_needs_the_names_of_its_columns() -> None:
    refused("'receipt' has values other .* basket= and item=", ROWS.dropna())


def test_a_matrix_that_names_a_place_twice_is_refused() -> None:
    ones, places = [1, 1], ([0, 0], [0, 0])
    refused("other than 0 and 1", scipy.sparse.coo_matrix((ones, places)))
    refused("2 names for 1 columns", scipy.sparse.eye(1), names=["a", "b"])
    refused("name 'a' stands twice", scipy.sparse.eye(2), names=["a", "a"])


@pytest.mark.parametrize("names", [{"a", "b"}, frozenset("ab"), "ab", 5])
def test_names_of_columns_have_an_order(names: Any) -> None:
    refused("names= are the labels .* in their order", scipy.sparse.eye(2), names=names)


def test_a_frame_of_quantities_and_one_by_its_index_say_what_to_give() -> None:
    refused("is given as frame > 0", pd.DataFrame({"tea": [0, 2], "jam": [1, 1]}))
    refused("an index: give frame.reset_index", ROWS.set_index("receipt"), **LONG)


def test_a_text_of_lines_is_no_path() -> None:
    refused("'bread,milk.nbread'.. is text of several lines", "bread,milk\nbread")


@pytest.mark.parametrize(
    ("said", "options"),
    [
        ("workers is a whole number from 1 to 64, not 0", {"workers": 0}),
        ("workers is a whole number from 1 to 64, not True", {"workers": True}),
        ("limit is a whole number from 1 to .*, not 1000000.0", {"limit": 1e6}),
        ("miner is one of apriori, .*fpgrowth, not 'fp'", {"miner": "fp"}),
    ],
)
def test_words_of_the_work_are_refused_as_python_has_them(
    said: str, options: dict[str, Any]
) -> None:
    with pytest.raises(miner.UsageError, match=said) as caught:
        miner.sets([["tea"]], 1, **options)
    assert not hasattr(caught.value, "__notes__")


def test_nothing_for_the_number_of_workers_is_its_default() -> None:
    given: Any = {"workers": None}
    assert len(miner.sets([["tea"]], 1, **given)) == 1
    assert len(miner.count([["tea"]], [["tea"]], **given)) == 2


def test_columns_that_are_missing_or_stand_twice_are_refused() -> None:
    refused("no column 'basket'", ROWS, basket="basket", item="product")
    twice = pd.concat([ROWS, ROWS[["product"]]], axis=1)
    refused("several columns 'product'", twice, **LONG)
    refused("column 'a' stands twice", pd.DataFrame([[1, 0]], columns=["a", "a"]))
    refused("has no label, but nan", pd.DataFrame([[1]], columns=[np.nan]))
    refused("both basket= and item=", ROWS, basket="receipt")


@pytest.mark.parametrize(
    "weights",
    [(0, 0), (1.5, 1.5), (-1, -1), (2**32, 2**32), ("2", "2"), (True, True)],
)
def test_weights_other_than_whole_numbers_from_1_are_refused(weights: Any) -> None:
    refused("weights are whole numbers", weighted(*weights), weight="times", **LONG)


def test_several_weights_in_one_basket_are_refused() -> None:
    refused("'times' has several weights", weighted(1, 2), weight="times", **LONG)


def test_a_column_that_is_given_for_its_name_is_refused() -> None:
    refused("by its name, not as Series", ROWS, basket=ROWS["receipt"], item="product")
    refused("by its name, not as list", ROWS, basket="receipt", item=["product"])


@pytest.mark.parametrize("label", [pd.NA, pd.NaT, np.nan, None], ids=str)
def test_another_column_may_have_no_label(label: Any) -> None:
    rows = pd.DataFrame([[7, 1, "tea"]], columns=pd.Index([label, *ROWS], dtype=object))
    assert miner.sets(rows, 1, **LONG)["itemsets"].tolist() == [{"tea"}]
    refused("no column 'times'", rows, weight="times", **LONG)


def test_an_empty_frame_has_no_itemset_and_one_without_columns_is_refused() -> None:
    found = miner.sets(ROWS.iloc[:0], 0.5, **LONG)
    assert len(found) == 0
    assert found.dtypes.astype(str).tolist() == ["object", "int64", "float64"]
    assert len(miner.sets(pd.DataFrame({"tea": []}, dtype=bool), 0.5)) == 0
    assert len(miner.rules([], 0.5, 0.5)) == 0
    refused("no column of an item", pd.DataFrame())


class Columns:
    """What iterates over its columns, as tables do that are no frames of pandas."""

    def __iter__(self) -> Iterator[list[bool]]:
        return iter([[True, False], [False, True]])


class Table(Columns):
    """A table as those of Arrow and Polars."""

    def to_pandas(self) -> pd.DataFrame:
        return pd.DataFrame()


class Exchanged(Columns):
    """A table that other packages can read."""

    def __dataframe__(self) -> object:
        return None


@pytest.mark.parametrize(
    ("said", "data"),
    [
        ("a basket is an iterable of items, not 'tea'", ["tea", "jam"]),
        (
            "a basket is an iterable of items, not a DataFrame; frames with a row",
            [ROWS, ROWS],
        ),
        ("a basket is an iterable of items, not bytearray", [bytearray(b"tea")]),
        ("iterables of hashable items", [[["tea"]]]),
        ("iterables of hashable items", [1, 2]),
        ("iterables of hashable items", 7),
        ("ndarray is not an iterable of baskets", np.eye(2)),
        ("dict is not an iterable of baskets", {"r1": ["tea"]}),
        ("the frame has no column of an item", Table()),
        ("Exchanged became no pandas.DataFrame: __dataframe__: TypeError", Exchanged()),
        ("items of the baskets are true or false: .True, False.; a table", Columns()),
        ("items of the baskets are true or false: .True.; a table", [[np.bool_(True)]]),
        ("iterables of hashable items: 'bool'", [True, False]),
        ("items of the baskets are 0 or 1, .* a table of", [[0, 1, 0], [1, 1, 1]]),
        ("items of the baskets are 0 or 1, .* a table of", [[1.0, 1.0], [1.0, 1.0]]),
        ("recarray is not an iterable of baskets", ROWS.dropna().to_records()),
        ("not the row .*tea.* of a table", [*ROWS.dropna().to_records()]),
        ("not the row Pandas.*a table is given", ROWS.dropna().itertuples()),
        ("a path is a str", b"shop.dat"),
        ("open files are not looked at: give form=", io.StringIO("1 2")),
        ("lists, by .agg", ROWS.groupby("receipt")["product"]),
        ("not 'tea'; give the frame, with basket= and item=", ROWS["product"]),
    ],
)
def test_what_is_no_iterable_of_baskets_is_refused(said: str, data: object) -> None:
    refused(said, data)


def test_items_without_a_hash_are_refused() -> None:
    rows = pd.DataFrame({"receipt": [1], "product": [["tea", "jam"]]})
    refused("'product' has values without a hash", rows, **LONG)


@pytest.mark.parametrize("kind", ["object", "string"])
def test_texts_that_pandas_takes_for_the_same_are_refused(kind: str) -> None:
    texts = pd.Series(["tea", "tea\0green"], dtype=kind)
    refused("a zero byte", pd.DataFrame({"receipt": 1, "product": texts}), **LONG)


@pytest.mark.parametrize(
    ("said", "options"),
    [
        ("form= does not go with an iterable", {"form": "fimi"}),
        ("basket= does not go with an iterable", {"basket": "receipt"}),
        ('missing is "refuse" or "drop"', {"missing": "ignore"}),
    ],
)
def test_keywords_that_do_not_fit_are_refused(said: str, options: Any) -> None:
    refused(said, [["tea"]], **options)


@pytest.mark.parametrize(
    ("said", "name", "options"),
    [
        ("ends like CSV: give form=", "shop.csv", {}),
        ("form is fimi, baskets or single", "shop.csv", {"form": "wide"}),
        ("sep is one of comma", "shop.csv", {"form": "single", "sep": "!"}),
        ("header= does not go with a FIMI", "shop.dat", {"header": True}),
        ("header is True or False", "shop.csv", {"form": "single", "header": 0}),
        ("weighted= does not go", "shop.csv", {"form": "single", "weighted": True}),
        ("needs both basket= and item=", "shop.dat", {"item": "product"}),
        ("zero byte", "shop\0.dat", {}),
        ("can't have this character", "\ud800.dat", {}),
    ],
)
def test_words_of_a_path_that_do_not_fit_are_refused(
    said: str, name: str, options: Any
) -> None:
    refused(said, Path(name), **options)


@pytest.mark.parametrize(
    "name", ["s3://shop/receipts.dat", "https://shop.example/receipts.dat", "gs://x"]
)
def test_an_address_is_no_path(name: str) -> None:
    refused(f"{name} is no path of a file: fetch it first", name)


def test_a_home_folder_that_nobody_has_is_a_file_that_is_not_there() -> None:
    with pytest.raises(miner.FileError, match="cannot open ~nobody-has-this/shop"):
        miner.sets("~nobody-has-this/shop", 1)
    with pytest.raises(miner.FileError, match="cannot open n+: File name too long"):
        miner.sets("n" * 5000, 1)


@pytest.mark.parametrize(
    ("call", "kind", "said"),
    [
        (lambda path: miner.sets(path, 1), miner.InputError, "line 1: byte 0x2D"),
        (
            lambda path: miner.sets(path, 1, form="baskets", weighted=True),
            miner.InputError,
            "record 1: bad weight",
        ),
        (lambda _: miner.sets("none.dat", 1), miner.FileError, "cannot open none.dat"),
        (lambda _: miner.sets([["a", "b"]], 1, limit=2), miner.TooManySets, "than 2"),
        (lambda _: miner.sets([["a"]], "1.5"), miner.UsageError, "value for --min"),
        (lambda _: miner.sets([["a"]], "1\0"), miner.UsageError, "a word can't be"),
        (lambda _: miner.sets([["a"]], "\ud800"), miner.UsageError, "a word can't be"),
        (lambda _: miner.sets([["a"]], 1, workers=65), miner.UsageError, "workers"),
    ],
)
def test_what_the_program_refuses_is_its_exception(
    tmp_path: Path, call: Callable[[Path], Any], kind: type[Exception], said: str
) -> None:
    path = tmp_path / "shop.dat"
    path.write_text("-1\n")
    with pytest.raises(kind, match=said):
        call(path)
