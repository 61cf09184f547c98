"""The calls of mlxtend answer as its documentation shows.

The examples are those of the user guide's pages `apriori`, `fpgrowth`, `fpmax` and
`association_rules`, https://rasbt.github.io/mlxtend/user_guide/frequent_patterns/, typed here with
what they print. The measures from leverage on were worked out by hand from their definitions.
"""

import itertools
import math
import random
from collections.abc import Callable
from typing import Any

import brute
import pandas as pd
import pytest

from basket_miner import DataError
from basket_miner.frequent_patterns import (
    apriori,
    association_rules,
    fpgrowth,
    fpmax,
    hmine,
)

DATASET = [
    ["Milk", "Onion", "Nutmeg", "Kidney Beans", "Eggs", "Yogurt"],
    ["Dill", "Onion", "Nutmeg", "Kidney Beans", "Eggs", "Yogurt"],
    ["Milk", "Apple", "Kidney Beans", "Eggs"],
    ["Milk", "Unicorn", "Corn", "Kidney Beans", "Yogurt"],
    ["Corn", "Onion", "Onion", "Kidney Beans", "Ice cream", "Eggs"],
]
COLUMNS = sorted({*itertools.chain.from_iterable(DATASET)})
FRAME = pd.DataFrame([[name in row for name in COLUMNS] for row in DATASET])
FRAME.columns = pd.Index(COLUMNS)

ONE = pd.DataFrame({"itemsets": [["a"]], "support": [1.0]})
GAPS = FRAME.astype(object).where(FRAME)

# `apriori(df, min_support=0.6)` and the same with `use_colnames=True`.
BY_PLACE: list[tuple[float, set[Any]]] = [
    *[(0.8, {3}), (1.0, {5}), (0.6, {6}), (0.6, {8}), (0.6, {10}), (0.8, {3, 5})],
    *[(0.6, {8, 3}), (0.6, {5, 6}), (0.6, {8, 5}), (0.6, {10, 5}), (0.6, {8, 3, 5})],
]
BY_NAME: list[tuple[float, set[Any]]] = [
    *[(0.8, {"Eggs"}), (1.0, {"Kidney Beans"}), (0.6, {"Milk"}), (0.6, {"Onion"})],
    *[(0.6, {"Yogurt"}), (0.8, {"Kidney Beans", "Eggs"}), (0.6, {"Onion", "Eggs"})],
    *[(0.6, {"Milk", "Kidney Beans"}), (0.6, {"Onion", "Kidney Beans"})],
    *[(0.6, {"Yogurt", "Kidney Beans"}), (0.6, {"Onion", "Kidney Beans", "Eggs"})],
]
# `fpmax(df, min_support=0.6, use_colnames=True)`.
LARGEST: list[tuple[float, set[Any]]] = [
    *[(0.6, {"Milk", "Kidney Beans"}), (0.6, {"Yogurt", "Kidney Beans"})],
    (0.6, {"Eggs", "Kidney Beans", "Onion"}),
]
# `association_rules(frequent_itemsets, metric="confidence", min_threshold=0.7)`: both sides, the
# supports of antecedents, consequents and both, confidence and lift.
RULES: list[tuple[str, str, float, float, float, float, float]] = [
    ("Kidney Beans", "Eggs", 1.0, 0.8, 0.8, 0.80, 1.00),
    ("Eggs", "Kidney Beans", 0.8, 1.0, 0.8, 1.00, 1.00),
    ("Eggs", "Onion", 0.8, 0.6, 0.6, 0.75, 1.25),
    ("Onion", "Eggs", 0.6, 0.8, 0.6, 1.00, 1.25),
    ("Milk", "Kidney Beans", 0.6, 1.0, 0.6, 1.00, 1.00),
    ("Onion", "Kidney Beans", 0.6, 1.0, 0.6, 1.00, 1.00),
    ("Yogurt", "Kidney Beans", 0.6, 1.0, 0.6, 1.00, 1.00),
    ("Eggs,Onion", "Kidney Beans", 0.6, 1.0, 0.6, 1.00, 1.00),
    ("Eggs,Kidney Beans", "Onion", 0.8, 0.6, 0.6, 0.75, 1.25),
    ("Kidney Beans,Onion", "Eggs", 0.6, 0.8, 0.6, 1.00, 1.25),
    ("Eggs", "Kidney Beans,Onion", 0.8, 0.6, 0.6, 0.75, 1.25),
    ("Onion", "Eggs,Kidney Beans", 0.6, 0.8, 0.6, 1.00, 1.25),
]
NAMES = ["antecedent support", "consequent support", "support", "confidence", "lift"]
MORE = ["representativity", "leverage", "conviction", "zhangs_metric", "jaccard"]
MORE += ["certainty", "kulczynski"]
# The further measures of a rule, by the counts of its antecedents, consequents and both of five.
OTHERS: dict[tuple[int, int, int], tuple[float, ...]] = {
    (5, 4, 4): (1.0, 0.0, 1.0, 0.0, 0.8, 0.0, 0.9),
    (4, 5, 4): (1.0, 0.0, math.inf, 0.0, 0.8, 0.0, 0.9),
    (4, 3, 3): (1.0, 0.12, 1.6, 1.0, 0.75, 0.375, 0.875),
    (3, 4, 3): (1.0, 0.12, math.inf, 0.5, 0.75, 1.0, 0.875),
    (3, 5, 3): (1.0, 0.0, math.inf, 0.0, 0.6, 0.0, 0.8),
}


def pairs(frame: pd.DataFrame) -> list[tuple[float, set[Any]]]:
    return list(zip(frame["support"], frame["itemsets"]))


def sides_and_figures(frame: pd.DataFrame) -> dict[Any, Any]:
    sides = zip(frame["antecedents"], frame["consequents"])
    return dict(zip(sides, frame[NAMES].itertuples(index=False, name=None)))


def documented(least_lift: float = 0.0) -> dict[Any, Any]:
    return {
        (frozenset(left.split(",")), frozenset(right.split(","))): tuple(figures)
        for left, right, *figures in RULES
        if figures[-1] >= least_lift
    }


def test_apriori_answers_the_documented_frame() -> None:
    found = apriori(FRAME, min_support=0.6)
    assert list(found.columns) == ["support", "itemsets"]
    assert pairs(found) == BY_PLACE
    assert pairs(apriori(FRAME, min_support=0.6, use_colnames=True)) == BY_NAME
    assert pairs(apriori(FRAME.astype(int), 0.6, True, low_memory=True)) == BY_NAME


def test_fpgrowth_answers_the_same_itemsets_and_fpmax_the_largest() -> None:
    assert pairs(fpgrowth(FRAME, min_support=0.6, use_colnames=True)) == BY_NAME
    assert pairs(hmine(FRAME, min_support=0.6, use_colnames=True)) == BY_NAME
    found = fpmax(FRAME, min_support=0.6, use_colnames=True)
    assert pairs(found) == LARGEST


@pytest.mark.parametrize("most", [1, 2, 3, 9])
def test_longer_itemsets_than_max_len_are_left_out(most: int) -> None:
    wanted = [pair for pair in BY_NAME if len(pair[1]) <= most]
    calls: list[Callable[..., pd.DataFrame]] = [apriori, fpgrowth, hmine]
    for call in calls:
        found = call(FRAME, min_support=0.6, use_colnames=True, max_len=most)
        assert pairs(found) == wanted
    found = fpmax(FRAME, min_support=0.6, use_colnames=True, max_len=most)
    assert pairs(found) == [pair for pair in LARGEST if len(pair[1]) <= most]


@pytest.mark.parametrize("metric", [*NAMES, *MORE])
def test_each_measure_can_be_the_metric(metric: str) -> None:
    itemsets = apriori(FRAME, min_support=0.6, use_colnames=True)
    found = association_rules(itemsets, metric=metric, min_threshold=-9)
    assert len(found) == 16
    for threshold in {*found[metric]}:
        least = association_rules(itemsets, metric=metric, min_threshold=threshold)
        wanted = found[found[metric] >= threshold].reset_index(drop=True)
        pd.testing.assert_frame_equal(least, wanted)


def shop(seed: int, most: int) -> pd.DataFrame:
    """Rows of true and false of some items, of which some are rare."""
    chance = random.Random(seed)
    rows = [
        [chance.random() < 0.9 / (item + 1) for item in range(7)] for _ in range(most)
    ]
    return pd.DataFrame(rows, columns=[*"abcdefg"])


@pytest.mark.parametrize("metric", [*NAMES, *MORE])
@pytest.mark.parametrize("seed", [1, 2])
def test_the_rules_at_a_threshold_are_those_of_all_that_meet_it(
    metric: str, seed: int
) -> None:
    itemsets = apriori(shop(seed, 40), min_support=0.05, use_colnames=True)
    found = association_rules(itemsets, metric=metric, min_threshold=-math.inf)
    assert len(found) > 50
    values = sorted({*found[metric]})
    for value in [*values[:: max(len(values) // 4, 1)], values[-1]]:
        for threshold in (value, math.nextafter(value, math.inf)):
            least = association_rules(itemsets, metric=metric, min_threshold=threshold)
            wanted = found[found[metric] >= threshold].reset_index(drop=True)
            pd.testing.assert_frame_equal(least, wanted, check_exact=True)
    assert len(association_rules(itemsets, metric=metric, min_threshold=1e300)) == (
        sum(found[metric] == math.inf)
    )


@pytest.mark.parametrize("metric", [*NAMES, *MORE])
def test_very_many_baskets_have_the_rules_of_few_with_the_same_supports(
    metric: str,
) -> None:
    itemsets = apriori(shop(3, 32), min_support=0.1, use_colnames=True)
    itemsets.attrs.clear()
    few, many = (
        association_rules(itemsets, number, metric=metric, min_threshold=0.25)
        for number in (32, 2**40 - 32)
    )
    pd.testing.assert_frame_equal(few, many, check_exact=True)


@pytest.mark.parametrize("metric", ["confidence", "support", "lift"])
def test_no_figure_lies_above_an_infinite_threshold(metric: str) -> None:
    itemsets = apriori(FRAME, min_support=0.6)
    for threshold, length in ((math.inf, 0), (-math.inf, 16)):
        found = association_rules(itemsets, metric=metric, min_threshold=threshold)
        assert len(found) == length
    assert [*association_rules(itemsets, return_metrics="lift")][2:] == ["lift"]


def test_supports_of_32_bits_are_taken_as_far_as_they_tell_counts() -> None:
    itemsets = apriori(FRAME, min_support=0.6, use_colnames=True)
    wanted = association_rules(itemsets)
    single = itemsets.assign(support=itemsets["support"].astype("float32"))
    pd.testing.assert_frame_equal(association_rules(single), wanted)
    single.attrs.clear()
    found = association_rules(single, num_itemsets=5)
    pd.testing.assert_frame_equal(found, wanted)
    with pytest.raises(DataError, match="no shares of 5000000"):
        association_rules(single, num_itemsets=5_000_000)


def test_support_only_needs_no_parts_of_the_itemsets_and_no_number_of_rows() -> None:
    itemsets = pd.DataFrame(
        {"itemsets": [["a", "b", "c"], ["c", "d"]], "support": [0.253623, 0.108696]}
    )
    found = association_rules(itemsets, support_only=True, min_threshold=0.2)
    assert list(found.columns) == ["antecedents", "consequents", *NAMES, *MORE]
    sides = zip(found["antecedents"], found["consequents"])
    assert {
        ("".join(sorted(left)), "".join(sorted(right))) for left, right in sides
    } == {
        *[("a", "bc"), ("b", "ac"), ("c", "ab"), ("bc", "a"), ("ac", "b"), ("ab", "c")]
    }
    assert found["support"].tolist() == [0.253623] * 6
    assert found.drop(columns="support").iloc[:, 2:].isna().all(axis=None)
    found = association_rules(
        itemsets, support_only=True, min_threshold=0.1, return_metrics=["support"]
    )
    assert len(found) == 8
    assert list(found.columns) == ["antecedents", "consequents", "support"]
    found = association_rules(itemsets, support_only=True)
    assert found.empty and found["support"].dtype == "float64"


def test_null_values_change_nothing_where_no_value_is_missing() -> None:
    itemsets = fpgrowth(FRAME, min_support=0.6, null_values=True, use_colnames=True)
    assert pairs(itemsets) == BY_NAME
    wanted = association_rules(itemsets)
    for nulls in (False, True):
        found = association_rules(
            itemsets, len(FRAME), df_orig=FRAME, null_values=nulls
        )
        pd.testing.assert_frame_equal(found, wanted)


def test_the_number_of_rows_is_known_to_a_frame_from_here() -> None:
    itemsets = apriori(FRAME, min_support=0.6)
    wanted = association_rules(itemsets)
    for number in (None, 1, len(itemsets)):
        found = association_rules(itemsets, num_itemsets=number)
        pd.testing.assert_frame_equal(found, wanted)


def test_association_rules_answers_the_documented_frame() -> None:
    itemsets = apriori(FRAME, min_support=0.6, use_colnames=True)
    found = association_rules(itemsets, metric="confidence", min_threshold=0.7)
    assert list(found.columns) == ["antecedents", "consequents", *NAMES, *MORE]
    assert sides_and_figures(found) == documented()
    for rule in found.itertuples(index=False, name=None):
        left, right, both = (round(5 * support) for support in rule[2:5])
        assert rule[7:] == OTHERS[left, right, both]
    found = association_rules(itemsets, metric="lift", min_threshold=1.2)
    assert sides_and_figures(found) == documented(1.2)
    found = association_rules(itemsets, metric="support", min_threshold=0.8)
    eggs, beans = frozenset(["Eggs"]), frozenset(["Kidney Beans"])
    assert [*sides_and_figures(found)] == [(beans, eggs), (eggs, beans)]
    found = association_rules(itemsets, return_metrics=["lift", "support"])
    assert list(found.columns) == ["antecedents", "consequents", "lift", "support"]


def test_a_frame_of_mlxtend_needs_the_number_of_its_rows() -> None:
    itemsets = pd.DataFrame(BY_NAME, columns=["support", "itemsets"])
    itemsets["itemsets"] = itemsets["itemsets"].map(list)
    with pytest.raises(DataError, match="give num_itemsets="):
        association_rules(itemsets, min_threshold=0.7)
    found = association_rules(itemsets, num_itemsets=5, min_threshold=0.7)
    assert sides_and_figures(found) == documented()
    with pytest.raises(DataError, match="no shares of 4"):
        association_rules(itemsets, num_itemsets=4)
    with pytest.raises(DataError, match="an itemset twice"):
        association_rules(pd.concat([itemsets, itemsets[:1]]), num_itemsets=5)


def test_rows_without_an_item_are_baskets_as_in_mlxtend() -> None:
    rows = pd.DataFrame({"a": [1, 1, 0, 0], "b": [1, 0, 0, 0]}, dtype=bool)
    found = apriori(rows, min_support=0.25, use_colnames=True)
    assert pairs(found) == [(0.5, {"a"}), (0.25, {"b"}), (0.25, {"a", "b"})]
    rules = association_rules(found, metric="lift", min_threshold=0)
    assert rules["lift"].tolist() == [2.0, 2.0]


@pytest.mark.parametrize("top", range(1, 7))
def test_a_support_meets_a_minimum_as_a_float(top: int) -> None:
    rows = pd.DataFrame({"a": [True] * top + [False] * (6 - top)})
    assert len(apriori(rows, min_support=top / 6)) == 1
    assert len(apriori(rows, min_support=min(top / 6 + 1e-15, 1))) == (top == 6)


@pytest.mark.parametrize("metric", ["support", "confidence", "lift"])
def test_rules_at_a_threshold_are_those_of_brute_force(metric: str) -> None:
    chance = random.Random(5)
    baskets = [chance.sample("abcdef", chance.randint(1, 4)) for _ in range(42)]
    rows = pd.DataFrame([[item in basket for item in "abcdef"] for basket in baskets])
    rows.columns = pd.Index([*"abcdef"])
    found = association_rules(
        apriori(rows, 1 / 42, use_colnames=True), metric=metric, min_threshold=2 / 3
    )
    expected = {}
    for sides, (count, confidence, lift) in brute.rules(baskets, 1, 0).items():  # type: ignore[arg-type]
        figures = {"support": count / 42, "confidence": float(confidence)}
        figures["lift"] = float(lift)
        if figures[metric] >= 2 / 3:
            expected[sides] = tuple(figures.values())
    assert {
        sides: figures[2:] for sides, figures in sides_and_figures(found).items()
    } == expected


@pytest.mark.parametrize(
    ("said", "call"),
    [
        ("from 1 on, not 0", lambda: apriori(FRAME, max_len=0)),
        ("from 1 on, not '2'", lambda: hmine(FRAME, max_len="2")),  # type: ignore[arg-type]
        ("give df.fillna.False. instead", lambda: fpgrowth(GAPS, null_values=True)),
        ("without missing values", lambda: fpmax(GAPS, null_values=True)),
        (
            "without missing values",
            lambda: association_rules(apriori(FRAME), 5, GAPS, null_values=True),
        ),
        (
            "without missing values",
            lambda: association_rules(apriori(FRAME), null_values=True),
        ),
        ("above 0 and at most 1", lambda: apriori(FRAME, min_support=0.0)),
        ("pandas.DataFrame is needed", lambda: fpmax(DATASET)),
        ("values other than 0 and 1", lambda: apriori(FRAME.astype(int) * 2)),
        (
            "metric 'cosine' is none of",
            lambda: association_rules(FRAME, metric="cosine"),
        ),
        (
            "return_metrics are names of measures, not 5",
            lambda: association_rules(FRAME, return_metrics=5),  # type: ignore[arg-type]
        ),
        (
            "metric 'cosine' is none of",
            lambda: association_rules(FRAME, return_metrics=["cosine"]),
        ),
        ("no column", lambda: association_rules(FRAME, support_only=True)),
        ("no column", lambda: association_rules(FRAME, 5)),
        (
            "by name",
            lambda: association_rules(apriori(FRAME), "confidence"),  # type: ignore[arg-type]
        ),
        (
            "by name",
            lambda: association_rules(apriori(FRAME), "lift", 1),  # type: ignore[arg-type]
        ),
        ("at most 1: '50%'", lambda: apriori(FRAME, "50%")),  # type: ignore[arg-type]
        ("at most 1: nan", lambda: apriori(FRAME, float("nan"))),
        ("not of fpmax", lambda: association_rules(fpmax(FRAME))),
        (
            "threshold is a number, not '0.8'",
            lambda: association_rules(apriori(FRAME), min_threshold="0.8"),  # type: ignore[arg-type]
        ),
        (
            "threshold is a number, not None",
            lambda: association_rules(apriori(FRAME), min_threshold=None),  # type: ignore[arg-type]
        ),
        (
            "threshold is a number, not nan",
            lambda: association_rules(apriori(FRAME), min_threshold=math.nan),
        ),
        ("rows from 1 to .*, not 0", lambda: association_rules(ONE, 0)),
        ("rows from 1 to .*, not 2199", lambda: association_rules(ONE, 2**41)),
        ("a support is above 0", lambda: association_rules(ONE.assign(support=0.0), 5)),
    ],
)
def test_what_does_not_fit_is_refused_with_what_to_do(said: str, call: Any) -> None:
    with pytest.raises(DataError, match=said):
        call()


def test_advice_names_no_argument_that_these_calls_lack() -> None:
    gap, two = FRAME.astype(object), FRAME.astype(int)
    gap.iloc[0, 0], two.iloc[0, 0] = None, 2
    name = FRAME.columns[0]
    calls: list[Callable[[pd.DataFrame], pd.DataFrame]] = [apriori, fpgrowth, fpmax]
    for call in calls:
        with pytest.raises(DataError) as caught:
            call(gap)
        assert str(caught.value) == (
            f"column {name!r} has missing values, 1 of them; fill them with False first"
        )
        with pytest.raises(DataError) as caught:
            call(two)
        assert str(caught.value) == (
            f"column {name!r} has values other than 0 and 1, false and true"
        )
