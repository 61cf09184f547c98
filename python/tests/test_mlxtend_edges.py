"""The calls of mlxtend at their edges: time, very many rules, odd labels and numbers that are no floats."""

import functools
import inspect
import math
import pydoc
from collections.abc import Callable
from decimal import Decimal
from fractions import Fraction
from pathlib import Path
from typing import Any

import numpy as np
import pandas as pd
import pytest

from basket_miner import DataError, _mlxtend
from basket_miner.frequent_patterns import (
    apriori,
    association_rules,
    fpgrowth,
    fpmax,
    hmine,
)
from test_frequent_patterns import BY_NAME, BY_PLACE, FRAME, pairs
from test_program import SECONDS, ended_at_its_timeout, stand_in

ITEMSETS = apriori(FRAME, min_support=0.6)
CALLS: list[tuple[Callable[..., pd.DataFrame], Any, dict[str, Any]]] = [
    (apriori, FRAME, {}),
    (apriori, FRAME, {"max_len": 2}),
    (fpgrowth, FRAME, {}),
    (hmine, FRAME, {}),
    (fpmax, FRAME, {}),
    (association_rules, ITEMSETS, {}),
]


@pytest.mark.parametrize(("call", "given", "words"), CALLS)
def test_a_call_ends_at_its_timeout(
    call: Callable[..., pd.DataFrame],
    given: pd.DataFrame,
    words: dict[str, Any],
    monkeypatch: pytest.MonkeyPatch,
    tmp_path: Path,
) -> None:
    parameter = inspect.signature(call).parameters["timeout"]
    assert (parameter.kind, parameter.default) == (parameter.KEYWORD_ONLY, None)
    said = (
        "`timeout`: after so many seconds the program is ended, and `TimedOut` raised."
    )
    assert said in " ".join(pydoc.plain(pydoc.render_doc(call)).split())
    wanted = call(given, **words)
    pd.testing.assert_frame_equal(call(given, timeout=SECONDS, **words), wanted)
    for wrong in (0, math.inf, "1", True):
        with pytest.raises(DataError, match="timeout is a number of seconds above 0"):
            call(given, timeout=wrong, **words)
    stand_in(monkeypatch, tmp_path, f"echo $$ > {tmp_path}/id; exec sleep 600")
    slow = functools.partial(call, given, **words)
    ended_at_its_timeout(slow, "basket ", tmp_path / "id")


def test_support_only_refuses_more_rules_than_memory_takes(
    monkeypatch: pytest.MonkeyPatch,
) -> None:
    itemsets = pd.DataFrame(
        {"itemsets": [frozenset(range(40)), frozenset("ab")], "support": [0.2, 0.5]}
    )
    said = f"have {2**40} rules, and support_only=True lists at most 5000000: raise min"
    with pytest.raises(DataError, match=said):
        association_rules(itemsets, support_only=True, min_threshold=0.2)
    found = association_rules(itemsets, support_only=True, min_threshold=0.3)
    assert found["antecedents"].tolist() in ([{"a"}, {"b"}], [{"b"}, {"a"}])
    three = pd.DataFrame({"itemsets": ["abc", "d", ""], "support": 0.5})
    three["itemsets"] = three["itemsets"].map(frozenset)
    for most, is_enough in ((6, True), (5, False)):
        monkeypatch.setattr(_mlxtend, "_MOST_RULES", most)
        try:
            found = association_rules(three, support_only=True, min_threshold=0.5)
        except DataError as fault:
            assert not is_enough and "have 6 rules" in str(fault)
        else:
            assert is_enough and len(found) == 6


@pytest.mark.parametrize("label", ["milk", np.nan, None])
def test_labels_that_no_answer_has_may_be_missing_and_stand_twice(label: Any) -> None:
    frame = FRAME.set_axis([label] * len(FRAME.columns), axis="columns")
    assert pairs(apriori(frame, min_support=0.6)) == BY_PLACE
    assert pairs(apriori(frame, min_support=0.6, max_len=1)) == BY_PLACE[:5]
    with pytest.raises(DataError, match="stands twice|has no label"):
        apriori(frame, min_support=0.6, use_colnames=True)


def test_labels_of_several_levels_are_told_by_their_places_too() -> None:
    names = pd.MultiIndex.from_product([["food"], FRAME.columns])
    frame = FRAME.set_axis(names, axis="columns")
    assert pairs(apriori(frame, min_support=0.6)) == BY_PLACE
    assert pairs(apriori(frame, min_support=0.6, use_colnames=True)) == [
        (support, {("food", name) for name in itemset}) for support, itemset in BY_NAME
    ]


def test_a_fraction_and_a_decimal_are_met_by_the_float_that_they_are_near() -> None:
    # The float 0.3 is less than 3/10.
    rows = pd.DataFrame({"a": [1] * 3 + [0] * 7, "b": [1] * 3 + [0] * 7})
    itemsets = apriori(rows, Fraction(3, 10))  # type: ignore[arg-type]
    assert pairs(itemsets) == [(0.3, {0}), (0.3, {1}), (0.3, {0, 1})]
    thresholds: list[Any] = [Fraction(3, 10), Decimal("0.3"), 0.3]
    for threshold in thresholds:
        for support_only in (False, True):
            found = association_rules(
                itemsets,
                metric="support",
                min_threshold=threshold,
                support_only=support_only,
            )
            assert found["support"].tolist() == [0.3, 0.3]


@pytest.mark.parametrize(
    ("said", "values"),
    [
        ("'support' has values that are no numbers: .*'half'", "half"),
        ("'support' has values that are no numbers", pd.Timestamp(0)),
        ("the supports are no shares of 5 baskets", math.inf),
        ("the supports are no shares of 5 baskets", 1.2),
        (
            "the supports are no shares of 5 baskets",
            ITEMSETS["support"].astype("Float64").where(ITEMSETS.index > 0),
        ),
    ],
)
def test_supports_that_are_no_shares_are_refused(said: str, values: Any) -> None:
    with pytest.raises(DataError, match=said):
        association_rules(ITEMSETS.assign(support=values))


@pytest.mark.parametrize("given", [None, [0.5], {"support": [0.5]}, ITEMSETS.support])
def test_what_is_no_frame_of_itemsets_is_refused(given: Any) -> None:
    for support_only in (False, True):
        with pytest.raises(DataError, match="itemsets are a pandas.DataFrame, not "):
            association_rules(given, support_only=support_only)
