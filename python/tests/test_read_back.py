"""Frames that went through a file, a merge or floats of 32 bits are taken as they were before."""

import io
from collections.abc import Callable
from typing import Any

import matplotlib
import numpy as np
import pandas as pd
import pytest
from matplotlib import pyplot
from matplotlib.axes import Axes
from matplotlib.text import Text

from basket_miner import DataError, count, explore, plot, recommend, rules, sets, tidy
from basket_miner._rule_counts import counts_of
from basket_miner.frequent_patterns import apriori, association_rules

BASKETS = [["tea", "milk"], ["tea", "milk", "it's"], ["milk"], ["it's", "milk"]] * 7
matplotlib.use("agg")
RULES = rules(BASKETS, 2, 0.1)
SIDES = ["antecedents", "consequents", "itemsets"]


def as_csv(frame: pd.DataFrame) -> pd.DataFrame:
    return pd.read_csv(io.StringIO(frame.to_csv(index=False)))


def as_csv_of_lists(frame: pd.DataFrame) -> pd.DataFrame:
    sides = [name for name in SIDES if name in frame]
    return as_csv(frame.assign(**{name: frame[name].map(list) for name in sides}))


def as_csv_of_tuples(frame: pd.DataFrame) -> pd.DataFrame:
    sides = [name for name in SIDES if name in frame]
    return as_csv(frame.assign(**{name: frame[name].map(tuple) for name in sides}))


def as_json(frame: pd.DataFrame) -> pd.DataFrame:
    return pd.read_json(io.StringIO(frame.to_json()))


def as_arrays(frame: pd.DataFrame) -> pd.DataFrame:
    """What Parquet gives back: an array for each itemset."""
    sides = [name for name in SIDES if name in frame]
    return frame.assign(**{name: frame[name].map(list).map(np.array) for name in sides})


def as_merged(frame: pd.DataFrame) -> pd.DataFrame:
    other = pd.DataFrame({"row": frame.index, "margin": 1.5})
    return frame.assign(row=frame.index).merge(other).drop(columns=["row", "margin"])


def as_single(frame: pd.DataFrame) -> pd.DataFrame:
    floats = frame.select_dtypes("float64").columns
    return frame.astype({name: "float32" for name in floats})


WAYS = [as_csv, as_csv_of_lists, as_csv_of_tuples, as_json, as_arrays, as_merged]
WAYS += [as_single]


@pytest.mark.parametrize("way", WAYS)
def test_rules_make_the_same_offers_and_pages(
    way: Callable[[pd.DataFrame], pd.DataFrame], tmp_path: Any
) -> None:
    found = way(RULES)
    offers = recommend(found, [["tea"], ["milk"]], exact=True)
    wanted = recommend(RULES, [["tea"], ["milk"]], exact=True)
    pd.testing.assert_frame_equal(offers, wanted)
    pages = [
        explore(frame, tmp_path / "rules.html").read_text() for frame in (found, RULES)
    ]
    assert pages[0] == pages[1]
    pd.testing.assert_frame_equal(tidy(found).iloc[:, :4], tidy(RULES).iloc[:, :4])


@pytest.mark.parametrize("way", WAYS)
def test_itemsets_are_counted_again_and_make_the_same_rules(
    way: Callable[[pd.DataFrame], pd.DataFrame],
) -> None:
    found = sets(BASKETS, 2)
    again = count(BASKETS, way(found)).iloc[1:].reset_index(drop=True)
    pd.testing.assert_frame_equal(again, found, check_names=False)
    table = pd.DataFrame([{name: name in row for name in "abc"} for row in ("ab", "a")])
    itemsets = apriori(table, 0.5, use_colnames=True)
    made = association_rules(way(itemsets), num_itemsets=2, min_threshold=0.5)
    assert {*made["confidence"]} == {0.5, 1.0}


def texts_of(axes: Axes) -> list[str]:
    """The texts of a picture."""
    found: list[str] = [one.get_text() for one in axes.findobj(Text)]
    return found


@pytest.mark.parametrize("way", WAYS)
def test_pictures_have_the_same_texts_and_lines(
    way: Callable[[pd.DataFrame], pd.DataFrame],
) -> None:
    for picture in (plot.rules, plot.strongest):
        assert texts_of(picture(way(RULES))) == texts_of(picture(RULES))
    found = sets(BASKETS, 1)
    drawn_so, wanted = (
        plot.minimums(frame, [1, 7, 14]).get_lines() for frame in (way(found), found)
    )
    assert [[*line.get_ydata()] for line in drawn_so] == [
        [*line.get_ydata()] for line in wanted
    ]
    pyplot.close("all")


def drawn(total: int, kind: Callable[[pd.DataFrame], pd.DataFrame]) -> pd.DataFrame:
    """Rules of random counts, whose figures are rounded by a way of keeping them."""
    chance = np.random.default_rng(total)
    both = np.r_[1, chance.integers(1, total // 2, 500), 1, 1, total // 3]
    left, right = (both + chance.integers(0, total // 2, len(both)) for _ in "lr")
    frame = pd.DataFrame({"count": both, "support": both / total})
    frame["confidence"] = both / left
    frame["lift"] = (both * total) / (left * right)
    return kind(frame).assign(left=left, right=right)


def as_fine_json(frame: pd.DataFrame) -> pd.DataFrame:
    return pd.read_json(io.StringIO(frame.to_json(double_precision=15)))


@pytest.mark.parametrize(
    ("total", "way"),
    [(2**16, as_json), (2**20, as_single), (2**20, as_fine_json)],
)
def test_counts_are_told_by_rounded_figures_up_to_a_total(
    total: int, way: Callable[[pd.DataFrame], pd.DataFrame]
) -> None:
    found = drawn(total, way)
    counts = counts_of(found)
    assert counts.total == total
    assert counts.left.tolist() == found["left"].tolist()
    assert counts.right.tolist() == found["right"].tolist()
    with pytest.raises(DataError, match="not those of one number of baskets"):
        counts_of(drawn(total + 1, way))


def test_rules_without_counts_say_how_to_add_them(tmp_path: Any) -> None:
    itemsets = apriori(pd.DataFrame({"a": [1, 1, 0], "b": [1, 0, 1]}), 0.3)
    found = as_csv(association_rules(itemsets, min_threshold=0.1))
    with pytest.raises(DataError, match=r'rules\["count"\] = .*"support"\] \* n'):
        explore(found, tmp_path / "rules.html")
    found["count"] = (found["support"] * 3).round()
    assert explore(found, tmp_path / "rules.html").exists()


def test_figures_that_were_rounded_say_what_to_give(tmp_path: Any) -> None:
    table = pd.DataFrame({"a": [1, 1, 0], "b": [1, 0, 1]})
    itemsets = apriori(table, 0.3).round(3)
    rounded = rules([["tea", "milk", "jam"], ["tea"], ["milk"]], 1, 0.1).round(3)
    calls: list[Callable[[], Any]] = [
        lambda: recommend(rounded, [["tea"]]),
        lambda: explore(rounded, tmp_path / "rules.html"),
        lambda: association_rules(itemsets),
        lambda: association_rules(itemsets, num_itemsets=3),
    ]
    for call in calls:
        with pytest.raises(
            DataError, match=r"rounded, as by \.round\(3\), give the fr"
        ):
            call()


@pytest.mark.parametrize(
    "side",
    [
        *["milk", "frozenset({Timestamp(1)})", "[milk]", "['milk' 'tea']", "('milk')"],
        *["7", "{}", "(7)", None, 7, b"milk", {"milk": 1}],
    ],
    ids=str,
)
def test_what_is_no_side_of_a_rule_is_refused(side: Any) -> None:
    sides = pd.Series([side] * len(RULES), RULES.index, dtype=object)
    found = RULES.assign(antecedents=sides)
    with pytest.raises(DataError, match="'antecedents' has itemsets as frozensets"):
        tidy(found)
    with pytest.raises(DataError, match="'antecedents' has itemsets as frozensets"):
        recommend(found, [["tea"]])
