"""Minimums and confidences become the program's words."""

import random
from decimal import Decimal
from fractions import Fraction
from pathlib import Path
from typing import Any

import numpy as np
import pandas as pd
import pytest

from basket_miner import DataError, UsageError, baskets, plot, rules, sets
from basket_miner._minimum import (
    confidence_word,
    exact_minimum,
    least_count,
    minimum_of,
    word_of,
)


WEIGHED = pd.DataFrame({"r": range(3), "p": [*"abc"], "w": [4 * 10**9, 123, 55]})


def minimum_word(minimum: Any) -> str:
    return word_of(minimum_of(minimum))


@pytest.mark.parametrize(
    ("given", "word"),
    [
        (0.005, "1/200"),
        (0.1, "1/10"),
        (1e-05, "1/100000"),
        (0.0, "0/1"),
        (1.0, "1/1"),
        (np.float64(0.005), "1/200"),
        (np.float32(0.3), "3/10"),
    ],
)
def test_a_float_is_the_share_that_it_prints(given: float, word: str) -> None:
    assert minimum_word(given) == word
    assert confidence_word(given) == word


def test_an_int_is_a_count_and_a_fraction_a_share() -> None:
    assert minimum_word(3) == "3"
    whole: Any = np.int64(3)
    assert minimum_word(whole) == "3"
    assert minimum_word(Fraction(2, 6)) == "1/3"
    assert minimum_word("5%") == "1/20"


def test_zero_and_one_are_shares_as_a_confidence() -> None:
    wholes: list[Any] = [0, 1, "0", "1"]
    assert [*map(confidence_word, wholes)] == ["0/1", "1/1"] * 2


@pytest.mark.parametrize(
    "given",
    [
        *(True, np.True_, 0, -3, 2**40, 1.5, -0.1, float("nan"), float("inf")),
        *(
            Fraction(5, 4),
            Decimal("1.5"),
            Decimal("nan"),
            None,
            [1],
        ),
    ],
)
def test_other_minimums_are_refused(given: float) -> None:
    with pytest.raises(DataError):
        minimum_word(given)


@pytest.mark.parametrize("given", [True, 2, -1, 1.01, None])
def test_other_confidences_are_refused(given: float) -> None:
    with pytest.raises(DataError):
        confidence_word(given)


def test_a_text_is_a_count_or_a_share_and_a_decimal_means_what_a_float_does() -> None:
    words = ["20", "5%", "0.5%", "1/200", "0.005", "5e-3", "1.0", "0%"]
    wanted = ["20", "1/20", *["1/200"] * 4, "1/1", "0/1"]
    assert [*map(minimum_word, words)] == wanted
    assert confidence_word("62.5%") == confidence_word("0.625") == "5/8"


@pytest.mark.parametrize(
    "text",
    [
        *("-5%", "-1/2", "3/2", "200%", " 5 ", "+2", "1_0%", "5 %", "\u0665%", "1.5"),
        *("0", "1/0", "", "nan", "1e3", ".5", "5%%", "9" * 5000),
    ],
)
def test_other_texts_are_the_programs_to_refuse_also_where_a_total_is_given(
    text: str,
) -> None:
    shop = [["a"], ["a", "b"]] * 3
    for data in (shop, baskets(shop, total=10)):
        with pytest.raises(UsageError, match="value for --min|unexpected argument"):
            sets(data, text)
    with pytest.raises(DataError, match="is no minimum"):
        plot.minimums(shop, [text])


def test_a_share_of_many_digits_is_what_it_prints(tmp_path: Path) -> None:
    path = tmp_path / "shop.dat"
    path.write_text("4000000000x 0\n123x 1\n55x 2\n")
    columns: Any = {"basket": "r", "item": "p", "weight": "w"}
    # Of 4,000,000,178 the least is 49.2.
    shares: list[Any] = [
        1.23e-8,
        Decimal("1.23e-8"),
        "1.23e-8",
        Fraction(123, 10**10),
    ]
    for share in shares:
        for found in (sets(WEIGHED, share, **columns), sets(path, share)):
            assert found["count"].tolist() == [4 * 10**9, 123, 55]
            assert found.attrs["minimum"] == 50
    shop = [["a"], ["b"], ["c"]]
    shares = [0.3333333334, Decimal("0.3333333334"), "33.33333334%"]
    for share in shares:
        assert sets(shop, share).empty
        assert sets(baskets(shop, total=3), share).empty
    assert len(sets(shop, 1 / 3)) == 3


def test_a_confidence_of_many_digits_is_met_by_what_is_not_below_it() -> None:
    shop = [["a", "b"], ["a"], ["a"]]
    above: list[Any] = [
        0.3333333334,
        Fraction(10**10 + 1, 3 * 10**10),
        "33.33333334%",
    ]
    for share in above:
        assert rules(shop, 1, share)["confidence"].tolist() == [1.0]
    below: list[Any] = [0.3333333333, Fraction(10**10 - 1, 3 * 10**10), 1 / 3]
    for share in below:
        assert {*rules(shop, 1, share)["confidence"]} == {1 / 3, 1.0}


def least(minimum: Any, total: int) -> int:
    return least_count(exact_minimum(minimum), total)


def test_a_computed_share_is_met_by_the_count_that_it_was_computed_of() -> None:
    chance = random.Random(7)
    for most in (10, 1000, 10**6, 2**26, 2**40):
        for _ in range(3000):
            total = chance.randint(1, most)
            count = chance.randint(1, total)
            assert least(count / total, total) == count
            assert least(Decimal(count) / total, total) == count
    steps = [least(float(step), 100) for step in np.arange(0.01, 0.1, 0.01)]
    assert steps == [*range(1, 10)]
    heavy = WEIGHED.assign(w=[69_999_996, 3, 2])
    found = sets(heavy, 3 / 70_000_001, basket="r", item="p", weight="w")
    assert found["count"].tolist() == [69_999_996, 3]


def test_a_typed_share_is_exact_however_many_baskets_there_are() -> None:
    chance = random.Random(7)
    for digits in range(1, 12):
        for _ in range(300):
            total, part = chance.randint(2**26, 2**40), chance.randint(
                1, 10**digits
            )
            # Rounded upwards, in whole numbers.
            wanted = -(-part * total // 10**digits)
            for text in (f"{part}e-{digits}", f"{part}/{10**digits}"):
                assert least(text, total) == wanted
            assert least(float(f"{part}e-{digits}"), total) == wanted
            assert least(Decimal(part).scaleb(-digits), total) == wanted


def test_a_computed_confidence_is_met_by_the_rule_that_has_it() -> None:
    # Of 70,000,001 baskets with a three have b.
    shop = pd.DataFrame({"r": [1, 2, 2], "p": ["a", "a", "b"], "w": [69_999_998, 3, 3]})
    found = rules(shop, 1, 3 / 70_000_001, basket="r", item="p", weight="w")
    assert {*found["confidence"]} == {3 / 70_000_001, 1.0}


def test_a_decimal_is_a_share() -> None:
    assert (
        minimum_word(Decimal("0.005")) == confidence_word(Decimal("0.005")) == "1/200"
    )
    assert minimum_word(Decimal(1)) == "1/1"
