"""The measures of rules are those of their definitions, to the last digit."""

import itertools
import math
import random
from fractions import Fraction

import numpy as np
import pytest

from basket_miner._measures import least_confidence, measures


def by_definition(
    left: Fraction, right: Fraction, both: Fraction
) -> dict[str, Fraction | float]:
    """The measures of a rule by the supports of its sides and of both."""
    confidence, leverage = both / left, both - left * right
    larger = max(both * (1 - left), left * (right - both))
    return {
        "antecedent support": left,
        "consequent support": right,
        "support": both,
        "confidence": confidence,
        "lift": confidence / right,
        "representativity": 1.0,
        "leverage": leverage,
        "conviction": (math.inf if confidence == 1 else (1 - right) / (1 - confidence)),
        "zhangs_metric": leverage / larger if larger else 0.0,
        "jaccard": both / (left + right - both),
        "certainty": (confidence - right) / (1 - right) if right < 1 else 0.0,
        "kulczynski": (confidence + both / right) / 2,
    }


@pytest.mark.parametrize("most", [3, 50, 2**26 - 1, 2**26, 2**40])
def test_a_measure_is_the_float_nearest_to_its_exact_value(most: int) -> None:
    chance = random.Random(most)
    for _ in range(200):
        total = chance.randint(max(most - 9, 1), most)
        left, right = chance.randint(1, total), chance.randint(1, total)
        both = chance.randint(max(left + right - total, 1), min(left, right))
        found = measures(np.array([both]), np.array([left]), np.array([right]), total)
        exact = by_definition(*(Fraction(n, total) for n in (left, right, both)))
        assert {name: values[0] for name, values in found.items()} == {
            name: float(value) for name, value in exact.items()
        }


def test_no_rule_that_meets_a_threshold_has_less_than_the_least_confidence() -> None:
    for total in range(1, 8):
        for left, right, both in itertools.product(range(1, total + 1), repeat=3):
            if not left + right - total <= both <= min(left, right):
                continue
            supports = [Fraction(count, total) for count in (left, right, both)]
            shares = [min(supports), min(supports) / 9]
            for metric, value in by_definition(*supports).items():
                threshold = Fraction(min(float(10**9), value))
                for share in shares:
                    least = least_confidence(metric, threshold, share)
                    assert 0 <= least <= Fraction(both, left), (metric, supports)
    assert least_confidence("jaccard", Fraction(3, 4), Fraction(1, 9)) == 0.75
    assert least_confidence("conviction", Fraction(3), Fraction(1, 4)) == 0.75
