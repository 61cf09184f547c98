"""What the calls of mlxtend take beside a frame: thresholds, metrics and missing values."""

import math
import numbers
from collections.abc import Iterable
from decimal import Decimal

import pandas as pd

from ._errors import DataError
from ._measures import MEASURES


def figures_of(metrics: str | Iterable[str] | None) -> list[str]:
    """The figures that are asked for by their names, or by the name of one; without any, all."""
    if isinstance(metrics, str):
        return [metrics]
    if metrics is not None and not isinstance(metrics, Iterable):
        raise DataError(f"return_metrics are names of measures, not {metrics!r}")
    return [*MEASURES] if metrics is None else [*metrics]


def threshold_of(given: float) -> float:
    """A threshold as the float that figures are compared with, or `DataError` where it is no number."""
    is_number = isinstance(given, (numbers.Real, Decimal))
    if not is_number or math.isnan(given):
        raise DataError(f"min_threshold is a number, not {given!r}")
    return float(given)


def refuse_metrics(metrics: Iterable[str]) -> None:
    for metric in metrics:
        if metric not in MEASURES:
            raise DataError(f"metric {metric!r} is none of {', '.join(MEASURES)}")


def refuse_nulls(null_values: bool, df: pd.DataFrame | None) -> None:
    """`DataError` where missing values shall count as unknown, unless there are none."""
    if not null_values:
        return
    if not isinstance(df, pd.DataFrame) or df.isna().any(axis=None):
        raise DataError(
            "null_values=True is here for frames without missing values alone, for rules in "
            "df_orig=; give df.fillna(False) instead, which counts what is missing as not there"
        )
