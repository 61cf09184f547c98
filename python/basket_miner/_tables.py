"""Tables of other packages as data frames."""

from typing import Any

import pandas as pd
from pandas.api.interchange import from_dataframe

from ._errors import DataError

# By these names: Polars, Arrow and others; DuckDB.
_CONVERSIONS = ("to_pandas", "to_df")


def is_table(data: Any) -> bool:
    """Whether something is a table of another package: it says how it becomes a data frame."""
    return not isinstance(data, (type, pd.DataFrame, pd.Series, pd.Index)) and any(
        callable(getattr(data, name, None)) for name in (*_CONVERSIONS, "__dataframe__")
    )


def frame_of(table: Any) -> Any:
    """A table as a data frame; a column of lists, as Polars and Arrow have them, as a series.

    Raises:
        DataError: its package can't make a data frame of it, or makes something else.
    """
    name, faults = type(table).__name__, []
    for conversion in (*_CONVERSIONS, "__dataframe__"):
        if not callable(convert := getattr(table, conversion, None)):
            continue
        try:
            is_exchange = conversion == "__dataframe__"
            found = from_dataframe(table) if is_exchange else convert()
        except Exception as fault:
            faults.append(f"{conversion}: {type(fault).__name__}: {fault}")
            continue
        if isinstance(found, (pd.DataFrame, pd.Series)):
            return found
        faults.append(f"{conversion}: returns {type(found).__name__}")
    raise DataError(f"{name} became no pandas.DataFrame: {'; '.join(faults)}")
