"""Frames with a row for each item."""

import pandas as pd

from ._columns import labels_column
from ._errors import DataError
from ._given_sets import demand_frame, itemsets_of
from ._numbering import by_text

_SIDES = {"antecedents": "antecedent", "consequents": "consequent"}


def tidy(frame: pd.DataFrame) -> pd.DataFrame:
    """A frame of itemsets or of rules with a row for each item, as CSV, SQL and Arrow can have it.

    Of itemsets the columns are `set` (the label of the itemset's row) and `item`, of rules `rule`,
    `side` ("antecedent" or "consequent") and `item`; then come the figures of the frame, again for
    each item. The items of a set stand together, in the order of their texts. Raises `DataError`
    where the frame has no itemsets and no sides.
    """
    demand_frame(frame, "itemsets or rules")
    is_sets = "itemsets" in frame.columns
    sides = {"itemsets": ""} if is_sets else _SIDES
    columns = [itemsets_of(frame, name) for name in sides]
    made = ["set", "item"] if is_sets else ["rule", "side", "item"]
    if taken := [name for name in made if name in frame.columns]:
        raise DataError(f"the frame has a column {taken[0]!r} already: rename it")
    rows = [
        (row, side, item)
        for row, *itemsets in zip(range(len(frame)), *columns)
        for side, itemset in zip(sides.values(), itemsets)
        for item in by_text(itemset)
    ]
    places = [row for row, _, _ in rows]
    items = [item for _, _, item in rows]
    found = frame.drop(columns=[*sides]).iloc[places].reset_index(drop=True)
    found.insert(0, "item", labels_column(items))
    if not is_sets:
        found.insert(0, "side", labels_column([side for _, side, _ in rows]))
    found.insert(0, made[0], frame.index[places])
    return found
