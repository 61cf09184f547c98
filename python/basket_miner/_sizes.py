"""How many itemsets of each size there are at several minimums."""

from fractions import Fraction

import numpy as np
import pandas as pd

from ._errors import DataError
from ._frames import floats_of
from ._given_sets import itemsets_of
from ._minimum import least_count


def counts_by_size(
    frame: pd.DataFrame, minimums: list[int | Fraction], most: int
) -> dict[str, list[int]]:
    """At each minimum the number of sets: those of each size, of `most` and above, and all."""
    counts, supports = (floats_of(frame, name) for name in ("count", "support"))
    # A support is the float nearest to a count over the total, which it gives back by rounding.
    total = round(counts[0] / supports[0]) if len(frame) else 0
    least = [least_count(minimum, total) for minimum in minimums]
    known = frame.attrs.get("minimum", 0)
    if len(frame) and least[0] < known:
        raise DataError(
            f"the frame has the itemsets that are in {known} baskets or more, and a minimum of {least[0]} is asked"
        )
    sizes = np.array([*map(len, itemsets_of(frame, "itemsets"))], dtype=int)
    lines = {
        str(size): sizes == size
        for size in range(1, min(sizes.max(initial=1), most) + 1)
    }
    if sizes.max(initial=1) > most:
        lines[f"{most} or more"] = sizes >= most
        del lines[str(most)]
    lines["all"] = sizes > 0
    return {
        name: [int((counts[is_in] >= minimum).sum()) for minimum in least]
        for name, is_in in lines.items()
    }
