"""The picture of what changed."""

from typing import Any

import numpy as np
import pandas as pd
from matplotlib.axes import Axes

from ._errors import DataError
from ._frames import floats_of
from ._given_sets import demand_frame, itemsets_of
from ._picture import LINES, axes_of, most_of, name_of


def changes(frame: pd.DataFrame, axes: Axes | None = None, most: int = 12) -> Axes:
    """What changed: for each itemset its share of the baskets before, as a circle, and after, as a square.

    Those of the least p-value are drawn, the first of them at the top. A line is orange where the share rose, and blue
    where it fell.

    Args:
        frame: what `basket_miner.compare` returns, or some of its rows.
        axes: where to draw; else on a new figure.
        most: how many itemsets, from 1 on.

    Raises:
        DataError: there is no itemset, a column is missing, or `most` is below 1.
    """
    demand_frame(frame, "changes")
    if frame.empty:
        raise DataError("there is no change to draw")
    chosen = frame.iloc[
        np.argsort(floats_of(frame, "p_value"), kind="stable")[: most_of(most, 1)]
    ]
    shares = [
        100 * floats_of(chosen, name) for name in ("support_before", "support_after")
    ]
    names = [name_of(own) for own in itemsets_of(chosen, "itemsets")]
    axes = axes_of(axes, 7.0, 1.5 + 0.35 * len(chosen))
    rows = np.arange(len(chosen))
    colours = np.where(shares[1] > shares[0], LINES[1], LINES[0])
    axes.hlines(rows, *shares, colors=colours.tolist(), lw=2, zorder=1)
    own: Any = {"color": "white", "edgecolors": "black", "zorder": 2}
    for places, mark, label in zip(shares, "os", ("before", "after")):
        axes.scatter(places, rows, marker=mark, label=label, **own)
    axes.set_yticks(rows, names)
    axes.invert_yaxis()
    axes.set_xlim(left=0)
    axes.set_xlabel("baskets with all of these items, of all baskets (%)")
    axes.set_title("what changed", fontsize="medium")
    axes.legend()
    axes.grid(alpha=0.3)
    axes.set_axisbelow(True)
    return axes
