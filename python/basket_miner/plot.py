"""Pictures of the package's frames, by matplotlib.

Each call draws on an axis, or on that of a new figure, and returns the axis, where all can be
changed; `axes.figure.savefig` writes it. A lift has the same colour everywhere: red above 1, blue
below it, pale at 1. Marks and lines differ in their form too, for paper without colour and for those
who don't tell all colours apart; colours of lines are of the palette of Okabe and Ito.
"""

from collections.abc import Iterable
from typing import Any, Unpack

import numpy as np
import pandas as pd

from ._extras import demand_package

demand_package("matplotlib", "plot")
from matplotlib.axes import Axes
from matplotlib.lines import Line2D

from ._changes import changes
from ._errors import DataError
from ._itemsets import sets
from ._keywords import SetsOptions
from ._minimum import Minimum, exact_minimum
from ._picture import (
    COLOURS,
    LINES,
    axes_of,
    bar,
    count_ticks,
    demand,
    most_of,
    name_of,
    put_labels,
    scale_of,
    spaced,
)
from ._signatures import MinimumsCall
from ._sizes import counts_by_size
from ._typed import Typed

_MARKS = "os^Dv"
__all__ = ["changes", "minimums", "rules", "strongest"]

# More dots are drawn small, with thin edges.
_MOST_EDGED = 300
_STRENGTH = ["lift", "confidence", "support"]


def rules(frame: pd.DataFrame, axes: Axes | None = None, most: int = 5) -> Axes:
    """Rules by support and confidence, coloured by lift.

    Circles are rules of a lift of 1 or above; triangles that point down are rules below 1, whose
    sides are bought together less often than by chance. Higher lifts lie above lower ones, and the
    triangles, which are smaller, above circles.

    Args:
        frame: rules, as `basket_miner.rules` returns them.
        axes: where to draw; else on a new figure.
        most: how many rules of highest lift are named, as far as their names find a free place.

    Raises:
        DataError: there is no rule, or a column is missing.
    """
    frame = demand(frame, "support", "confidence", "lift")
    axes = axes_of(axes, 7.0, 4.5)
    is_few = len(frame) <= _MOST_EDGED
    scale = scale_of(frame["lift"])
    style = {"norm": scale, "cmap": COLOURS, "linewidths": 1.0 if is_few else 0.3}
    style["edgecolors"] = "black" if is_few else "grey"
    rising = frame.sort_values("lift", kind="stable")
    is_low = rising["lift"] < 1
    kinds = (
        (rising[is_low], "v", "lift below 1", 32),
        (rising[~is_low], "o", "lift 1 or above", 90),
    )
    for part, mark, label, size in reversed(kinds):
        places = 100 * part["support"], 100 * part["confidence"]
        area = size if is_few else size / 4
        # Matplotlib looks for a finite one.
        lifts = part["lift"].clip(upper=scale.vmax)
        dots = axes.scatter(*places, c=lifts, marker=mark, s=area, **style)
    if is_low.any() and not is_low.all():
        own = {"color": "lightgrey", "markeredgecolor": "black", "linestyle": "none"}
        axes.legend(
            handles=[
                Line2D([], [], marker=mark, markersize=size**0.5, label=label, **own)
                for _, mark, label, size in reversed(kinds)
            ],
            framealpha=0.7,
        )
    bar(axes, dots)
    axes.set_xlabel("support: baskets with both sides, of all baskets (%)")
    axes.set_ylabel(
        "confidence: baskets with both sides,\nof those with the antecedent (%)"
    )
    axes.margins(0.08)
    axes.grid(alpha=0.3)
    axes.set_axisbelow(True)
    _name_strongest(frame, axes, most_of(most, 0))
    return axes


def _name_strongest(frame: pd.DataFrame, axes: Axes, most: int) -> None:
    """Writes the names of the rules of highest lift beside their marks."""
    if most < 1 or not {"antecedents", "consequents"} <= set(frame.columns):
        return
    names: dict[tuple[float, float], str] = {}
    for rule in frame.nlargest(most, _STRENGTH).itertuples():
        place = 100 * rule.support, 100 * rule.confidence
        name = f"{name_of(rule.antecedents)} → {name_of(rule.consequents)}"
        names[place] = f"{names[place]}\n{name}" if place in names else name
    marks = 100 * frame[["support", "confidence"]].to_numpy()
    put_labels(axes, names, marks)


@Typed[MinimumsCall]()
def minimums(
    data: Any,
    minimums: Iterable[Minimum],
    axes: Axes | None = None,
    **keywords: Unpack[SetsOptions],
) -> Axes:
    """How many frequent itemsets there are at each of some minimums, by size.

    Args:
        data: the frame that `basket_miner.sets` returns at the least of the minimums, or below;
            or what it takes, and then it is asked once, at the least of them.
        minimums: counts alone or shares alone, as `basket_miner.sets` takes them.
        axes: where to draw; else on a new figure.

    Raises:
        DataError: there is no minimum, one doesn't fit, counts and shares are mixed, or the frame
            was made at a higher minimum, which it has as `frame.attrs["minimum"]`, a count.
        BasketError: as `basket_miner.sets` does.
    """
    if not isinstance(minimums, Iterable):
        raise DataError(f"minimums are several, as a list, not {minimums!r}")
    asked = sorted({exact_minimum(minimum) for minimum in minimums})
    if len({type(minimum) for minimum in asked}) != 1:
        raise DataError("minimums are counts alone or shares alone, and at least one")
    is_count = isinstance(asked[0], int)
    if not {"itemsets", "count", "support"} <= set(getattr(data, "columns", ())):
        data = sets(data, asked[0], **keywords)
    places = [float(minimum if is_count else 100 * minimum) for minimum in asked]
    axes = axes_of(axes, 7.0, 4.5)
    by_size = counts_by_size(data, asked, len(LINES))
    *sizes, (name, counts) = by_size.items()
    ticks = count_ticks(max(counts))
    axes.plot(places, counts, label=name, color="black", linestyle="--", lw=2, zorder=3)
    for (name, counts), colour, mark in zip(sizes, LINES, _MARKS):
        # One count of 0 shows that there are none from there on.
        shown = counts[: counts.index(0) + 1] if 0 in counts else counts
        axes.plot(places[: len(shown)], shown, label=name, color=colour, marker=mark)
    axes.set_xscale("log" if places[0] > 0 else "linear")
    axes.set_xticks(places, spaced(places))
    axes.set_yscale("symlog", linthresh=1)
    axes.set_yticks(ticks, [f"{tick:,}" for tick in ticks])
    axes.minorticks_off()
    axes.set_ylim(0, 1.1 * ticks[-1])
    unit = "baskets" if is_count else "% of all baskets"
    axes.set_xlabel(f"minimum ({unit})")
    axes.set_ylabel("frequent itemsets")
    axes.set_title("frequent itemsets at each minimum", fontsize="medium")
    axes.legend(title="items in the set")
    axes.grid(alpha=0.3)
    return axes


def strongest(frame: pd.DataFrame, axes: Axes | None = None, most: int = 15) -> Axes:
    """The rules of highest lift as a matrix, with a row for each antecedent and a column for each consequent.

    A cell has its rule's lift, which is its colour too, below it the confidence, and where the frame
    has them the number of baskets with both sides. Of equal lifts the rule of higher confidence comes
    first, then that of higher support. The strongest rule's row and column are the first.

    Args:
        frame: rules, as `basket_miner.rules` returns them.
        axes: where to draw; else on a new figure.
        most: how many rules, from 1 on.

    Raises:
        DataError: there is no rule, a column is missing, or `most` is below 1.
    """
    frame = demand(frame, "antecedents", "consequents", *_STRENGTH)
    number = most_of(most, 1)
    chosen = frame.sort_values(_STRENGTH, ascending=False, kind="stable").head(number)
    rows = list(dict.fromkeys(chosen["antecedents"]))
    columns = list(dict.fromkeys(chosen["consequents"]))
    axes = axes_of(axes, 3.5 + 0.8 * len(columns), 2.0 + 0.6 * len(rows))
    bar(axes, _cells(chosen, rows, columns, axes))
    axes.set_xticks(np.arange(len(columns)) + 0.5, [name_of(side) for side in columns])
    axes.set_yticks(np.arange(len(rows)) + 0.5, [name_of(side) for side in rows])
    axes.tick_params(axis="x", labelrotation=45)
    for label in axes.get_xticklabels():
        label.set(ha="right", rotation_mode="anchor")
    axes.set_xlabel("consequent")
    axes.set_ylabel("antecedent")
    below = (
        ", confidence, and number of baskets"
        if "count" in chosen
        else " and confidence"
    )
    axes.set_title(f"lift{below}", fontsize="medium")
    return axes


def _cells(
    chosen: pd.DataFrame, rows: list[Any], columns: list[Any], axes: Axes
) -> Any:
    """Draws the cells of rules, each by its lift, and returns their image."""
    lifts = np.full((len(rows), len(columns)), np.nan)
    scale = scale_of(chosen["lift"])
    for rule in chosen.itertuples():
        row, column = rows.index(rule.antecedents), columns.index(rule.consequents)
        lifts[row, column] = rule.lift
        below = f"\n{rule.count}" if "count" in chosen else ""
        axes.text(
            column + 0.5,
            row + 0.5,
            f"{rule.lift:.3g}\n{rule.confidence:.0%}{below}",
            ha="center",
            va="center",
            fontsize="small",
            color="black" if 0.15 < scale(rule.lift) < 0.85 else "white",
        )
    axes.invert_yaxis()
    return axes.pcolormesh(
        lifts, cmap=COLOURS, norm=scale, edgecolors="lightgrey", lw=0.8
    )
