"""What the pictures share: colours, ticks, and labels that find a free place."""

import math
from collections.abc import Iterable, Sequence
from typing import Any

import matplotlib.pyplot
import numpy as np
import pandas as pd
from matplotlib.axes import Axes
from matplotlib.colors import LogNorm
from matplotlib.transforms import Bbox

from ._errors import DataError
from ._frames import floats_of
from ._given_sets import demand_frame, itemsets_of
from ._minimum import whole_of

# Red above 1, blue below it, pale at 1.
COLOURS = "RdBu_r"
# The colours end at this lift and at its reciprocal, or at ten times that and so on: where a picture's lifts need no
# more, a colour means the same lift in each picture.
_END = 4.0
# Of lines.
LINES = ("#0072B2", "#D55E00", "#009E73", "#CC79A7", "#56B4E9")
_SIDES = ("antecedents", "consequents")
_LIFT = "lift (1: as often as by chance)"
# Ticks of numbers that span more than this are powers of ten alone.
_MANY = 20_000
# Labels on an axis stand at least so much of its width apart.
_LEAST_GAP = 0.06
# About half the width of a mark, in points of the screen.
_RADIUS = 8.0
# Where a label may stand beside its mark, in points, in the order in which that is tried.
_BESIDE = [(x, y) for x in (10, -10) for y in (0, 10, -10, 22, -22, 36, -36)]


def demand(frame: pd.DataFrame, *columns: str) -> pd.DataFrame:
    """The rules of a frame that has these columns, with sides as sets and figures as floats."""
    demand_frame(frame, "rules")
    missing = [name for name in columns if name not in frame.columns]
    if missing:
        raise DataError(f"the frame of rules has no column {missing[0]!r}")
    if frame.empty:
        raise DataError("there is no rule to draw")
    sides = [name for name in _SIDES if name in frame.columns]
    figures = [name for name in columns if name not in _SIDES]
    return frame.assign(
        **{name: itemsets_of(frame, name) for name in sides},
        **{name: floats_of(frame, name) for name in figures},
    )


def most_of(most: Any, least: int) -> int:
    """How many rules are wanted, or `DataError`."""
    if (whole := whole_of(most)) is None or whole < least:
        raise DataError(f"most is a number of at least {least}, not {most!r}")
    return whole


def axes_of(axes: Axes | None, width: float, height: float) -> Axes:
    if axes is not None:
        if not isinstance(axes, Axes):
            raise DataError(f"axes are those of matplotlib, not {type(axes).__name__}")
        return axes
    return matplotlib.pyplot.subplots(figsize=(width, height), layout="constrained")[1]


def scale_of(lifts: pd.Series) -> LogNorm:
    """Colours by the lifts' order of magnitude, with 1 in the middle."""
    known = lifts[np.isfinite(lifts) & (lifts > 0)]
    end = _END
    while len(known) and (known.max() > end or known.min() < 1 / end):
        end *= 10
    return LogNorm(1 / end, end, clip=True)


def bar(axes: Axes, shown: Any) -> None:
    made = axes.figure.colorbar(shown, ax=axes, label=_LIFT)
    end = round(shown.norm.vmax)
    steps = [2, 4] if end == _END else [2, *(4 * 10**n for n in range(len(str(end))))]
    made.set_ticks(
        [*(1 / step for step in reversed(steps)), 1, *steps],
        labels=[*(f"1/{step}" for step in reversed(steps)), "1", *map(str, steps)],
    )
    made.minorticks_off()


def name_of(side: Iterable[Any]) -> str:
    """The labels of a side of a rule. A dollar sign would begin a formula."""
    return ", ".join(sorted(map(str, side))).replace("$", r"\$")


def count_ticks(most: int) -> list[int]:
    """Ticks from 0 to 1 at least for counts, on a scale by magnitude. The last is `most` or above."""
    ticks, steps = [0], (1, 2, 5) if most <= _MANY else (1,)
    for power in range(len(str(most)) + 1):
        ticks += [step * 10**power for step in steps]
    above = [tick for tick in ticks if tick >= max(most, 1)]
    return [tick for tick in ticks if tick <= above[0]]


def spaced(places: list[float]) -> list[str]:
    """The labels of rising places on their axis, without those too near to one before."""
    at = [math.log(place) if places[0] > 0 else place for place in places]
    labels, last = [], -math.inf
    for place, where in zip(places, at):
        is_far = where - last >= _LEAST_GAP * (at[-1] - at[0])
        labels.append(f"{place:.3g}" if is_far else "")
        last = where if is_far else last
    return labels


def put_labels(
    axes: Axes,
    texts: dict[tuple[float, float], str],
    marks: Sequence[tuple[float, float]],
) -> None:
    """Writes a text beside each of some places, over no other text and over few marks.

    A text that has no free place is left out.
    """
    axes.figure.draw_without_rendering()
    legend = axes.get_legend()
    taken = [] if legend is None else [legend.get_window_extent()]
    dots = axes.transData.transform(marks)
    for place, text in texts.items():
        tried: list[tuple[int, int, Any, Bbox]] = []
        for number, (x, y) in enumerate(_BESIDE):
            note = axes.annotate(
                text,
                place,
                (x, y),
                textcoords="offset points",
                ha="left" if x > 0 else "right",
                va="center",
                fontsize="small",
            )
            box = note.get_window_extent()
            is_free = axes.bbox.count_contains(box.corners()) == 4 and not any(
                map(box.overlaps, taken)
            )
            if is_free:
                covered = box.padded(_RADIUS).count_contains(dots)
                tried.append((covered, number, note, box))
            note.remove()
        if tried:
            _, _, note, box = min(tried, key=lambda one: one[:2])
            axes.add_artist(note)
            taken.append(box)
