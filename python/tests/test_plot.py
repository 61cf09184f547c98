"""What the pictures show, beside the numbers that were given."""

import itertools
import subprocess
import sys
from fractions import Fraction
from pathlib import Path
from typing import Any

import matplotlib
import numpy as np
import pandas as pd
import pytest

import brute
from basket_miner import DataError, compare, plot, rules, sets
from basket_miner._minimum import Minimum

matplotlib.use("agg")

ROOT = Path(__file__).parents[2]
# Each letter is an item.
BASKETS = ["abcdefg", "abc", "ab", "abd", "cd", "c", "bcd", "abcdef", "a", "abe"]


def frame_of(*rows: tuple[str, str, float, float, float]) -> pd.DataFrame:
    names = ["antecedents", "consequents", "support", "confidence", "lift"]
    sides = [(frozenset(left), frozenset(right), *rest) for left, right, *rest in rows]
    return pd.DataFrame(sides, columns=names)


RULES = frame_of(
    ("a", "b", 0.25, 0.5, 0.75),
    ("b", "c", 0.5, 1.0, 2.0),
    ("bd", "c", 0.125, 0.75, 1.5),
    ("a", "cd", 0.125, 0.25, 2.0),
)


def overlapping(texts: list[matplotlib.text.Text]) -> list[tuple[str, str]]:
    """The pairs of texts on a drawn figure whose boxes share a place."""
    boxes = [(text.get_text(), text.get_window_extent()) for text in texts]
    pairs = itertools.combinations([box for box in boxes if box[0]], 2)
    return [(one[0], two[0]) for one, two in pairs if one[1].overlaps(two[1])]


def test_each_rule_is_a_dot_and_those_of_a_lift_below_1_are_triangles() -> None:
    high, low = plot.rules(RULES).collections[:2]
    assert low.get_offsets().tolist() == [[25, 50]]
    assert low.get_array().tolist() == [0.75]
    assert high.get_offsets().tolist() == [[12.5, 75], [50, 100], [12.5, 25]]
    assert high.get_array().tolist() == [1.5, 2.0, 2.0]
    assert len(low.get_paths()[0].vertices) < len(high.get_paths()[0].vertices)


def test_the_rules_of_highest_lift_are_named_those_of_one_place_together() -> None:
    found = [
        *RULES.itertuples(index=False),
        (frozenset("d"), frozenset("a"), 0.5, 1.0, 9),
    ]
    frame = pd.DataFrame(found, columns=RULES.columns)
    named = [text.get_text() for text in plot.rules(frame, most=3).texts]
    assert named == ["d → a\nb → c", "a → c, d"]
    assert len(plot.rules(frame, most=0).texts) == 0
    assert len(plot.rules(frame.drop(columns="antecedents")).texts) == 0


def test_a_lift_has_one_colour_in_all_pictures_and_1_is_in_the_middle() -> None:
    scales = [
        plot.rules(RULES).collections[0].norm,
        plot.strongest(RULES, most=2).collections[0].norm,
    ]
    for lift, part in ((0.25, 0.0), (0.5, 0.25), (1, 0.5), (2, 0.75), (4, 1.0)):
        assert [round(float(scale(lift)), 12) for scale in scales] == [part, part]
    wide = RULES.assign(lift=[0.0, 5.0, np.inf, 1.0])
    scale = plot.rules(wide).collections[0].norm
    assert [round(float(scale(lift)), 12) for lift in (0.025, 1, 40, 99)] == [
        0,
        0.5,
        1,
        1,
    ]


def test_lifts_that_are_all_infinite_are_drawn() -> None:
    axes = plot.rules(RULES.assign(lift=np.inf))
    axes.figure.draw_without_rendering()
    assert len(axes.collections[0].get_offsets()) == 4


def test_lines_are_the_numbers_of_sets_of_each_size_that_meet_a_minimum() -> None:
    counts = brute.supports(BASKETS)
    minimums = [1, 2, 3, 4, 6, 7]
    axes = plot.minimums(map(list, BASKETS), reversed(minimums))
    names = [line.get_label() for line in axes.lines]
    assert names == ["all", "1", "2", "3", "4", "5 or more"]
    for line, name in zip(axes.lines, names):
        sizes = {"all": range(1, 8), "5 or more": range(5, 8)}.get(name) or [int(name)]
        wanted = [
            sum(
                count >= least for items, count in counts.items() if len(items) in sizes
            )
            for least in minimums
        ]
        shown = line.get_ydata().tolist()
        assert shown == wanted[: len(shown)]
        assert not any(wanted[len(shown) :])


def test_a_share_is_exactly_the_share_of_all_baskets() -> None:
    counts = brute.supports(BASKETS)
    shares: list[Minimum] = ["1/10", 0.2, Fraction(3, 10), "1/3", "2/3", 0.7, 1.0]
    line = plot.minimums(sets(map(list, BASKETS), 1), shares).lines[0]
    wanted = [
        sum(10 * count >= tenths for items, count in counts.items() if items)
        for tenths in (10, 20, 30, 33.3, 66.7, 70, 100)
    ]
    assert line.get_ydata().tolist() == wanted


def test_the_matrix_has_the_strongest_rules_at_their_sides() -> None:
    axes = plot.strongest(RULES, most=3)
    assert [text.get_text() for text in axes.get_yticklabels()] == ["b", "a", "b, d"]
    assert [text.get_text() for text in axes.get_xticklabels()] == ["c", "c, d"]
    lifts = axes.collections[0].get_array().reshape(3, 2)
    assert lifts.filled(0).tolist() == [[2.0, 0], [0, 2.0], [1.5, 0]]
    texts = {text.get_text(): text.get_position() for text in axes.texts}
    assert texts == {
        "2\n100%": (0.5, 0.5),
        "2\n25%": (1.5, 1.5),
        "1.5\n75%": (0.5, 2.5),
    }


def test_a_cell_has_the_number_of_baskets_where_the_frame_has_it() -> None:
    axes = plot.strongest(RULES.assign(count=[2, 4, 1, 1]), most=1)
    assert [text.get_text() for text in axes.texts] == ["2\n100%\n4"]


def test_a_dollar_sign_in_a_name_begins_no_formula() -> None:
    axes = plot.strongest(
        frame_of(("$a_b$", "c", 0.5, 1.0, 2.0)).assign(
            antecedents=[frozenset(["5$ card \\x$"])]
        )
    )
    axes.figure.canvas.draw()
    assert [text.get_text() for text in axes.get_yticklabels()] == [r"5\$ card \x\$"]


def test_the_scale_of_counts_has_ticks_between_which_one_can_read() -> None:
    axes = plot.minimums(map(list, BASKETS), [1, 2])
    ticks = [text.get_text() for text in axes.get_yticklabels()]
    assert ticks == ["0", "1", "2", "5", "10", "20", "50", "100", "200"]


def test_a_picture_is_drawn_on_the_axis_that_is_given() -> None:
    figure, axes = matplotlib.pyplot.subplots(3)
    frame = sets(map(list, BASKETS), 1)
    assert plot.rules(RULES, axes[0]) is axes[0]
    assert plot.minimums(frame, [1, 2], axes[1]) is axes[1]
    assert plot.strongest(RULES, axes[2]) is axes[2]
    assert all(one.has_data() for one in axes)


def test_labels_and_cells_do_not_lie_over_each_other() -> None:
    path = ROOT / "examples/receipts.csv"
    found = rules(path, 2, "1/4", form="single", header=True)
    for axes in (
        plot.rules(found),
        plot.minimums(path, range(1, 40), form="single", header=True),
        plot.strongest(found),
    ):
        axes.figure.canvas.draw()
        assert overlapping([*axes.get_xticklabels(), *axes.texts]) == []
        assert overlapping([*axes.get_yticklabels(), *axes.texts]) == []


def test_changes_are_drawn_by_their_p_values_with_both_shares() -> None:
    before, after = [["tea"], ["jam"], ["jam"], ["milk"]], [["tea"]] * 8
    frame = compare(before, after, 1, adjust=None)
    axes = plot.changes(frame, most=2)
    # Tea: 1 of 4, and then 8 of 8. Jam: 2 of 4, and then none.
    assert [label.get_text() for label in axes.get_yticklabels()] == ["tea", "jam"]
    first, second = (dots.get_offsets() for dots in axes.collections[1:])
    assert np.asarray(first).tolist() == [[25.0, 0.0], [50.0, 1.0]]
    assert np.asarray(second).tolist() == [[100.0, 0.0], [0.0, 1.0]]
    with pytest.raises(DataError, match="no change to draw"):
        plot.changes(frame.head(0))
    with pytest.raises(DataError, match="no column 'p_value'"):
        plot.changes(frame.drop(columns="p_value"))


def test_frames_and_minimums_that_cannot_be_drawn_are_refused() -> None:
    with pytest.raises(DataError, match="no rule"):
        plot.rules(RULES.head(0))
    with pytest.raises(DataError, match="no column 'lift'"):
        plot.strongest(RULES.drop(columns="lift"))
    with pytest.raises(DataError, match="at least 1"):
        plot.strongest(RULES, most=0)
    text: Any = "3"
    with pytest.raises(DataError, match="most is a number of at least 0, not '3'"):
        plot.rules(RULES, most=text)
    with pytest.raises(DataError, match="most is a number of at least 1, not '3'"):
        plot.strongest(RULES, most=text)
    figure: Any = matplotlib.pyplot.figure()
    with pytest.raises(DataError, match="axes are those of matplotlib, not Figure"):
        plot.rules(RULES, figure)
    for none in (None, 5):
        with pytest.raises(DataError, match=f"minimums are several, .* not {none}"):
            plot.minimums(RULES, none)  # type: ignore[arg-type]
    frame = sets(map(list, BASKETS), "25%")
    for minimum in (2, 0.2):
        with pytest.raises(DataError, match="in 3 baskets or more"):
            plot.minimums(frame, [minimum, 1.0] if minimum < 1 else [minimum])
    assert plot.minimums(frame, [3, 4]).lines[0].get_ydata()[0] == len(frame)
    refused: list[list[Minimum]] = [[], [1, 0.5], ["one"], ["1/0"]]
    for minimums in refused:
        with pytest.raises(DataError):
            plot.minimums(map(list, BASKETS), minimums)


def test_the_pictures_of_the_documents_are_those_that_the_script_makes(
    tmp_path: Path,
) -> None:
    subprocess.run([sys.executable, ROOT / "tools/pictures.py", tmp_path], check=True)
    # Each version of Chromium draws a page in its own way.
    made = sorted(
        file
        for file in tmp_path.iterdir()
        if not file.stem.startswith(("explore", "page", "shop-"))
    )
    assert [file.name for file in made] == [
        *("changes.png", "minimums.png", "rules.png", "strongest.png")
    ]
    assert (tmp_path / "explore.png").exists()
    for file in made:
        shown = matplotlib.image.imread(ROOT / "docs/pictures" / file.name)
        assert np.array_equal(matplotlib.image.imread(file), shown), file.name
