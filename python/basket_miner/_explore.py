"""A page to explore rules in a browser."""

import base64
import hashlib
import html
import json
import os
import re
from collections.abc import Iterable
from pathlib import Path, PosixPath
from typing import Any

import pandas as pd

from ._errors import DataError, FileError
from ._given_sets import itemsets_of
from ._rule_counts import counts_of

_FOLDER = Path(__file__).parent / "_page_files"


class Page(PosixPath):
    """The file of a page. A notebook that shows it shows the page itself."""

    def _repr_html_(self) -> str:
        content = html.escape(self.read_text(encoding="utf-8"))
        return (
            f'<iframe srcdoc="{content}" sandbox="allow-scripts allow-downloads" title="{html.escape(str(self))}" '
            'style="width: 100%; height: 50rem; border: 0"></iframe>'
        )


def explore(
    rules: pd.DataFrame,
    path: str | os.PathLike[str],
    *,
    title: str | None = None,
    source: str | None = None,
) -> Page:
    """Writes a page that shows rules in a browser: one file of HTML, which needs no network.

    It has a table that sorts by each column and has fifty rules a page, filters by items and by
    figures, and the rules by support and confidence or lift, coloured by lift. A click on a mark,
    or a rectangle that is drawn, shows its rules alone. A rule's details are its counts of baskets
    and its exact fractions. What is shown can be saved as CSV, and the page's address keeps it.

    Args:
        rules: a frame of `rules`, or of `association_rules` in `basket_miner.frequent_patterns`.
        path: of the file, which is written anew.
        title: what stands above the rules, as the shop and the month.
        source: what stands below the title, as the file, the minimum and the day.

    Returns the path, which a notebook shows as the page. Raises `DataError` where a column is
    missing or the figures do not agree, and `FileError` where the file can't be written.
    """
    file = file_of(path)
    content = page_of(rules, title, source)
    try:
        file.write_text(content, encoding="utf-8")
    except OSError as fault:
        raise FileError(f"cannot write {file}: {fault.strerror}") from fault
    return file


def file_of(path: str | os.PathLike[str]) -> Page:
    """The file of a path, or `BasketError` where no file can be there."""
    if not isinstance(path, (str, os.PathLike)):
        raise DataError(
            f"the path of the page is a str or a pathlib.Path, not {path!r}"
        )
    file = Page(os.path.expanduser(path))
    if "\0" in str(file):
        raise FileError(f"cannot write {str(file)!r}: a path has no zero byte")
    try:
        is_folder, has_folder = file.is_dir(), file.parent.is_dir()
    except OSError as fault:
        raise FileError(f"cannot write {file}: {fault.strerror}") from fault
    if is_folder:
        raise FileError(f"cannot write {file}: it is a folder, and no file")
    if not has_folder:
        raise FileError(f"cannot write {file}: there is no folder {file.parent}")
    return file


def page_of(
    rules: pd.DataFrame, title: str | None = None, source: str | None = None
) -> str:
    """The text of the page."""
    template = _text("page.html")
    found = re.search(r"<script>(.*?)</script>", template, re.S)
    assert found
    script = _filled(found[1], {})
    digest = base64.b64encode(hashlib.sha256(script.encode()).digest()).decode()
    parts = {
        # Names are data: no name can end the element that holds them, and no other script runs.
        "data": json.dumps(_data_of(rules), separators=(",", ":")).replace(
            "<", "\\u003c"
        ),
        "digest": digest,
        "source": html.escape("" if source is None else str(source)),
        "title": html.escape("Association rules" if title is None else str(title)),
    }
    return _filled(template, parts)


def _filled(template: str, parts: dict[str, str]) -> str:
    """A template with its marks replaced: each names a part, or a file beside it."""
    return re.sub(
        r"{{([\w.]+)}}",
        lambda mark: parts[mark[1]] if mark[1] in parts else _text(mark[1]),
        template,
    )


def _data_of(rules: pd.DataFrame) -> dict[str, Any]:
    """What the page shows: each side once, in the order of their texts, and rules by columns."""
    counts = counts_of(rules)
    columns = [itemsets_of(rules, name) for name in ("antecedents", "consequents")]
    texts = {side: _names(side) for column in columns for side in column}
    # Capital letters and small ones stand together.
    sides = sorted(texts, key=lambda it: ([*map(str.casefold, texts[it])], texts[it]))
    places = {side: place for place, side in enumerate(sides)}
    left, right = ([places[side] for side in column] for column in columns)
    return {
        "sides": [texts[side] for side in sides],
        "left": left,
        "right": right,
        "both": counts.both.tolist(),
        "withLeft": counts.left.tolist(),
        "withRight": counts.right.tolist(),
        "total": counts.total,
    }


def _names(side: Iterable[Any]) -> list[str]:
    return sorted(map(str, side))


def _text(name: str) -> str:
    return (_FOLDER / name).read_text(encoding="utf-8")
