"""The words of `basket pairs` by which a file is rewritten, or would be."""

import codecs
import csv
import itertools
from collections.abc import Sequence
from pathlib import Path

from ._baskets import SEPARATOR_WORDS, SEPARATORS
from ._errors import DataError
from ._frames import columns_of_key
from ._keywords import Layout
from ._look import Look
from ._minimum import whole_of

# Each option with its value, which is empty where it has none.
Recipe = dict[str, str]

# `look` has the names of so many.
_MOST_COLUMNS = 60
# The program's encodings, by Python's names for them.
_ENCODINGS = {
    "ascii": "utf-8",
    "utf-8": "utf-8",
    "utf-8-sig": "utf-8",
    "utf-16-le": "utf-16le",
    "utf-16-be": "utf-16be",
    "cp1252": "windows-1252",
    "iso8859-1": "windows-1252",
    "cp850": "cp850",
    "mac-roman": "macintosh",
}


def recipe_of(words: Sequence[str]) -> Recipe:
    """A recipe by its words."""
    recipe, name = Recipe(), ""
    for word in words:
        if word.startswith("--"):
            name, word = word, ""
        recipe[name] = word
    return recipe


def words_of(recipe: Recipe) -> tuple[str, ...]:
    """The words of a recipe."""
    pairs = recipe.items()
    return tuple(word for pair in pairs for word in pair if word)


def as_said(path: Path, layout: Layout) -> Recipe:
    """The recipe of what keywords say of a file: `form=`, `sep=`, `header=`."""
    recipe = Recipe()
    if (sep := separator_of(path, layout)) != "comma":
        recipe["--sep"] = sep
    if layout["header"]:
        recipe["--header"] = ""
    if layout["form"] == "baskets":
        return recipe | {"--item": "1-"}
    return recipe | {"--basket": "1", "--item": "2"}


def separator_of(path: Path, layout: Layout) -> str:
    """The program's word for the separator of CSV."""
    if layout["sep"] is None:
        return "tab" if path.suffix.lower() == ".tsv" else "comma"
    sep = SEPARATOR_WORDS.get(layout["sep"], layout["sep"])
    if sep not in SEPARATORS:
        raise DataError(f"sep is one of {', '.join(SEPARATORS)}, not {sep!r}")
    return sep


def encoding_of(name: str, seen: Look | None) -> str:
    """The program's word for an encoding that Python has a name for."""
    try:
        found = codecs.lookup(name).name
    except (LookupError, TypeError, ValueError):
        found = ""
    if found == "utf-16":
        # Which of both it is the file says.
        own = seen.encoding if seen and seen.encoding else ""
        return own if own.startswith("utf-16") else "utf-16le"
    if found not in _ENCODINGS:
        known = ", ".join([*_ENCODINGS, "utf-16"])
        raise DataError(f"encoding is one of {known}, not {name!r}")
    return _ENCODINGS[found]


def as_named(path: Path, layout: Layout, seen: Look | None) -> Recipe:
    """The recipe of a file with columns that are given, where `look` doesn't know how it is written.

    Names of columns say what separates the fields of the first record.
    """
    keys = [*columns_of_key(layout["basket"]), layout["item"]]
    wanted = {key for key in keys if isinstance(key, str)}
    if not wanted and not layout["header"]:
        raise DataError(
            f"it isn't sure if the first record of {path} is a header: give header=True, or "
            'form="single" if it is none'
        )
    if not wanted or seen is None or layout["sep"] is not None:
        return as_said(path, layout) | {"--header": ""}
    for sep in SEPARATORS:
        if wanted <= {*_first_record(path, layout, sep)}:
            return {"--sep": sep, "--header": ""}
    return as_said(path, layout) | {"--header": ""}


def with_columns(
    path: Path, recipe: Recipe, layout: Layout, seen: Look | None
) -> Recipe:
    """A recipe with the columns that `basket=` and `item=` name."""
    names = _names(path, recipe, layout, seen)
    item = _number(layout["item"], names)
    numbers = [_number(key, names) for key in columns_of_key(layout["basket"])]
    # Several names in a cell stay apart, where they are those of this column.
    gone = {"--marks"} | ({"--within"} if recipe.get("--item") != item else set())
    rest = {name: word for name, word in recipe.items() if name not in gone}
    return rest | {"--basket": ",".join(numbers), "--item": item}


def _names(path: Path, recipe: Recipe, layout: Layout, seen: Look | None) -> list[str]:
    """The names of the columns of a file that has a header."""
    if seen is None or "--header" not in recipe:
        return []
    sep = recipe.get("--sep", "comma")
    if not seen.readings or (layout["sep"] is not None and sep != seen.separator):
        return _first_record(path, layout, sep)
    if not seen.header:
        # What is said to be a header is the first record.
        return [*seen.rows[0]] if seen.rows else []
    if len(seen.columns) >= _MOST_COLUMNS and sep in SEPARATORS:
        return _first_record(path, layout, sep, seen)
    return [column.name for column in seen.columns]


def _first_record(
    path: Path, layout: Layout, sep: str, seen: Look | None = None
) -> list[str]:
    """The cells of the first record, or of the header where `look` sees it."""
    encoding = layout["encoding"] or (seen and seen.encoding) or "utf-8"
    encoding = "utf-8-sig" if encoding == "utf-8" else encoding
    with open(path, encoding=encoding, errors="replace", newline="") as file:
        reader = csv.reader(file, delimiter=SEPARATORS[sep])
        records = (record for record in reader if any(map(str.strip, record)))
        header: list[str] = next(
            itertools.islice(records, seen.skip if seen else 0, None), []
        )
        return [*map(str.strip, header)]


def _number(column: object, names: list[str]) -> str:
    """The number of a column from 1 on, as the program counts."""
    place = whole_of(column)
    if place is not None:
        if place < 0:
            raise DataError(f"the place of a column is a number from 0 on, not {place}")
        return str(place + 1)
    if (found := names.count(column)) == 1:  # type: ignore[arg-type]
        return str(names.index(column) + 1)  # type: ignore[arg-type]
    if found:
        raise DataError(f"{found} columns have the name {column!r}: give a place")
    told = ", ".join(map(repr, names)) if names else "not known, since none has a name"
    raise DataError(f"no column has the name {column!r}: the columns are {told}")
