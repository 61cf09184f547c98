"""Files as a caller gives them: by a path, with what is said of it, or as `look` sees them."""

import os
from pathlib import Path

from ._baskets import SEPARATORS, Baskets
from ._errors import DataError
from ._files import refuse_foreign_file
from ._keywords import Layout, refuse_others
from ._look import Look, Reading, look
from ._recipes import (
    Recipe,
    as_named,
    as_said,
    encoding_of,
    recipe_of,
    separator_of,
    with_columns,
    words_of,
)
from ._warnings import warn

_CSV_ENDINGS = (".csv", ".tsv")
_SAID = "basket item form sep header weighted encoding"


def baskets_of_path(path: Path, layout: Layout) -> Baskets:
    """The baskets of a file, as keywords say that it is written, or else as `look` sees it if that is sure.

    Raises:
        DataError: it isn't sure, or a keyword does not go with the file or with another.
    """
    refuse_others(layout, _SAID, "a path")
    form = layout["form"]
    refuse_words(layout)
    if form == "fimi":
        refuse_others(layout, "form", "a FIMI file")
        return Baskets(path)
    sep = separator_of(path, layout)
    has_columns = layout["basket"] is not None or layout["item"] is not None
    if has_columns and (layout["basket"] is None or layout["item"] is None):
        raise DataError("a file with a row for each item needs both basket= and item=")
    # What is no regular file may be read once alone.
    seen = look(path) if os.path.isfile(os.path.realpath(path)) else None
    is_said = form is not None and not has_columns and layout["encoding"] is None
    if not is_said and seen and seen.kind in ("foreign", "binary"):
        refuse_foreign_file(path, path)
        raise DataError(_nothing(seen))
    if form is None and not has_columns:
        return _as_seen(path, layout, seen)
    recipe = _recipe(path, layout, seen, has_columns)
    if has_columns:
        return _rewritten(path, with_columns(path, recipe, layout, seen))
    if recipe.get("--encoding", "utf-8") != "utf-8":
        if layout["weighted"]:
            raise DataError("weighted= does not go with encoding=")
        return _rewritten(path, recipe)
    return Baskets(path, tuple(words_said(layout, sep)), separator=SEPARATORS[sep])


def words_said(layout: Layout, sep: str) -> list[str]:
    """The program's words for CSV that is written as keywords say."""
    words = [f"--form={layout['form']}", f"--sep={sep}"]
    return words + ["--header"] * layout["header"] + ["--weight"] * layout["weighted"]


def _recipe(path: Path, layout: Layout, seen: Look | None, has_columns: bool) -> Recipe:
    """How a file is written of which something is said."""
    if layout["form"] is None and seen and seen.readings:
        recipe = recipe_of(seen.readings[0].pairs)
        if layout["sep"] is not None:
            # Fields at fixed places have none.
            recipe.pop("--columns", None)
            recipe["--sep"] = separator_of(path, layout)
        if layout["header"]:
            recipe["--header"] = ""
    elif layout["form"] is None:
        recipe = as_named(path, layout, seen)
    else:
        recipe = as_said(path, layout)
        _warn_of_others(path, layout, recipe, seen, has_columns)
    if layout["encoding"] is not None:
        recipe["--encoding"] = encoding_of(layout["encoding"], seen)
    return recipe


def baskets_of_look(seen: Look) -> Baskets:
    """The baskets of a file as its first reading says, sure or not."""
    if not os.path.isfile(os.path.realpath(seen.path)):
        raise DataError(f"{seen.path} is no file that can be read again")
    if not seen.readings or seen.readings[0].form == "counts":
        raise DataError(_nothing(seen))
    return _of_reading(seen, seen.readings[0], ())


def refuse_words(layout: Layout) -> None:
    """Raises `DataError` where a keyword is none of its words, or doesn't go with the form."""
    form = layout["form"]
    if form not in (None, "fimi", "baskets", "single"):
        raise DataError(f"form is fimi, baskets or single, not {form!r}")
    flags = {"header": layout["header"], "weighted": layout["weighted"]}
    for name, flag in flags.items():
        if not isinstance(flag, bool):
            raise DataError(f"{name} is True or False, not {flag!r}")
    if form == "single":
        refuse_others(layout, _SAID.replace("weighted", ""), 'form="single"')
    if form == "baskets":
        refuse_others(layout, "form sep header weighted encoding", 'form="baskets"')


def _as_seen(path: Path, layout: Layout, seen: Look | None) -> Baskets:
    """The baskets of a file that nothing is said about, but its separator, header or encoding."""
    is_csv = path.suffix.lower() in _CSV_ENDINGS
    if seen is None or not seen.readings or _is_of_numbers(seen):
        if is_csv:
            why = f" and is {seen.what}" if seen and seen.what else ""
            raise DataError(
                f'{path} ends like CSV{why}: give form="baskets" (a record is a basket), '
                'form="single" (a record is a basket\'s id and an item) or form="fimi"'
            )
        refuse_others(layout, "", "a FIMI file")
        _warn_of_fimi(path, seen)
        return Baskets(path)
    refuse_others(layout, "sep header encoding", 'a file without form="baskets"')
    reading = seen.readings[0]
    if not reading.sure:
        raise DataError(_not_sure(path, seen))
    if layout["sep"] is not None and separator_of(path, layout) != seen.separator:
        raise DataError(
            f"{path} seems to have fields separated by {seen.separator}, not by {layout['sep']!r}: "
            "give form= beside sep=, or neither"
        )
    more = ["--header"] * (layout["header"] and not seen.header)
    if layout["encoding"] is not None:
        own = encoding_of(layout["encoding"], seen)
        if own != seen.encoding:
            recipe = recipe_of([*reading.pairs, *more]) | {"--encoding": own}
            return _rewritten(path, recipe)
    return _of_reading(seen, reading, more)


def _is_of_numbers(seen: Look) -> bool:
    """Whether a file is FIMI text, or would be without some words, which the program tells with their lines."""
    if seen.kind in ("fimi", "counts"):
        return True
    words = [word for row in seen.rows for word in row if word]
    are_most = 2 * sum(map(str.isdigit, words)) > len(words)
    return seen.kind == "baskets" and seen.separator in ("space", "tab") and are_most


def _of_reading(seen: Look, reading: Reading, more: list[str] | tuple[()]) -> Baskets:
    if not reading.as_it_is:
        return _rewritten(seen.path, recipe_of([*reading.pairs, *more]))
    if reading.form == "fimi":
        return Baskets(seen.path)
    sep = SEPARATORS[seen.separator or "comma"]
    options = recipe_of([*reading.options, *more])
    words = [f"{name}={word}" if word else name for name, word in options.items()]
    return Baskets(seen.path, tuple(words), separator=sep)


def _rewritten(path: Path, recipe: Recipe) -> Baskets:
    return Baskets(path, ("--form=single",), separator=",", pairs=words_of(recipe))


def _nothing(seen: Look) -> str:
    what = seen.what or "counts of another run"
    return f"{seen.path} is {what}. {seen.remedy}".rstrip()


def _not_sure(path: Path, seen: Look) -> str:
    columns = [column.name or str(column.position) for column in seen.columns]
    named = f" (the columns are {', '.join(columns)})" if columns else ""
    return (
        f"it isn't sure how {path} is to be read: {' '.join(seen.doubts)} Give basket= and item={named}, "
        "or form=, or look(path) in place of the path if what it shows is right"
    )


def _warn_of_fimi(path: Path, seen: Look | None) -> None:
    """Warns where the numbers of a file that is read as FIMI may be no items."""
    if seen is None or seen.kind != "fimi" or seen.readings[0].form == "fimi":
        return
    told = " ".join(seen.because + seen.doubts)
    warn(
        f"{path} is read as FIMI, where each number is an item, but it may be no such file: {told} "
        'Give form="fimi" if each is, or look(path) in place of the path, which reads it as it shows'
    )


def _warn_of_others(
    path: Path, layout: Layout, said: Recipe, seen: Look | None, has_columns: bool
) -> None:
    """Warns where what is said of a file and what `look` sees give other baskets."""
    # The program refuses other text than UTF-8.
    is_text = seen and (seen.encoding == "utf-8" or layout["encoding"] is not None)
    if not seen or not seen.readings or not is_text:
        return
    if any(
        not _differences(layout, said, seen, reading, has_columns)
        for reading in seen.readings
    ):
        return
    told = _differences(layout, said, seen, seen.readings[0], has_columns)
    warn(
        f"{path} is read as form= and other keywords say, but it seems to be written otherwise: "
        f"{' '.join(told)} look(path) shows how"
    )


def _differences(
    layout: Layout, said: Recipe, seen: Look, reading: Reading, has_columns: bool
) -> list[str]:
    """What differs between what is said and a reading, in sentences."""
    own = recipe_of(reading.pairs)
    found: list[str] = []
    sep = own.get("--sep", "comma")
    if said.get("--sep", "comma") != sep:
        if sep not in SEPARATORS:
            return [*reading.because] if reading.sure else []
        found.append(f'Its fields are separated by {sep}: sep="{sep}".')
    if "--header" in own and "--header" not in said:
        found.append("Its first record is a header: header=True.")
    if has_columns or layout["weighted"]:
        return found
    if _columns(own, reading.sure) == _columns(said, reading.sure):
        return found
    if reading.sure or seen.kind == layout["form"]:
        found += reading.because
    return found


def _columns(recipe: Recipe, sure: bool) -> object:
    """What of a recipe decides which cells are items; where it isn't sure, not which of two columns."""
    others = ("--sep", "--header", "--encoding", "--basket", "--item")
    rest = {name: word for name, word in recipe.items() if name not in others}
    named = [recipe.get("--basket", ""), recipe.get("--item", "")]
    return rest, named if sure else sorted(named)
