"""What a file is, as a terminal and a notebook show it."""

from __future__ import annotations

from collections.abc import Iterable, Iterator
from html import escape
from typing import TYPE_CHECKING

if TYPE_CHECKING:
    from ._look import Column, Look

_HEAD = ("column", "position", "name", "role", "different", "values")


def text_of(seen: Look) -> str:
    """Lines for a terminal, which gets no commands of the file's bytes."""
    return "\n".join(
        "".join(letter if letter.isprintable() else "\ufffd" for letter in line)
        for line in _lines(seen)
    )


def _lines(seen: Look) -> Iterator[str]:
    yield _title(seen)
    for column in seen.columns:
        number, position, name, role, different, values = _cells(column)
        marked = f" ({role})" if role else ""
        yield f"  column {number} {name}{marked}: position {position}, {different} different, {values}"
    for sentences in _sentences(seen).values():
        yield from sentences
    if seen.baskets:
        yield "The first baskets:"
    for name, items in seen.baskets:
        yield f"  {name}: {', '.join(items)}"
    yield from (f"  {command}" for command in seen.commands)


def html_of(seen: Look) -> str:
    """HTML for a notebook, without a script. What the file has is escaped."""
    parts = [f"<p>{escape(_title(seen))}</p>"]
    if seen.columns:
        rows = [_row(_HEAD, "th"), *map(_column, seen.columns)]
        parts.append(f"<table>{''.join(rows)}</table>")
    for name, sentences in _sentences(seen).items():
        if sentences:
            told = "<br>".join(map(escape, sentences))
            parts.append(f"<p><b>{name}:</b> {told}</p>")
    if seen.baskets:
        baskets = [_row((name, ", ".join(items))) for name, items in seen.baskets]
        head = _row(("basket", "items"), "th")
        parts.append(
            f"<p><b>The first baskets:</b></p><table>{head}{''.join(baskets)}</table>"
        )
    return f"<div>{''.join(parts)}</div>"


def _title(seen: Look) -> str:
    if not seen.readings:
        return f"{seen.path} is {seen.what}. {seen.remedy}".rstrip()
    by = f", fields separated by {seen.separator}" if seen.separator else ""
    header = ", with a header" if seen.header else ""
    above = f" below {seen.skip} other records" if seen.skip else ""
    return f"{seen.path}: {seen.kind}, text in {seen.encoding}{by}{header}{above}"


def _sentences(seen: Look) -> dict[str, tuple[str, ...]]:
    return {
        "What decided": seen.because,
        "Not sure": seen.doubts,
        "To know": seen.notes,
    }


def _cells(column: Column) -> tuple[str, ...]:
    more = ", .." * (column.different > len(column.values))
    return (
        str(column.position + 1),
        str(column.position),
        column.name,
        column.role,
        str(column.different),
        ", ".join(column.values) + more,
    )


def _column(column: Column) -> str:
    """A row of the table; one of a column with a role is bold."""
    row = _row(_cells(column))
    return row.replace("<tr>", '<tr style="font-weight: bold">') if column.role else row


def _row(cells: Iterable[str], kind: str = "td") -> str:
    return f"<tr>{''.join(f'<{kind}>{escape(cell)}</{kind}>' for cell in cells)}</tr>"
