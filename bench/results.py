"""The tables of RESULTS.md."""

from collections.abc import Iterator, Sequence


def table(head: Sequence[str], rows: Sequence[Sequence[str]]) -> list[str]:
    """The lines of a table, whose rows may end early."""
    filled = [[*row, *[""] * (len(head) - len(row))] for row in rows]
    lines = [f"| {' | '.join(row)} |" for row in (head, *filled)]
    return [lines[0], "|---" * len(head) + "|", *lines[1:]]


def rows(text: str) -> Iterator[dict[str, str]]:
    """The rows of all tables, each by the names of its columns."""
    head: list[str] = []
    for line in text.splitlines():
        cells = [cell.strip() for cell in line.strip("|").split("|")]
        if not line.startswith("|"):
            head = []
        elif not head:
            head = cells
        elif cells[0].strip("-"):
            yield dict(zip(head, cells))
