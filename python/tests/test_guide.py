"""The blocks of docs/GUIDE.md, beside what the guide shows that they print.

Each section is run after the first one alone, as a reader may paste it.
"""

import contextlib
import importlib.util
import io
import os
import re
import subprocess
import sys
from collections.abc import Iterator
from dataclasses import dataclass
from fractions import Fraction
from pathlib import Path
from typing import Any

import matplotlib
import pytest

from basket_miner._program import find

matplotlib.use("agg")

ROOT = Path(__file__).parents[2]
GUIDE = (ROOT / "docs/GUIDE.md").read_text(encoding="utf-8")
FENCE = re.compile(
    r"^```(\w+) ?(\w*)\n(.*?)^```\n(?:\n```text\n(.*?)^```\n)?", re.M | re.S
)


@dataclass(frozen=True)
class Block:
    """A block of code, what it needs beside the package, and what it shall print."""

    line: int
    section: str
    language: str
    needed: str
    code: str
    printed: str | None


def blocks() -> list[Block]:
    return [
        Block(
            GUIDE.count("\n", 0, found.start()) + 2, section_at(found), *found.groups()
        )
        for found in FENCE.finditer(GUIDE)
    ]


def section_at(found: re.Match[str]) -> str:
    """The heading of the section that has what was found."""
    headings: list[str] = re.findall(r"(?m)^## (.*)$", GUIDE[: found.start()])
    return headings[-1]


@pytest.fixture(scope="module")
def place(tmp_path_factory: pytest.TempPathFactory) -> Iterator[Path]:
    """A folder with the examples, where a shell finds the program and the package."""
    folder = tmp_path_factory.mktemp("guide")
    (folder / "examples").symlink_to(ROOT / "examples")
    (folder / "basket").symlink_to(find().resolve())
    (folder / "python3").symlink_to(sys.executable)
    with pytest.MonkeyPatch.context() as patch:
        patch.chdir(folder)
        patch.setenv("PATH", f"{folder}:{os.environ['PATH']}")
        patch.setenv("PYTHONPATH", str(ROOT / "python"))
        yield folder


class Sections:
    """What the blocks of each section have named: at first what the first section names."""

    def __init__(self) -> None:
        self._started: dict[str, Any] = {"__name__": "guide"}
        for block in blocks():
            if block.section == blocks()[0].section:
                printed_by(block, self._started)
        self._names: dict[str, dict[str, Any]] = {}
        self._ran: set[int] = set()

    def printed(self, block: Block) -> str:
        """What a block prints after those before it in its section, which another process may have tested."""
        names = self._names.setdefault(block.section, dict(self._started))
        for other in blocks():
            is_before = other.section == block.section and other.line < block.line
            is_of_kind = other.needed in ("", block.needed) and other.language != "r"
            if is_before and is_of_kind and other.line not in self._ran:
                self._ran.add(other.line)
                printed_by(other, names)
        self._ran.add(block.line)
        return printed_by(block, names)


@pytest.fixture(scope="module")
def sections(place: Path) -> Sections:
    return Sections()


def printed_by(block: Block, names: dict[str, Any]) -> str:
    if block.language == "python":
        with contextlib.redirect_stdout(io.StringIO()) as printed:
            exec(compile(block.code, f"GUIDE.md:{block.line}", "exec"), names)
        return printed.getvalue()
    words = {"sh": ["bash", "-euc"], "r": ["Rscript", "-e"]}[block.language]
    run = subprocess.run(
        [*words, block.code], capture_output=True, text=True, check=True
    )
    return run.stdout


@pytest.mark.parametrize("block", blocks(), ids=lambda block: f"line {block.line}")
def test_a_block_prints_what_the_guide_shows(
    block: Block,
    sections: Sections,
    request: pytest.FixtureRequest,
    monkeypatch: pytest.MonkeyPatch,
) -> None:
    if block.needed == "psql":
        # The blocks share one database, as they share a folder.
        for name, value in request.getfixturevalue("database").items():
            monkeypatch.setenv(name, value)
    elif block.needed and importlib.util.find_spec(block.needed) is None:
        pytest.skip(f"{block.needed} is not here")
    if block.language == "r":
        library = request.getfixturevalue("r_library")
        for name in ("R_LIBS", "BASKET"):
            monkeypatch.setenv(name, library[name])
    assert sections.printed(block) == (block.printed or "")


def test_the_pictures_that_the_guide_shows_are_there() -> None:
    shown = re.findall(r"!\[[^]]+\]\(([^)]+)\)", GUIDE)
    assert len(shown) == 6
    assert [name for name in shown if not (ROOT / "docs" / name).is_file()] == []


def test_the_first_block_gives_the_rules_that_readme_shows(place: Path) -> None:
    names: dict[str, Any] = {}
    printed_by(blocks()[0], names)
    readme = (ROOT / "README.md").read_text(encoding="utf-8")
    shown = readme.partition("--header examples/receipts.csv\n")[2].partition("\n\n")[0]
    wanted = []
    for line in shown.split():
        count, confidence, lift, _, left, right = line.split(",")
        figures = int(count), float(Fraction(confidence)), float(Fraction(lift))
        wanted.append((frozenset({left}), frozenset({right}), *figures))
    found = names["found"].drop(columns="support").iloc[:, :5]
    assert list(found.itertuples(index=False, name=None)) == wanted


def test_the_example_of_readme_prints_what_it_shows(place: Path) -> None:
    readme = (ROOT / "README.md").read_text(encoding="utf-8")
    (found,) = FENCE.finditer(readme)
    block = Block(0, "README", *found.groups())
    assert printed_by(block, {}) == block.printed
