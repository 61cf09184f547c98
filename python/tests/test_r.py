"""R's package: its own check, and its figures beside those of Python."""

import random
import subprocess
from fractions import Fraction
from pathlib import Path
from typing import Any

import pandas as pd
import pytest

import basket_miner as miner

PACKAGE = Path(__file__).parents[2] / "r"
# The baskets of a file of two columns, in each of the forms that a question takes.
FORMS = {
    "frame": "rows",
    "list": "split(rows$item, factor(rows$id, unique(rows$id)))",
    "matrix": "table(factor(rows$id, unique(rows$id)), factor(rows$item, unique(rows$item))) > 0",
    "path": "path, form = 'single', header = TRUE",
}
QUESTIONS = (
    "sets({}, support = 0.02)",
    "closed({}, support = '2%')",
    "maximal({}, support = 7 / 289)",
    "rules({}, support = 3, confidence = 2 / 3)",
    "count({}, sets = list('n0', c('n1', 'n2'), 'none'))",
)
SHOWN = """
library(basketminer)
rows <- read.csv(path, colClasses = "character")
shown <- function(found) {
  texts <- lapply(found, function(column) {
    if (is.list(column)) return(vapply(column, paste, "", collapse = " "))
    if (is.numeric(column)) sprintf("%.17g", column) else column
  })
  cat(do.call(paste, c(unname(texts), sep = ";")), sep = "\\n")
}
"""


def said_by_r(code: str, environment: dict[str, str]) -> list[str]:
    done = subprocess.run(
        ["Rscript", "--vanilla", "-e", code],
        env=environment,
        capture_output=True,
        text=True,
    )
    assert done.returncode == 0, done.stderr
    return done.stdout.splitlines()


def rows_of(lines: list[str]) -> list[list[Any]]:
    """Rows as `shown` writes them, with itemsets as sets, floats and fractions."""
    return [[_value(text) for text in line.split(";")] for line in lines]


def _value(text: str) -> object:
    if "/" in text:
        return Fraction(text)
    try:
        return float(text)
    except ValueError:
        return frozenset(text.split())


@pytest.mark.parametrize("form", FORMS)
def test_r_gives_the_figures_of_python(
    form: str, tmp_path: Path, r_library: dict[str, str]
) -> None:
    draw = random.Random(3)
    rows = [(draw.randrange(300), f"n{int(draw.expovariate(0.2))}") for _ in range(900)]
    if form in ("list", "matrix"):
        rows.sort()
    frame = pd.DataFrame(rows, columns=["id", "item"])
    frame.to_csv(tmp_path / "shop.csv", index=False)
    calls = [f"shown({call.format(FORMS[form])})" for call in QUESTIONS]
    code = f"path <- '{tmp_path}/shop.csv'{SHOWN}" + "; cat('next\\n'); ".join(calls)
    said = "\n".join(said_by_r(code, r_library)).split("\nnext\n")
    columns: Any = {"basket": "id", "item": "item", "exact": True}
    wanted = [
        miner.sets(frame, 0.02, **columns),
        miner.closed(frame, "2%", **columns),
        # A share that was computed, of 289 baskets.
        miner.maximal(frame, Fraction(7, 289), **columns),
        miner.rules(frame, 3, Fraction(2, 3), **columns),
        miner.count(frame, [["n0"], ["n1", "n2"], ["none"]], **columns),
    ]
    assert frame["id"].nunique() == 289
    for lines, other in zip(said, wanted, strict=True):
        found = rows_of(lines.splitlines())
        assert found == other.iloc[:, : len(found[0])].values.tolist()


def test_check_of_r_has_nothing_to_say(
    tmp_path: Path, r_library: dict[str, str]
) -> None:
    # It would ask for the packages of repositories.
    (tmp_path / "profile").write_text("options(repos = character())\n")
    profile = {"R_PROFILE": str(tmp_path / "profile"), "LC_ALL": "C.UTF-8"}
    environment = {**r_library, **profile}
    for words in (["build", str(PACKAGE)], ["check", "--no-manual", "basketminer"]):
        found = [str(file) for file in tmp_path.glob("basketminer_*.tar.gz")]
        done = subprocess.run(
            ["R", "CMD", *words[:-1], *(found or words[-1:])],
            cwd=tmp_path,
            env=environment,
            stdout=subprocess.PIPE,
            # What runs and is compared is told there.
            stderr=subprocess.STDOUT,
            text=True,
        )
        assert done.returncode == 0, done.stdout
    assert "Comparing ‘receipts.Rout’ to ‘receipts.Rout.save’ ... OK" in done.stdout
    assert "Status: OK" in done.stdout
