# mypy: allow-untyped-calls
"""A cluster for all tests of parts, a browser for those of the page of rules, a database, and R with its package."""

import os
import shutil
import subprocess
from collections.abc import Iterator
from pathlib import Path

import pytest
from distributed import Client, LocalCluster
from selenium import webdriver

from basket_miner import explore, rules
from basket_miner._program import find
from browser import opened
from database import served, server_folder

RECEIPTS = Path(__file__).parents[2] / "examples/receipts.csv"


@pytest.fixture(scope="session")
def client() -> Iterator[Client]:
    """A client of three processes."""
    engine = LocalCluster(n_workers=3, threads_per_worker=1, dashboard_address=None)
    with engine, Client(engine) as found:
        yield found


@pytest.fixture(scope="session")
def browser() -> Iterator[webdriver.Chrome]:
    with opened() as found:
        yield found


@pytest.fixture(scope="session")
def database() -> Iterator[dict[str, str]]:
    """The environment in which psql finds a server that is the tests' own."""
    if (programs := server_folder()) is None:
        pytest.skip(
            "Debian's postgresql is not here: tools/python-packages installs it"
        )
    with served(programs) as found:
        yield found


@pytest.fixture(scope="session")
def r_library(tmp_path_factory: pytest.TempPathFactory) -> dict[str, str]:
    """The environment in which R finds its package, and the package the program."""
    if shutil.which("R") is None:
        pytest.skip(
            "Debian's r-base-core is not here: tools/python-packages installs it"
        )
    library = tmp_path_factory.mktemp("library")
    words = ["R", "CMD", "INSTALL", "--no-docs", "--no-test-load", "--no-byte-compile"]
    words += [f"--library={library}", str(RECEIPTS.parents[1] / "r")]
    subprocess.run(words, check=True, capture_output=True)
    return {**os.environ, "R_LIBS": str(library), "BASKET": str(find().resolve())}


@pytest.fixture
def shop(browser: webdriver.Chrome, tmp_path: Path) -> webdriver.Chrome:
    """The page of the 27 rules of the small shop."""
    found = rules(RECEIPTS, 2, "1/4", form="single", header=True)
    browser.get(explore(found, tmp_path / "rules.html").as_uri())
    return browser
