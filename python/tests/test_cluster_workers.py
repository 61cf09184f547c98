# mypy: allow-untyped-calls
"""Workers that lack the program, the package, or have another version of it."""

import contextlib
import os
import shutil
import subprocess
import sys
from collections.abc import Iterator
from pathlib import Path

import pytest
from dask.bag.core import from_sequence
from distributed import Client, LocalCluster

from basket_miner import ProgramMissing, __version__, _program, cluster

PACKAGE = Path(__file__).parents[1]
BASKETS = [["tea", "jam"], ["tea"], ["tea", "jam"], ["figs"]]
SECONDS = 60


def copied(folder: Path, version: str) -> Path:
    """A folder with the package of a version, where no program is."""
    place = folder / version
    ignored = shutil.ignore_patterns("__pycache__", "bin")
    shutil.copytree(PACKAGE / "basket_miner", place / "basket_miner", ignore=ignored)
    text = (PACKAGE / "pyproject.toml").read_text(encoding="utf-8")
    told = f'version = "{__version__}"'
    assert told in text
    (place / "pyproject.toml").write_text(
        text.replace(told, f'version = "{version}"'), encoding="utf-8"
    )
    return place


@contextlib.contextmanager
def joined(client: Client, name: str, folder: Path, path: str) -> Iterator[None]:
    """A worker of a name as a process of its own, which has this path for modules and no program."""
    words = ["-m", "distributed.cli.dask_worker", client.scheduler_info()["address"]]
    words += ["--name", name, "--no-nanny", "--nthreads=1", "--no-dashboard"]
    words += ["--local-directory", str(folder)]
    environment = {"PATH": "/usr/bin:/bin", "HOME": str(folder), "PYTHONPATH": path}
    before = len(client.scheduler_info()["workers"])
    with open(folder / f"{name}.log", "wb") as log, subprocess.Popen(
        [sys.executable, *words], env=environment, cwd=folder, stdout=log, stderr=log
    ) as worker:
        try:
            client.wait_for_workers(before + 1, timeout=SECONDS)
            yield
        finally:
            worker.terminate()


@pytest.fixture(name="empty")
def without_workers() -> Iterator[Client]:
    with LocalCluster(n_workers=0, dashboard_address=None) as engine:
        with Client(engine, set_as_default=False) as found:
            yield found


def test_a_worker_without_the_program_gets_it_and_others_are_named(
    empty: Client, tmp_path: Path
) -> None:
    if shutil.which("basket", path="/usr/bin:/bin"):
        pytest.skip("a program called basket is where all find it")
    here, old = copied(tmp_path, __version__), copied(tmp_path, "1.0.9")
    bag = from_sequence(BASKETS, npartitions=2)
    with joined(empty, "shelf", tmp_path, str(here)):
        found = cluster.sets(bag, 2, client=empty)
        # Of the four baskets three have tea, and two of these jam.
        assert dict(zip(found["itemsets"], found["count"])) == {
            frozenset(["tea"]): 3,
            frozenset(["jam"]): 2,
            frozenset(["tea", "jam"]): 2,
        }
        with pytest.MonkeyPatch.context() as patch:
            # The worker is known now, and is not asked again.
            patch.setattr(empty, "run", None)
            assert len(cluster.sets(bag, 2, client=empty)) == 3
        (program,) = empty.run(_program.find).values()
        assert os.path.commonpath([program, tmp_path]) == str(tmp_path)
        with joined(empty, "late", tmp_path, str(here)):
            assert len(cluster.sets(bag, 2, client=empty)) == 3
            assert len(set(empty.run(_program.find).values())) == 2
        with joined(empty, "bare", tmp_path, ""):
            with pytest.raises(ProgramMissing) as lacking:
                cluster.sets(bag, 2, client=empty)
        said = str(lacking.value)
        assert said.startswith("worker 'bare' at tcp://")
        assert "lacks the package basket_miner (No module named 'basket_miner')" in said
        assert "shelf" not in said
        with joined(empty, "old", tmp_path, str(old)):
            with pytest.raises(
                ProgramMissing, match="worker .old. at .* has basket_miner 1.0.9, and"
            ):
                cluster.sets(bag, 2, client=empty)
