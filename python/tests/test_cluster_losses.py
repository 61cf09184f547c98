# mypy: allow-untyped-calls
"""A worker process that is killed in the midst of the work."""

import contextlib
import os
import random
import re
import signal
import threading
import time
from collections.abc import Iterator
from pathlib import Path

import pytest
from dask.bag.core import from_sequence
from distributed import Client, LocalCluster

import brute
from basket_miner import TimedOut, cluster
from basket_miner._program import find, run

SHOP = Path(__file__).parents[2] / "examples/shop.dat"
PARTS = 7
SECONDS = 60
# A run that counts sets which another found.
COUNT = r"count .*--sets=/dev/fd/"


def told(log: Path) -> list[tuple[int, str]]:
    """The runs of the program so far: the process that began each, and its words."""
    lines = log.read_text().splitlines() if log.exists() else []
    pairs = [line.split(" ", 1) for line in lines]
    return [(int(process), words) for process, words in pairs]


def kill_one(log: Path, step: str, number: int, killed: list[int]) -> None:
    """Kills the worker process that begins the run of this number with words that begin so."""
    until = time.monotonic() + SECONDS
    while time.monotonic() < until and not killed:
        begun = [process for process, words in told(log) if re.match(step, words)]
        workers = [process for process in begun if process != os.getpid()]
        if len(workers) >= number:
            os.kill(workers[number - 1], signal.SIGKILL)
            killed.append(workers[number - 1])
        time.sleep(0.01)


@contextlib.contextmanager
def losing(step: str, number: int, folder: Path) -> Iterator[Client]:
    """A cluster that loses one worker process, in the midst of a run of the program."""
    log, slow = folder / "log", folder / "slow"
    slow.write_text(
        f'#!/bin/sh\necho $PPID "$@" >> "{log}"\nsleep 0.2\nexec "{find()}" "$@"\n'
    )
    slow.chmod(0o755)
    killed: list[int] = []
    with pytest.MonkeyPatch.context() as patch:
        patch.setenv("BASKET", str(slow))
        with LocalCluster(
            n_workers=3, threads_per_worker=1, dashboard_address=None
        ) as engine, Client(engine) as client:
            killer = threading.Thread(target=kill_one, args=(log, step, number, killed))
            killer.start()
            yield client
            killer.join()
    assert len(killed) == 1


# In the second pass, when the worker has sets of the first, and at the question to the sums.
@pytest.mark.parametrize(("step", "number"), [(COUNT, 1), ("rules", 1)])
def test_a_killed_worker_changes_no_byte(
    step: str, number: int, tmp_path: Path
) -> None:
    lines = SHOP.read_bytes().splitlines(keepends=True)
    files = [tmp_path / f"part {number}" for number in range(PARTS)]
    for start, file in enumerate(files):
        file.write_bytes(b"".join(lines[start::PARTS]))
    words = ["rules", "--min=20%", "--conf=2/3", "--miner=eclat"]
    wanted = run(words, SHOP)
    assert wanted.count(b"\n") == 3
    with losing(step, number, tmp_path) as client:
        assert cluster.report(files, *words, client=client) == wanted


def test_a_bag_of_sets_keeps_its_numbers_where_a_worker_is_killed(
    tmp_path: Path,
) -> None:
    source = random.Random(1)
    names = [f"item {number}" for number in range(12)]
    baskets = [set(source.sample(names, 6)) for _ in range(70)]
    bag = from_sequence(baskets, npartitions=PARTS)
    with losing(COUNT, 5, tmp_path) as client:
        found = cluster.sets(bag, "20%", client=client)
    wanted = brute.frequent([list(basket) for basket in baskets], 14)
    assert len(wanted) > 50
    assert dict(zip(found["itemsets"], found["count"])) == dict(wanted)


@pytest.fixture
def interrupts() -> Iterator[None]:
    """Interrupts are raised, also in tests that a shell started in the background, which ignores them."""
    before = signal.signal(signal.SIGINT, signal.default_int_handler)
    yield
    signal.signal(signal.SIGINT, before)


def is_running(process: int) -> bool:
    """Whether a process is there that has not ended."""
    try:
        stat = Path(f"/proc/{process}/stat").read_text()
    except OSError:
        return False
    return stat.rpartition(")")[2].split()[0] not in "ZX"


def interrupt_when(log: Path, runs: int) -> None:
    """Interrupts this process when so many runs have begun."""
    until = time.monotonic() + SECONDS
    while len(told(log)) < runs and time.monotonic() < until:
        time.sleep(0.02)
    os.kill(os.getpid(), signal.SIGINT)


@pytest.mark.usefixtures("interrupts")
def test_an_interrupt_and_a_timeout_end_the_runs_of_a_question_and_leave_the_workers_free(
    tmp_path: Path,
) -> None:
    log, slow = tmp_path / "log", tmp_path / "slow"
    # The runs of workers tell their own number and take for ever, until a file says otherwise.
    slow.write_text(
        f"""#!/bin/sh
[ "$1" = --version -o $PPID = {os.getpid()} -o -e "{tmp_path}/quick" ] && exec "{find()}" "$@"
echo $$ "$@" >> "{log}"
exec sleep 600
"""
    )
    slow.chmod(0o755)
    files = [tmp_path / f"part {number}" for number in range(4)]
    for file in files:
        file.write_bytes(SHOP.read_bytes())
    with pytest.MonkeyPatch.context() as patch:
        patch.setenv("BASKET", str(slow))
        with LocalCluster(
            n_workers=2, threads_per_worker=1, dashboard_address=None
        ) as engine, Client(engine) as client:
            threading.Thread(target=interrupt_when, args=(log, 2)).start()
            with pytest.raises(KeyboardInterrupt):
                cluster.report(files, "sets", "--min=20%", client=client)
            with pytest.raises(TimedOut):
                cluster.sets(files, "20%", client=client, timeout=5)
            (tmp_path / "quick").touch()
            # In each part ten of fifteen baskets have item 1 and twelve item 2, as examples/shop.dat shows.
            report = cluster.report(files, "items", "--min=60%", client=client)
            assert report == b"1 (40)\n2 (48)\n"
            begun = [process for process, _ in told(log)]
            assert len(begun) > 2 and not any(map(is_running, begun))
