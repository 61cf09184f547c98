"""Inputs that can be read once, or that are another file in another process."""

import os
import subprocess
import sys
import tempfile
import threading
from collections.abc import Callable
from pathlib import Path
from typing import Any

import pytest

import basket_miner as miner
from basket_miner import _calls, _levels, _program
from basket_miner.cluster import _passes

SHOP = Path(__file__).parents[2] / "examples/shop.dat"
# Of its three baskets two have a.
RECORDS = b"a,b\na\nc\n"
SECONDS = 60


def test_a_named_pipe_is_read_once_and_gives_report_and_shares(tmp_path: Path) -> None:
    calls: list[Callable[[Path], Any]] = [
        lambda path: miner.sets(path, 2, form="baskets"),
        lambda path: miner.sets(path, "2/3", form="baskets"),
        lambda path: miner.count(path, [["a"]], form="baskets").iloc[1:],
    ]
    for number, call in enumerate(calls):
        path = tmp_path / f"pipe {number}"
        os.mkfifo(path)
        writer = threading.Thread(target=path.write_bytes, args=(RECORDS,))
        writer.start()
        found = call(path)
        writer.join(SECONDS)
        rows = found[["itemsets", "count", "support"]].to_numpy().tolist()
        assert rows == [[{"a"}, 2, 2 / 3]]


def test_no_question_writes_a_temporary_file(
    monkeypatch: pytest.MonkeyPatch, tmp_path: Path
) -> None:
    # A file that is written on a disk stays there if a signal ends Python.
    monkeypatch.setattr(tempfile, "tempdir", "/nowhere")
    assert miner.count([["a", "b"], ["a"]], [["a"]])["count"].tolist() == [2, 2]
    records = tmp_path / "records"
    records.write_bytes(RECORDS)
    found = miner.count(records, [["a"], ["c"]], form="baskets")
    assert found["count"].tolist() == [3, 2, 1]
    monkeypatch.setattr(_levels, "_FEW", 2)
    pairs = miner.sets(SHOP, 7, max_items=2).iloc[3:]
    assert pairs["itemsets"].tolist() == [{1, 2}]
    with subprocess.Popen(["printf", "1 2\n1\n"], stdout=subprocess.PIPE) as made:
        assert made.stdout
        found = miner.sets(f"/dev/fd/{made.stdout.fileno()}", 2)
    assert found["count"].tolist() == [2]
    assert _passes._counted(b"1 2\n1\n", "part 1", b"1\n", []) == b"(2)\n1 (2)\n"


def printed(script: str, **options: Any) -> str:
    """What a Python process prints that has `script`."""
    words = [sys.executable, "-c", f"import basket_miner as miner\n{script}"]
    ended = subprocess.run(
        words, check=True, stdout=subprocess.PIPE, timeout=SECONDS, **options
    )
    return str(ended.stdout.decode())


def test_standard_input_is_that_of_the_caller_be_it_a_pipe_or_a_file(
    tmp_path: Path,
) -> None:
    script = 'print(miner.sets("/dev/stdin", 8).to_dict("list"))'
    piped = printed(script, input=SHOP.read_bytes())
    link = tmp_path / "link"
    link.symlink_to("/dev/stdin")
    with open(SHOP, "rb") as stdin:
        assert printed(script, stdin=stdin) == piped
    with open(SHOP, "rb") as stdin:
        assert printed(script.replace("/dev/stdin", str(link)), stdin=stdin) == piped
    # Of the fifteen baskets ten have item 1, twelve item 2, seven both, and fewer any other item.
    wanted = [frozenset([1]), frozenset([2])]
    assert piped == f"{dict(itemsets=wanted, count=[10, 12], support=[10 / 15, 0.8])}\n"


def test_a_descriptor_of_a_pipe_is_read_as_shells_give_them() -> None:
    with subprocess.Popen(["printf", "1 2\n1\n"], stdout=subprocess.PIPE) as made:
        assert made.stdout
        found = miner.rules(f"/dev/fd/{made.stdout.fileno()}", 1, 0)
    assert found["support"].tolist() == [0.5, 0.5]


def test_a_closed_standard_input_is_no_empty_file() -> None:
    script = """
import os
os.close(0)
try:
    miner.sets("/dev/stdin", 1)
except miner.FileError as fault:
    print(fault)
"""
    assert printed(script).startswith("cannot read /dev/stdin: ")


def test_sets_are_counted_where_no_standard_stream_is_open(tmp_path: Path) -> None:
    told = tmp_path / "told"
    script = f"""
import os
from pathlib import Path
for stream in range(3):
    os.close(stream)
found = miner.count([["a", "b"], ["a"]], [["a"], ["b"]])
Path({str(told)!r}).write_text(str(found["count"].tolist()))
os._exit(0)
"""
    printed(script)
    assert told.read_text() == "[2, 2, 1]"


def test_a_file_that_grows_between_the_two_runs_is_refused(
    monkeypatch: pytest.MonkeyPatch, tmp_path: Path
) -> None:
    path = tmp_path / "shop.dat"
    path.write_bytes(b"1 2\n1\n")

    def run_and_write(*given: Any, **options: Any) -> bytes:
        report = _program.run(*given, **options)
        with open(path, "ab") as file:
            file.write(b"3\n")
        return report

    assert miner.sets(path, 1)["support"].tolist() == [1.0, 0.5, 0.5]
    monkeypatch.setattr(_calls, "run", run_and_write)
    with pytest.raises(miner.FileError, match="shop.dat was changed while"):
        miner.sets(path, 1)
