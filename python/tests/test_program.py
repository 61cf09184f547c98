"""How the program is found and run. Small scripts stand for it where it can't be made to fail."""

import asyncio
import io
import math
import os
import signal
import subprocess
import sys
import threading
import time
from collections.abc import Callable, Iterator
from pathlib import Path
from typing import Any

import pytest

from basket_miner import (
    BasketError,
    DataError,
    FileError,
    InputError,
    OutOfMemory,
    ProgramMissing,
    TimedOut,
    TooManySets,
    UsageError,
    __version__,
    _ending,
    _program,
    count,
    sets,
    to_thread,
)


MAJOR, MINOR = map(int, __version__.split(".")[:2])
SECONDS = 60


def script(place: Path, text: str, version: str = f"basket {__version__}") -> Path:
    """A program that tells a version, and does else what a text says."""
    place.parent.mkdir(parents=True, exist_ok=True)
    told = f'if [ "$1" = --version ]; then echo "{version}"; exit; fi'
    place.write_text(f"#!/bin/sh\n{told}\n{text}\n")
    place.chmod(0o755)
    return place


def stand_in(monkeypatch: pytest.MonkeyPatch, folder: Path, text: str) -> None:
    monkeypatch.setenv("BASKET", str(script(folder / "stand_in", text)))


def test_the_first_of_four_places_is_taken(
    monkeypatch: pytest.MonkeyPatch, tmp_path: Path
) -> None:
    named, on_path = script(tmp_path / "named", ""), script(tmp_path / "p/basket", "")
    own, built = script(tmp_path / "own/bin/basket", ""), script(tmp_path / "built", "")
    monkeypatch.setattr(_program, "_PACKAGE", tmp_path / "own")
    monkeypatch.setattr(_program, "_BUILT", built)
    monkeypatch.setenv("PATH", str(on_path.parent))
    monkeypatch.setenv("BASKET", str(named))
    found = []
    for place in (named, own, on_path, built):
        found.append(_program.find() == place)
        monkeypatch.delenv("BASKET", raising=False)
        place.unlink()
    assert found == [True] * 4
    with pytest.raises(ProgramMissing, match="make wheel"):
        _program.find()


@pytest.mark.parametrize("first", [".", ""])
def test_a_program_in_the_current_folder_is_none_on_the_path(
    monkeypatch: pytest.MonkeyPatch, tmp_path: Path, first: str
) -> None:
    own, real = tmp_path / "own", script(tmp_path / "p/basket", "")
    for name in ("basket", "setpriv"):
        script(own / name, f"touch {tmp_path}/ran")
    monkeypatch.setattr(_program, "_PACKAGE", tmp_path)
    monkeypatch.setenv("PATH", f"{first}:{real.parent}:/bin:/usr/bin")
    monkeypatch.delenv("BASKET", raising=False)
    monkeypatch.chdir(own)
    assert _program.find() == real
    _program._guard.__wrapped__()
    assert not (tmp_path / "ran").exists()
    monkeypatch.setenv("BASKET", "basket")
    assert _program.find() == real
    monkeypatch.setenv("BASKET", "./basket")
    assert _program.find() == Path("./basket")


def test_a_wrong_name_of_the_program_is_told(monkeypatch: pytest.MonkeyPatch) -> None:
    monkeypatch.setenv("BASKET", "/nowhere/basket")
    with pytest.raises(ProgramMissing, match="BASKET names no program: /nowhere"):
        _program.run(["--version"])


def test_a_file_that_does_not_run_is_told(
    monkeypatch: pytest.MonkeyPatch, tmp_path: Path
) -> None:
    stand_in(monkeypatch, tmp_path, "")
    (tmp_path / "stand_in").write_bytes(b"\x7fELF of another machine")
    with pytest.raises(ProgramMissing, match="stand_in does not run: .*make wheel"):
        _program.run(["--version"], b"1 2\n")


@pytest.mark.parametrize(
    "version",
    [
        "",
        "basket",
        "BasKet Note Pads 2.49",
        "basket 2.49.0",
        f"basket {MAJOR}.{MINOR - 1}.9",
        f"basket {MAJOR + 1}.{MINOR}.0",
        f"basket {__version__} of another",
    ],
)
def test_another_program_of_this_name_is_refused_and_passed_over(
    monkeypatch: pytest.MonkeyPatch, tmp_path: Path, version: str
) -> None:
    other = script(tmp_path / "other", "", version)
    monkeypatch.setenv("BASKET", str(other))
    said = f"other is not basket {MAJOR}.{MINOR} or a later .* prints '{version}'; inst"
    with pytest.raises(ProgramMissing, match=said):
        sets([["tea"]], 1)
    monkeypatch.delenv("BASKET")
    on_path = script(tmp_path / "p/basket", "", version)
    monkeypatch.setattr(_program, "_PACKAGE", tmp_path)
    monkeypatch.setattr(_program, "_BUILT", tmp_path / "built")
    monkeypatch.setenv("PATH", f"{on_path.parent}:{os.environ['PATH']}")
    with pytest.raises(ProgramMissing, match=f"p/basket is not .*'{version}'; install"):
        _program.find()
    assert script(tmp_path / "built", "") == _program.find()


def test_a_program_is_asked_for_its_version_once_until_it_is_written_again(
    monkeypatch: pytest.MonkeyPatch, tmp_path: Path
) -> None:
    log = tmp_path / "log"
    for version in (f"basket {MAJOR}.{MINOR + 1}.0", f"basket {__version__}"):
        file = script(tmp_path / "stand_in", "", f"$(echo asked >> {log}){version}")
        monkeypatch.setenv("BASKET", str(file))
        assert _program.find() == _program.find() == file
        assert _program.run(["sets"]) == b""
    assert log.read_text() == "asked\nasked\n"


@pytest.mark.parametrize(
    ("words", "source", "kind", "said"),
    [
        ("sets --min nothing", b"", UsageError, "basket: bad value for --min"),
        ("sets --min 1", b"1 -", InputError, "basket: line 1: byte 0x2D is no digit"),
        ("sets --min 1", Path("-none"), FileError, "basket: cannot open ./-none"),
        ("sets --min 1 --limit 1", b"1 2", TooManySets, "basket: more than 1 frequent"),
    ],
)
def test_a_fault_is_an_exception_with_the_line_of_the_program(
    words: str, source: bytes | Path, kind: type[BasketError], said: str
) -> None:
    with pytest.raises(kind) as caught:
        _program.run(words.split(), source)
    assert str(caught.value).startswith(said)


def test_want_of_memory_and_signals_are_told(
    monkeypatch: pytest.MonkeyPatch, tmp_path: Path
) -> None:
    stand_in(monkeypatch, tmp_path, "echo basket: out of memory >&2; exit 6")
    with pytest.raises(OutOfMemory, match="^basket: out of memory$"):
        _program.run(["sets"])
    stand_in(monkeypatch, tmp_path, "kill -9 $$")
    with pytest.raises(BasketError, match="signal 9: Killed, as where memory ends"):
        _program.run(["sets"])
    stand_in(monkeypatch, tmp_path, "kill -15 $$")
    with pytest.raises(BasketError, match="signal 15: Terminated$"):
        _program.run(["sets"])


def test_large_inputs_and_outputs_pass_through(
    monkeypatch: pytest.MonkeyPatch, tmp_path: Path
) -> None:
    content = bytes(range(256)) * 100_000
    stand_in(monkeypatch, tmp_path, "exec cat")
    assert _program.run(["sets"], content) == content
    stand_in(monkeypatch, tmp_path, "exec echo unread")
    assert _program.run(["sets"], content) == b"unread\n"


def test_a_process_that_is_forked_meanwhile_keeps_nobody_waiting(
    monkeypatch: pytest.MonkeyPatch, tmp_path: Path
) -> None:
    stand_in(monkeypatch, tmp_path, f"echo $$ > {tmp_path}/id; exec cat")
    children: list[int] = []
    start = subprocess.Popen

    def forking(*words: Any, **given: Any) -> Any:
        # The child has all that is open now, and outlives the question.
        children.append(child := os.fork())
        if not child:
            time.sleep(SECONDS)
            os._exit(0)
        return start(*words, **given)

    assert _program.find().name == "stand_in"
    monkeypatch.setattr(subprocess, "Popen", forking)
    content = bytes(range(256)) * 10_000
    try:
        assert _program.run(["sets"], content) == content
        assert [is_running(child) for child in children] == [True]
    finally:
        for child in children:
            os.kill(child, signal.SIGKILL)
            os.waitpid(child, 0)


def test_a_question_ends_at_its_timeout(
    monkeypatch: pytest.MonkeyPatch, tmp_path: Path
) -> None:
    shop: Any = [["tea"]]
    calls: list[Callable[..., Any]] = [
        lambda **given: sets(shop, 1, **given),
        lambda **given: count(shop, shop, **given),
    ]
    for number, call in enumerate(calls):
        assert len(call(timeout=SECONDS)) == 1 + number
        for wrong in (0, -1, math.inf, math.nan, "1", True):
            with pytest.raises(DataError, match="timeout is a number of seconds"):
                call(timeout=wrong)
    stand_in(monkeypatch, tmp_path, f"echo $$ > {tmp_path}/id; exec sleep 600")
    for call in calls:
        (tmp_path / "id").unlink(missing_ok=True)
        ended_at_its_timeout(call, "basket (sets|count) -", tmp_path / "id")


def test_a_task_that_is_cancelled_ends_its_program(
    monkeypatch: pytest.MonkeyPatch, tmp_path: Path
) -> None:
    assert len(asyncio.run(to_thread(sets, [["tea"]], minimum=1))) == 1
    stand_in(monkeypatch, tmp_path, f"echo $$ > {tmp_path}/id; exec sleep 600")

    async def given_up() -> None:
        task = asyncio.create_task(to_thread(sets, [["tea"]], 1))
        await asyncio.to_thread(told_by, tmp_path / "id")
        task.cancel()
        await task

    with pytest.raises(asyncio.CancelledError):
        # It waits for the thread, which waits for the program.
        asyncio.run(given_up())
    assert not is_running(told_by(tmp_path / "id"))


def test_names_of_ended_questions_are_forgotten_in_time() -> None:
    before = len(_ending._ENDED)
    for number in range(5000):
        _ending.end(f"question {number}")
    assert "question 4999" in _ending._ENDED
    assert len(_ending._ENDED) < before + 5000


@pytest.fixture
def interrupts() -> Iterator[None]:
    """Interrupts are raised, also in tests that a shell started in the background, which ignores them."""
    before = signal.signal(signal.SIGINT, signal.default_int_handler)
    yield
    signal.signal(signal.SIGINT, before)


@pytest.mark.usefixtures("interrupts")
def test_an_interrupt_ends_the_program(
    monkeypatch: pytest.MonkeyPatch, tmp_path: Path
) -> None:
    stand_in(monkeypatch, tmp_path, f"echo $$ > {tmp_path}/id; exec sleep 60")

    def interrupt() -> None:
        told_by(tmp_path / "id")
        os.kill(os.getpid(), signal.SIGINT)

    threading.Thread(target=interrupt).start()
    with pytest.raises(KeyboardInterrupt):
        _program.run(["sets"])
    with pytest.raises(ProcessLookupError):
        os.kill(told_by(tmp_path / "id"), 0)


def is_running(process: int) -> bool:
    """Whether a process is there that has not ended."""
    try:
        stat = Path(f"/proc/{process}/stat").read_text()
    except OSError:
        return False
    return stat.rpartition(")")[2].split()[0] not in "ZX"


def has_told(file: Path) -> bool:
    """Whether a process has written its number to a file."""
    return file.exists() and file.read_text().endswith("\n")


def told_by(file: Path) -> int:
    """The number that a process writes to a file sooner or later."""
    until = time.monotonic() + SECONDS
    while not has_told(file):
        assert time.monotonic() < until
        time.sleep(0.02)
    return int(file.read_text())


def ended_at_its_timeout(call: Callable[..., Any], words: str, file: Path) -> None:
    """The call raises `TimedOut` with these words, and the program that tells its number to the file has ended.

    On a busy machine the program may be ended before it tells anything: then it is given more time.
    """
    for seconds in (0.5, 5, SECONDS):
        with pytest.raises(TimedOut, match=f"timeout= was over: {words}"):
            call(timeout=seconds)
        if has_told(file):
            break
    assert not is_running(told_by(file))


@pytest.mark.parametrize("ending", [signal.SIGKILL, signal.SIGTERM])
def test_the_program_ends_with_the_process_that_began_it(
    tmp_path: Path, ending: signal.Signals
) -> None:
    file = script(tmp_path / "slow", f"echo $$ > {tmp_path}/id; exec sleep 600")
    text = "from basket_miner import sets; sets([['tea']], 1)"
    environment = {**os.environ, "BASKET": str(file)}
    with subprocess.Popen([sys.executable, "-c", text], env=environment) as caller:
        program = told_by(tmp_path / "id")
        assert is_running(program)
        caller.send_signal(ending)
    until = time.monotonic() + SECONDS
    while is_running(program):
        assert time.monotonic() < until
        time.sleep(0.02)


def test_a_program_lives_as_long_as_its_own_thread(
    monkeypatch: pytest.MonkeyPatch, tmp_path: Path
) -> None:
    stand_in(monkeypatch, tmp_path, 'sleep "$1"; echo done')
    reports: list[bytes] = []
    threads = [
        threading.Thread(
            target=lambda word: reports.append(_program.run([word])), args=(word,)
        )
        for word in ("0", "0.1", "0.5", "1")
    ]
    for thread in threads:
        thread.start()
    for thread in threads:
        thread.join()
    assert reports == [b"done\n"] * 4


class Terminal(io.StringIO):
    def isatty(self) -> bool:
        return True


class Notebook(io.StringIO):
    __module__ = "ipykernel.iostream"


class Bare:
    """A stream as some loggers set it as standard error."""

    def getvalue(self) -> str:
        return ""


@pytest.mark.parametrize(
    ("stream", "is_asked", "is_told"),
    [
        (Terminal(), True, True),
        (Notebook(), True, True),
        (Terminal(), False, False),
        (io.StringIO(), True, False),
        (Bare(), True, False),
    ],
)
def test_progress_is_told_where_it_is_asked_and_seen(
    monkeypatch: pytest.MonkeyPatch,
    tmp_path: Path,
    stream: io.StringIO | Bare,
    is_asked: bool,
    is_told: bool,
) -> None:
    stand_in(monkeypatch, tmp_path, "sleep 1.2; echo done")
    monkeypatch.setattr(sys, "stderr", stream)
    assert _program.run(["sets", "--min=1"], progress=is_asked) == b"done\n"
    line = "basket sets --min=1: 1 s"
    told = f"\r{line}\r{' ' * len(line)}\r"
    assert stream.getvalue() == (told if is_told else "")
