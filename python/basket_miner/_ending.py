"""Runs of the program that end early: at a time, or by the name of the question that they work for."""

import asyncio
import contextlib
import math
import numbers
import subprocess
import threading
import time
import uuid
from collections import deque
from collections.abc import Callable, Iterator
from functools import partial
from typing import Any, ParamSpec, TypeVar

from ._errors import DataError

Given = ParamSpec("Given")
Answer = TypeVar("Answer")

_THREAD = threading.local()
_LOCK = threading.Lock()
_RUNNING: dict[str, set[subprocess.Popen[bytes]]] = {}
# The last names that were ended: what still works for one may begin a run later.
_ENDED: deque[str] = deque(maxlen=1000)


def working_for(name: str, task: Callable[..., Any], *given: Any) -> Any:
    """What a task returns. Its runs of the program can be ended by this name."""
    _THREAD.name = name
    try:
        return task(*given)
    finally:
        _THREAD.name = None


@contextlib.contextmanager
def endable(process: subprocess.Popen[bytes]) -> Iterator[None]:
    """Lets `end` kill a process of this thread, if the thread works for a question."""
    name = getattr(_THREAD, "name", None)
    if name is None:
        yield
        return
    with _LOCK:
        running = _RUNNING.setdefault(name, set())
        running.add(process)
        if name in _ENDED:
            process.kill()
    try:
        yield
    finally:
        with _LOCK:
            running.discard(process)
            if not running:
                _RUNNING.pop(name, None)


def end(name: str) -> None:
    """Kills what runs in this process for a question, and what begins to run for it later."""
    with _LOCK:
        _ENDED.append(name)
        for process in _RUNNING.get(name, ()):
            process.kill()


def end_of(timeout: float | None) -> float | None:
    """The time of `time.monotonic` after so many seconds, or nothing."""
    if timeout is None:
        return None
    is_number = isinstance(timeout, numbers.Real) and not isinstance(timeout, bool)
    if not is_number or not 0 < timeout < math.inf:
        raise DataError(f"timeout is a number of seconds above 0, not {timeout!r}")
    return time.monotonic() + timeout


async def to_thread(
    call: Callable[Given, Answer], *given: Given.args, **keywords: Given.kwargs
) -> Answer:
    """What a question answers that is asked in a thread, as `asyncio.to_thread` asks it.

    If the task that waits is cancelled, also by `asyncio.timeout` and `asyncio.wait_for`, the
    program ends. A question to a cluster goes on: give it `timeout=`.
    """
    name = uuid.uuid4().hex
    task = partial(call, *given, **keywords)
    try:
        answer: Answer = await asyncio.to_thread(working_for, name, task)
        return answer
    except asyncio.CancelledError:
        end(name)
        raise
