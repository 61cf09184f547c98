# mypy: allow-untyped-calls
"""Futures of Dask's distributed engine, put together and waited for."""

import contextlib
import time
import uuid
from collections.abc import Callable, Iterator
from dataclasses import dataclass, field
from functools import partial
from importlib import import_module
from typing import Any

from distributed import Client, Future
from distributed import progress as engine_bar

from .._ending import end, working_for
from .._errors import TimedOut

# How many results one task puts together.
WIDTH = 8


@dataclass(frozen=True)
class Tasks:
    """Tasks of one question, whose runs of the program end when it is given up."""

    client: Client
    name: str = field(default_factory=lambda: uuid.uuid4().hex)

    def submit(self, task: Callable[..., Any], *given: Any) -> Future:
        """The future of a task, which the engine shows by the task's name."""
        made_of = task.func if isinstance(task, partial) else task
        key = f"basket_{made_of.__name__.strip('_')}-{uuid.uuid4().hex}"
        words = (working_for, self.name, task, *given)
        future: Future = self.client.submit(*words, key=key)
        return future

    @contextlib.contextmanager
    def given_up(self) -> Iterator[None]:
        """Ends all runs of the program if the block is left by an exception.

        The engine cancels the tasks that wait, but not those that run.
        """
        try:
            yield
        except BaseException:
            with contextlib.suppress(Exception):
                self.client.run(end, self.name)
            raise


def awaited(future: Future, progress: bool, until: float | None = None) -> Any:
    """What a future gives, before a time of `time.monotonic`. It is cancelled where it is waited for
    no longer."""
    try:
        # In a terminal the engine's bar ends with the work; in a notebook it is a widget.
        if progress and (bar := engine_bar(future)) is not None:
            import_module("IPython.display").display(bar)
        return future.result(until and max(until - time.monotonic(), 0))
    except TimeoutError as fault:
        future.cancel()
        if until is None:
            raise
        raise TimedOut("timeout= was over") from fault
    except BaseException:
        # A client that was closed meanwhile can't cancel.
        with contextlib.suppress(Exception):
            future.cancel()
        raise


def tree(
    submit: Callable[..., Future], merge: Callable[..., Any], futures: list[Future]
) -> Future:
    """The future of neighbours put together, and again, until there is one."""
    while len(futures) > 1:
        groups = [futures[at : at + WIDTH] for at in range(0, len(futures), WIDTH)]
        futures = [submit(merge, *group) for group in groups]
    return futures[0]
