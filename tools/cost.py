"""What a run took: time, processors and memory."""

import os
import resource
import time
from pathlib import Path


def processors() -> int:
    return len(os.sched_getaffinity(0))


def free_memory() -> int:
    """How many bytes of memory are free."""
    for line in Path("/proc/meminfo").read_text(encoding="ascii").splitlines():
        if line.startswith("MemAvailable:"):
            return 1024 * int(line.split()[1])
    return 0


def clock(seconds: float) -> str:
    whole, rest = divmod(round(seconds), 60)
    return f"{whole}:{rest:02}"


class Cost:
    """The cost of all that is done from here on, in this process and those that it waits for."""

    def __init__(self) -> None:
        self.begun = time.monotonic()
        self._before = self._processor_seconds()
        self._memory = free_memory()

    @staticmethod
    def _processor_seconds() -> float:
        kinds = (resource.RUSAGE_SELF, resource.RUSAGE_CHILDREN)
        used = [resource.getrusage(kind) for kind in kinds]
        return sum(it.ru_utime + it.ru_stime for it in used)

    def seconds(self) -> float:
        return time.monotonic() - self.begun

    def __str__(self) -> str:
        used = self._processor_seconds() - self._before
        return (
            f"{clock(self.seconds())} by the clock, {used:,.0f} processor seconds, "
            f"{processors()} processors, {self._memory / 1e9:.0f} GB of memory free at the start"
        )
