"""The built program, and what a run of it gives."""

import os
import pty
import shlex
import subprocess
import tempfile
from collections.abc import Callable
from dataclasses import dataclass
from pathlib import Path

from . import certified

ROOT = Path(__file__).parents[2]
PROGRAM = os.environ.get("BASKET", str(ROOT / "crates/basket_cli/out/basket_cli"))
SECONDS = 120
MINERS = ("apriori", "eclat", "eclat-diff", "eclat-bits", "fpgrowth")


@dataclass(frozen=True)
class Run:
    """What a run wrote, and how it ended."""

    out: bytes
    said: str
    status: int


def run(
    words: list[str], given: bytes = b"", prepare: Callable[[], None] | None = None
) -> Run:
    """Runs the program with these words over these bytes, and has its report checked."""
    ended = subprocess.run(
        [PROGRAM, *words],
        input=given,
        capture_output=True,
        timeout=SECONDS,
        preexec_fn=prepare,
        check=False,
    )
    if ended.returncode == 0:
        certified.check(words, given, ended.stdout, ".")
    return Run(ended.stdout, ended.stderr.decode(), ended.returncode)


def run_between(words: list[str], given: str, taken: str) -> Run:
    """Runs the program from a file or folder of a name to another."""
    opened = os.open(given, os.O_RDONLY)
    try:
        with open(taken, "wb") as out:
            ended = subprocess.run(
                [PROGRAM, *words],
                stdin=opened,
                stdout=out,
                stderr=subprocess.PIPE,
                timeout=SECONDS,
                check=False,
            )
    finally:
        os.close(opened)
    return Run(b"", ended.stderr.decode(), ended.returncode)


def run_at_terminal(words: list[str], given: bytes, place: str | Path = ".") -> Run:
    """Runs the program in a folder, with a terminal as its standard error, and has its report checked."""
    above, below = pty.openpty()
    with subprocess.Popen(
        [PROGRAM, *words],
        cwd=place,
        stdin=subprocess.PIPE,
        stdout=subprocess.PIPE,
        stderr=below,
    ) as process:
        os.close(below)
        out, _ = process.communicate(given, timeout=SECONDS)
    said = b""
    while True:
        try:
            piece = os.read(above, 65536)
        except OSError:
            break
        if not piece:
            break
        said += piece
    os.close(above)
    if process.returncode == 0:
        certified.check(words, given, out, place)
    # A terminal ends a line with a carriage return too.
    return Run(out, said.decode().replace("\r\n", "\n"), process.returncode)


def run_script(script: str, place: Path) -> Run:
    """Runs commands in a folder, where the program is `basket`."""
    with tempfile.TemporaryDirectory() as folder:
        Path(folder, "basket").symlink_to(Path(PROGRAM).resolve())
        ended = subprocess.run(
            ["bash", "-c", f"PATH={shlex.quote(folder)}:$PATH; {script}"],
            cwd=place,
            capture_output=True,
            timeout=SECONDS,
            check=False,
        )
    return Run(ended.stdout, ended.stderr.decode(), ended.returncode)
