"""Writes the inputs of the bench."""

import itertools
import os
import shutil
import subprocess
import sys
from concurrent.futures import ThreadPoolExecutor
from pathlib import Path

from workloads import INPUTS

HERE = Path(__file__).resolve().parent


def written(folder: Path) -> dict[str, str]:
    """Writes each input into a folder, and returns its file. Generators run on all processors."""
    each = dict.fromkeys(itertools.chain.from_iterable(INPUTS.values()))
    parts = {words: folder / f"part {place}" for place, words in enumerate(each)}
    with ThreadPoolExecutor(os.cpu_count()) as pool:
        list(pool.map(_generated, parts.items()))
    files = {says: str(folder / says) for says in INPUTS}
    for says, generators in INPUTS.items():
        with open(files[says], "wb") as whole:
            for words in generators:
                with open(parts[words], "rb") as part:
                    shutil.copyfileobj(part, whole)
    for path in parts.values():
        path.unlink()
    return files


def _generated(part: tuple[str, Path]) -> None:
    words, path = part
    print(words, file=sys.stderr)
    with open(path, "wb") as data:
        command = [sys.executable, *words.split()]
        subprocess.run(command, stdout=data, cwd=HERE, check=True)
