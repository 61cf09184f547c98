"""Texts that are cut, and the files of their parts."""

import itertools
from collections.abc import Sequence
from pathlib import Path


def written(folder: Path, texts: Sequence[bytes]) -> list[Path]:
    """The files of some parts."""
    files = [folder / f"part {number}" for number in range(len(texts))]
    for file, text in zip(files, texts):
        file.write_bytes(text)
    return files


def cut(text: bytes, *ends: int) -> list[bytes]:
    """The lines of a text in parts that end before these lines."""
    lines = text.splitlines(keepends=True)
    pairs = itertools.pairwise([0, *ends, len(lines)])
    return [b"".join(lines[start:end]) for start, end in pairs]
