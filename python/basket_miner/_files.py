"""Files for several runs of the program. What is no file becomes one in memory, which no end of Python leaves behind."""

import contextlib
import fcntl
import os
from collections.abc import Iterator
from io import FileIO
from pathlib import Path
from typing import BinaryIO

from ._baskets import MOST_BYTES, Source
from ._errors import FileError
from ._foreign import refuse_foreign

_BLOCK = 1 << 20


@contextlib.contextmanager
def in_memory(content: bytes = b"") -> Iterator[FileIO]:
    """A file in memory with a content, to be read from its start.

    No pipe: a process that another thread forks meanwhile would have its writing end too, and a
    pipe ends when all of these are closed.
    """
    with open(_descriptor(), "w+b", buffering=0) as file:
        rest = memoryview(content)
        while rest:
            rest = rest[file.write(rest) :]
        file.seek(0)
        yield file


def _descriptor() -> int:
    """The descriptor of a new file in memory: none of a standard stream, which the program has others for."""
    found = os.memfd_create("basket")
    try:
        return fcntl.fcntl(found, fcntl.F_DUPFD_CLOEXEC, 3)
    finally:
        os.close(found)


@contextlib.contextmanager
def kept(source: Source, *, any_kind: bool = False) -> Iterator[Source]:
    """A source that the program can read more than once.

    A pipe or a device can be read once, and `/dev/stdin` is another file in another process. So
    what is no regular file is copied into memory, and links are followed here.

    Raises:
        DataError: it is a file of a kind that the program can't mine, and not any kind is wanted.
        FileError: it can't be read or copied.
    """
    if not isinstance(source, Path):
        yield source
        return
    real = os.path.realpath(source)
    is_own = real.startswith("/proc/")
    if os.path.isfile(real):
        if not any_kind:
            refuse_foreign_file(real, source)
        yield Path(real)
    elif os.path.isdir(real) or not (is_own or os.path.exists(source)):
        # The program says what is wrong.
        yield source
    else:
        # First what is read: the copy might take the descriptor of a closed input.
        with _opened(source) as stream, in_memory() as copy:
            _copied(stream, copy, source)
            if not any_kind:
                refuse_foreign(copy, source)
            yield copy


def refuse_foreign_file(file: str | Path, name: object) -> None:
    """Raises `DataError` if the file of a path is of a kind that the program can't read."""
    # Where it can't be opened, the program says why.
    with contextlib.suppress(OSError), open(file, "rb") as stream:
        refuse_foreign(stream, name)


def _opened(source: Path) -> BinaryIO:
    try:
        return open(source, "rb")
    except OSError as fault:
        raise FileError(f"cannot read {source}: {fault.strerror}") from fault


def _copied(stream: BinaryIO, copy: FileIO, source: Path) -> None:
    rest = MOST_BYTES
    try:
        while block := stream.read(min(rest, _BLOCK)):
            copy.write(block)
            rest -= len(block)
    except OSError as fault:
        raise FileError(f"cannot read {source}: {fault.strerror}") from fault


def state_of(source: Source) -> tuple[int, ...]:
    """What changes when a file is written or another takes its name."""
    if not isinstance(source, Path) or not os.path.exists(source):
        return ()
    found = source.stat()
    return found.st_dev, found.st_ino, found.st_size, found.st_mtime_ns
