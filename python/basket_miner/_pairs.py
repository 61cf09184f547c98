"""Files that the program rewrites as a basket's id and an item in each record, before it mines them."""

import contextlib
from collections.abc import Iterator

from ._baskets import Baskets, Source
from ._files import in_memory, kept
from ._program import run_into


@contextlib.contextmanager
def ready(baskets: Baskets, until: float | None) -> Iterator[Source]:
    """The source of baskets, which the program can read more than once.

    What is rewritten stays in memory, and does not go through Python.
    """
    is_utf_16 = any(word.startswith("utf-16") for word in baskets.pairs)
    with kept(baskets.source, any_kind=is_utf_16) as source:
        if not baskets.pairs:
            yield source
            return
        with in_memory() as pairs:
            run_into(pairs, ["pairs", *baskets.pairs], source, until=until)
            yield pairs
