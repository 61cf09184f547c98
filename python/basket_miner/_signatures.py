"""The calls as type checkers see them: with each keyword, which mypy before 1.7 finds in no `TypedDict`.

The types and defaults are those of `_keywords`, as the tests compare.
"""

from collections.abc import Hashable, Iterable
from typing import Any, Protocol

import pandas as pd

from ._baskets import Baskets, Labels
from ._keywords import Adjust, Form, Key, Miner, Missing
from ._minimum import Confidence, Minimum


class BasketsCall(Protocol):
    """As `baskets`."""

    def __call__(
        self,
        data: Any,
        *,
        basket: Key | None = ...,
        item: Hashable | None = ...,
        weight: Hashable | None = ...,
        missing: Missing = ...,
        form: Form | None = ...,
        sep: str | None = ...,
        header: bool = ...,
        weighted: bool = ...,
        encoding: str | None = ...,
        names: Labels | None = ...,
        total: int | None = ...,
    ) -> Baskets:
        ...


class ItemsetsCall(Protocol):
    """As `items`, `closed` and `maximal`."""

    def __call__(
        self,
        data: Any,
        minimum: Minimum,
        *,
        basket: Key | None = ...,
        item: Hashable | None = ...,
        weight: Hashable | None = ...,
        missing: Missing = ...,
        form: Form | None = ...,
        sep: str | None = ...,
        header: bool = ...,
        weighted: bool = ...,
        encoding: str | None = ...,
        names: Labels | None = ...,
        workers: int = ...,
        exact: bool = ...,
        progress: bool = ...,
        timeout: float | None = ...,
        miner: Miner | None = ...,
        limit: int | None = ...,
    ) -> pd.DataFrame:
        ...


class SetsCall(Protocol):
    """As `sets`."""

    def __call__(
        self,
        data: Any,
        minimum: Minimum,
        *,
        basket: Key | None = ...,
        item: Hashable | None = ...,
        weight: Hashable | None = ...,
        missing: Missing = ...,
        form: Form | None = ...,
        sep: str | None = ...,
        header: bool = ...,
        weighted: bool = ...,
        encoding: str | None = ...,
        names: Labels | None = ...,
        workers: int = ...,
        exact: bool = ...,
        progress: bool = ...,
        timeout: float | None = ...,
        miner: Miner | None = ...,
        limit: int | None = ...,
        max_items: int | None = ...,
    ) -> pd.DataFrame:
        ...


class CompareCall(Protocol):
    """As `compare`."""

    def __call__(
        self,
        before: Any,
        after: Any,
        minimum: Minimum,
        adjust: Adjust | None = ...,
        hypotheses: int | None = ...,
        *,
        basket: Key | None = ...,
        item: Hashable | None = ...,
        weight: Hashable | None = ...,
        missing: Missing = ...,
        form: Form | None = ...,
        sep: str | None = ...,
        header: bool = ...,
        weighted: bool = ...,
        encoding: str | None = ...,
        names: Labels | None = ...,
        workers: int = ...,
        exact: bool = ...,
        progress: bool = ...,
        timeout: float | None = ...,
        miner: Miner | None = ...,
        limit: int | None = ...,
        max_items: int | None = ...,
    ) -> pd.DataFrame:
        ...


class RulesCall(Protocol):
    """As `rules`."""

    def __call__(
        self,
        data: Any,
        minimum: Minimum,
        confidence: Confidence,
        *,
        basket: Key | None = ...,
        item: Hashable | None = ...,
        weight: Hashable | None = ...,
        missing: Missing = ...,
        form: Form | None = ...,
        sep: str | None = ...,
        header: bool = ...,
        weighted: bool = ...,
        encoding: str | None = ...,
        names: Labels | None = ...,
        workers: int = ...,
        exact: bool = ...,
        progress: bool = ...,
        timeout: float | None = ...,
        miner: Miner | None = ...,
        limit: int | None = ...,
    ) -> pd.DataFrame:
        ...


class CountCall(Protocol):
    """As `count`."""

    def __call__(
        self,
        data: Any,
        sets: pd.DataFrame | Iterable[Iterable[Hashable]],
        *,
        basket: Key | None = ...,
        item: Hashable | None = ...,
        weight: Hashable | None = ...,
        missing: Missing = ...,
        form: Form | None = ...,
        sep: str | None = ...,
        header: bool = ...,
        weighted: bool = ...,
        encoding: str | None = ...,
        names: Labels | None = ...,
        workers: int = ...,
        exact: bool = ...,
        progress: bool = ...,
        timeout: float | None = ...,
    ) -> pd.DataFrame:
        ...


class MinimumsCall(Protocol):
    """As `plot.minimums`."""

    def __call__(
        self,
        data: Any,
        minimums: Iterable[Minimum],
        axes: Any = ...,
        *,
        basket: Key | None = ...,
        item: Hashable | None = ...,
        weight: Hashable | None = ...,
        missing: Missing = ...,
        form: Form | None = ...,
        sep: str | None = ...,
        header: bool = ...,
        weighted: bool = ...,
        encoding: str | None = ...,
        names: Labels | None = ...,
        workers: int = ...,
        exact: bool = ...,
        progress: bool = ...,
        timeout: float | None = ...,
        miner: Miner | None = ...,
        limit: int | None = ...,
    ) -> Any:
        ...
