"""Calls that show each of their keywords, and refuse others by name."""

import difflib
import functools
import inspect
import textwrap
from collections.abc import Callable
from typing import Any, Generic, TypeVar, cast, get_args

from ._keywords import keywords_of

# What other packages call a keyword.
_ELSEWHERE = {
    "algorithm": "miner",
    "format": "form",
    "min_confidence": "confidence",
    "min_support": "minimum",
    "n_jobs": "workers",
    "separator": "sep",
}

Signature = TypeVar("Signature")


class Typed(Generic[Signature]):
    """Makes a call with `**keywords` of a kind one that type checkers see by a signature."""

    def __call__(self, call: Callable[..., Any]) -> Signature:
        return cast(Signature, _with_keywords(call))


def _with_keywords(call: Callable[..., Any]) -> Callable[..., Any]:
    """Lets a call show each of its keywords, and refuse others by name."""
    signature = inspect.signature(call)
    own = [*signature.parameters.values()][:-1]
    (kind,) = get_args(call.__annotations__["keywords"])
    known = keywords_of(kind)
    names = [parameter.name for parameter in own] + [*known]

    @functools.wraps(call)
    def checked(*given: Any, **keywords: Any) -> Any:
        for name in keywords:
            if name not in names:
                raise TypeError(_refusal(call.__name__, name, names))
        return call(*given, **keywords)

    added = [
        inspect.Parameter(
            name, inspect.Parameter.KEYWORD_ONLY, default=word.default, annotation=hint
        )
        for name, (hint, word) in known.items()
    ]
    checked.__signature__ = signature.replace(parameters=own + added)  # type: ignore[attr-defined]
    lines = [_wrapped(f"{name}: {word.said}") for name, (_, word) in known.items()]
    told = inspect.cleandoc(call.__doc__ or "")
    checked.__doc__ = "\n".join([told, "", "Keywords:", *lines])
    return checked


def _refusal(call: str, name: str, names: list[str]) -> str:
    near = difflib.get_close_matches(name, names, n=1)
    near = near or [own for own in [_ELSEWHERE.get(name)] if own in names]
    hint = f"; did you mean {near[0]!r}?" if near else "."
    return (
        f"{call}() got an unexpected keyword argument {name!r}{hint} It takes "
        f"{', '.join(names)}."
    )


def _wrapped(text: str) -> str:
    return textwrap.fill(text, 88, initial_indent="    ", subsequent_indent="        ")
