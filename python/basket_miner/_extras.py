"""Packages that only some modules need."""

import importlib.util


def demand_package(name: str, extra: str) -> None:
    """Raises `ModuleNotFoundError` if a package isn't here, which says what brings it."""
    if importlib.util.find_spec(name) is None:
        said = f"no package {name!r} is here: `pip install basket-miner[{extra}]` brings it"
        raise ModuleNotFoundError(said, name=name)
