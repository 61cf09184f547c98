"""The version of this package, which stands in pyproject.toml alone."""

import tomllib
from importlib import metadata
from pathlib import Path

_NAME = "basket-miner"
_SOURCE = Path(__file__).resolve().parents[1] / "pyproject.toml"


def _found() -> str:
    """The version of the source tree that this package is in, or else that of what is installed."""
    if _SOURCE.is_file():
        said = tomllib.loads(_SOURCE.read_text(encoding="utf-8")).get("project", {})
        if said.get("name") == _NAME:
            return str(said["version"])
    # An installer writes 1.2.0-dev as 1.2.0.dev0.
    return metadata.version(_NAME).replace(".dev0", "-dev")


__version__ = _found()
