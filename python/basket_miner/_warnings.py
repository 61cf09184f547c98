"""Warnings of this package."""

import sys
import warnings
from pathlib import Path

_PACKAGE = f"{Path(__file__).parent}/"


def warn(said: str) -> None:
    """Warns at the line that called this package, so that Python shows it once for each such line."""
    level, frame = 1, sys._getframe()
    while frame.f_back and frame.f_code.co_filename.startswith(_PACKAGE):
        level, frame = level + 1, frame.f_back
    warnings.warn(said, stacklevel=level)
