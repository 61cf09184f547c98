"""What pyproject.toml can't say: a wheel with the program is for one platform and brings a command, and a build leaves
nothing in this folder."""

import tempfile
from pathlib import Path

from setuptools import Distribution, setup

try:
    from setuptools.command.bdist_wheel import bdist_wheel
except ImportError:
    from wheel.bdist_wheel import bdist_wheel

PROGRAM = Path(__file__).resolve().parent / "basket_miner/bin/basket"


class Package(Distribution):  # type: ignore[misc]
    """The package, which is for one platform if it has the program."""

    def has_ext_modules(self) -> bool:
        return PROGRAM.is_file()


class Wheel(bdist_wheel):  # type: ignore[misc]
    """A wheel for every Python 3, since the program is no module of it."""

    def get_tag(self) -> tuple[str, str, str]:
        return "py3", "none", super().get_tag()[2]


with tempfile.TemporaryDirectory(prefix="basket-build-") as folder:
    setup(
        distclass=Package,
        cmdclass={"bdist_wheel": Wheel},
        # Without the program such a command would hide another that is on the path.
        scripts=["command/basket"] if PROGRAM.is_file() else [],
        options={"build": {"build_base": folder}, "egg_info": {"egg_base": folder}},
    )
