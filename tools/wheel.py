#!/usr/bin/env python3
"""Makes a wheel of the Python package with the proved program and its page in it, under dist/.

usage: tools/wheel.py [FOLDER]    at the top of the repository, after `make` and `make page`; FOLDER instead of dist

`BASKET` names another program, and `PAGE` another page than dist/basket.html. The wheel's tag is that of the oldest
C library that has all symbols which the program asks for. It needs `setuptools`, `wheel` and `pip` of the system's
Python, `objdump`, and no network: tools/python-packages installs them. The same program and commit give the same bytes.
"""

import os
import re
import shutil
import subprocess
import sys
import tempfile
from pathlib import Path

from package import output_of

PROGRAM = Path(os.environ.get("BASKET", "crates/basket_cli/out/basket_cli"))
PAGE = Path(os.environ.get("PAGE", "dist/basket.html"))
PACKAGE = Path("python")
# The system's Python, which has Debian's packages, whatever other is first on the path.
PYTHON = "/usr/bin/python3"
LICENCES = ("LICENSE", "LICENSE-APACHE", "LICENSE-MIT", "NOTICE")
# The oldest C library that a tag can name: a static program asks for none.
LEAST = (2, 5)


def demand() -> None:
    """Ends this process with one line where what makes a wheel isn't there."""
    words = [PYTHON, "-c", "import setuptools, wheel, pip"]
    try:
        has_all = not subprocess.run(words, capture_output=True, check=False).returncode
    except FileNotFoundError:
        has_all = False
    if not has_all or not shutil.which("objdump"):
        sys.exit(
            f"A wheel needs {PYTHON} with pip, setuptools and wheel, and objdump: tools/python-packages installs them."
        )
    if not PROGRAM.is_file():
        sys.exit(
            f"{PROGRAM} is not here: `make` builds it, or BASKET names another program."
        )
    if not PAGE.is_file():
        sys.exit(
            f"{PAGE} is not here: `make page` makes it, or PAGE names another page."
        )


def platform() -> str:
    """The tag's platform: that of the oldest C library which has all that the program calls."""
    words = ["objdump", "-T", str(PROGRAM)]
    asked = subprocess.run(words, capture_output=True, text=True, check=False)
    if asked.returncode != 0 and "not a dynamic object" not in asked.stderr:
        sys.exit(asked.stderr)
    called = re.findall(r"GLIBC_(\d+)\.(\d+)", asked.stdout)
    versions = [(int(major), int(minor)) for major, minor in called]
    major, minor = max([LEAST, *versions])
    return f"manylinux_{major}_{minor}_x86_64"


def copy_package(folder: Path) -> None:
    """The package's sources in a folder, with the program, the page and the licences among them."""
    for name in ("pyproject.toml", "setup.py", "README.md"):
        shutil.copy(PACKAGE / name, folder)
    for name in LICENCES:
        shutil.copy(name, folder)
    shutil.copytree(PACKAGE / "command", folder / "command")
    shutil.copytree(
        PACKAGE / "basket_miner",
        folder / "basket_miner",
        ignore=shutil.ignore_patterns("__pycache__", "bin", "basket.html"),
    )
    place = folder / "basket_miner/bin/basket"
    place.parent.mkdir()
    shutil.copyfile(PROGRAM, place)
    place.chmod(0o755)
    shutil.copyfile(PAGE, folder / "basket_miner/_page_files/basket.html")


def build(source: Path, folder: Path) -> Path:
    """The wheel of a package's sources, in a folder."""
    time = output_of("git", "log", "-1", "--format=%ct")
    words = [PYTHON, "-m", "pip", "wheel", "--quiet", "--no-index", "--no-deps"]
    words += ["--no-build-isolation", f"--wheel-dir={folder}"]
    words += [f"--config-settings=--build-option=--plat-name={platform()}", str(source)]
    environment = {**os.environ, "SOURCE_DATE_EPOCH": time, "PYTHONWARNINGS": "ignore"}
    subprocess.run(words, env=environment, check=True)
    (made,) = folder.glob("*.whl")
    return made


def main(words: list[str]) -> int:
    demand()
    folder = Path(words[0] if words else "dist")
    folder.mkdir(parents=True, exist_ok=True)
    with tempfile.TemporaryDirectory(prefix="basket-wheel-") as name:
        source, built = Path(name, "source"), Path(name, "built")
        source.mkdir()
        copy_package(source)
        made = build(source, built)
        print(shutil.copy(made, folder))
    return 0


if __name__ == "__main__":
    sys.exit(main(sys.argv[1:]))
