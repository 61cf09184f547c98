#!/usr/bin/env python3
# mypy: allow-untyped-calls
"""Installs each file of a release where the toolchain isn't, and mines the example receipts with each.

usage: tools/try_release.py [FOLDER]    FOLDER is dist by default

The Debian package and the tar file are tried in a minimal Debian system, which debootstrap makes in a folder: that
needs root and Debian's packages within reach (tools/try_package.sh). The wheel is tried in an environment of Python
that has Debian's pandas beside it, and the page in Debian's Chromium. Each has to write the rules that README shows.
"""

import contextlib
import os
import subprocess
import sys
import tempfile
import time
from collections.abc import Callable, Iterator
from pathlib import Path

ROOT = Path(__file__).resolve().parents[1]
PYTHON = "/usr/bin/python3"
RECEIPTS = ROOT / "examples/receipts.csv"
QUESTION = "rules --min 20% --conf 2/3 --form single --header".split()
RULES = "7,7/10,7/8,1,bread,milk\n3,1/1,5/4,1,tea,milk\n5,5/7,25/28,1,butter,milk\n"
# Where neither the kit nor this repository is on any path.
BARE = {"PATH": "/usr/sbin:/usr/bin:/sbin:/bin", "HOME": "/nowhere", "LANG": "C.UTF-8"}
IN_PYTHON = """
import sys
from basket_miner import page, rules
found = rules(sys.argv[1], "20%", "2/3", form="single", header=True)
print([int(it) for it in found["count"]], page().is_file())
"""


def output_of(*words: str | Path) -> str:
    ended = subprocess.run(
        words, env=BARE, cwd="/", stdout=subprocess.PIPE, text=True, check=True
    )
    return ended.stdout


def only(folder: Path, pattern: str) -> Path:
    (found,) = folder.glob(pattern)
    return found.resolve()


def packages(folder: Path) -> str:
    """The Debian package, and then the tar file, in a system that has nothing else."""
    made = [only(folder, pattern) for pattern in ("*.deb", "*-x86_64-linux.tar.gz")]
    output_of(ROOT / "tools/try_package.sh", *made)
    return "installed, run, taken away; unpacked, run"


def wheel(folder: Path) -> str:
    """The wheel in an environment of its own: the command, the module and the page."""
    with tempfile.TemporaryDirectory(prefix="basket-venv-") as place:
        output_of(PYTHON, "-m", "venv", "--system-site-packages", place)
        words = ["install", "--quiet", "--no-index", "--no-deps"]
        output_of(f"{place}/bin/pip", *words, only(folder, "*.whl"))
        assert output_of(f"{place}/bin/basket", *QUESTION, RECEIPTS) == RULES
        said = output_of(f"{place}/bin/python", "-c", IN_PYTHON, RECEIPTS)
        assert said == "[7, 3, 5] True\n", said
    return "installed; the command, the module and the page are there"


def page(folder: Path) -> str:
    """The page, with its example, from a file and without a network."""
    sys.path.insert(0, str(ROOT / "python/tests"))
    from browser import at, opened  # pylint: disable=import-outside-toplevel

    with opened("--host-resolver-rules=MAP * ~NOTFOUND") as browser:
        browser.get(only(folder, "basket.html").as_uri())
        at(browser, "example").click()
        stop = time.monotonic() + 300
        main = browser.find_element("tag name", "main")
        while main.get_attribute("aria-busy") != "false":
            assert time.monotonic() < stop, at(browser, "answered").text
            time.sleep(0.1)
        said = at(browser, "answered").text
        assert "rules in 15 baskets" in said, said
        assert at(browser, "unproved").is_displayed() is False or not proved(folder)
    return f"opened; it says: {said}"


def proved(folder: Path) -> bool:
    """Whether a folder has the files of a release, and not of a trial."""
    return any(folder.glob("proofs-*"))


def sums(folder: Path) -> str:
    ended = subprocess.run(
        ["sha256sum", "--quiet", "-c", "SHA256SUMS"], cwd=folder, check=True
    )
    return f"right, status {ended.returncode}"


@contextlib.contextmanager
def timed(name: str) -> Iterator[None]:
    print(f"{name} .. ", end="", flush=True)
    begun = time.monotonic()
    yield
    print(f" ({time.monotonic() - begun:.0f} s)", flush=True)


def main(words: list[str]) -> int:
    folder = Path(words[0] if words else "dist").resolve()
    parts: dict[str, Callable[[Path], str]] = {
        "sums": sums,
        "wheel": wheel,
        "page": page,
    }
    if os.geteuid() == 0:
        parts["packages"] = packages
    else:
        print("The packages are not tried: debootstrap needs root.")
    for name, part in parts.items():
        with timed(name):
            print(part(folder), end="")
    return int("packages" not in parts)


if __name__ == "__main__":
    sys.exit(main(sys.argv[1:]))
