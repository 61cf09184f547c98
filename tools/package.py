#!/usr/bin/env python3
"""Makes a Debian package and a tar file of the proved program, with the page, under dist/, and prints their sums.

usage: tools/package.py [FOLDER]    at the top of the repository, after `make` and `make page`; FOLDER instead of dist

`BASKET` names another program, and `PAGE` another page than dist/basket.html. The documents keep their places beside each other, so that their links hold: if one doesn't, it says which and
packs nothing. The same program and commit give the same bytes: every file has the commit's time and root as its owner.
"""

import gzip
import hashlib
import os
import re
import shutil
import subprocess
import sys
import tempfile
from email.utils import formatdate
from pathlib import Path

PROGRAM = Path(os.environ.get("BASKET", "crates/basket_cli/out/basket_cli"))
PAGE = Path(os.environ.get("PAGE", "dist/basket.html"))
# The files that a release leaves in the repository, which are not packaged.
RELEASES = "releases/"
# A link of a document to one of these.
RELEASED = re.compile(rf"\[([^\]]*)\]\((?:\.\./)*{RELEASES}[^)]*\)")
DOCUMENTS = (
    "*.md",
    "CITATION.cff",
    "LICENSE*",
    "NOTICE",
    "docs/*.md",
    "docs/pictures/*.png",
    "bench/COST.md",
    "bench/RESULTS.md",
    "examples/*",
    "python/README.md",
)
PLACE = "share/doc/basket"
PLACES = {
    "completions/basket.bash": "share/bash-completion/completions/basket",
    "completions/_basket": "share/zsh/vendor-completions/_basket",
    "completions/basket.fish": "share/fish/vendor_completions.d/basket.fish",
}


OVERRIDES = """\
# The program is the one that was proved, byte for byte.
basket: unstripped-binary-or-object
# Nothing is published yet, so there is no address.
basket: bogus-mail-host
basket: bogus-mail-host-in-debian-changelog
"""


def output_of(*words: str) -> str:
    return subprocess.run(
        words, stdout=subprocess.PIPE, text=True, check=True
    ).stdout.strip()


def least_libc() -> str:
    """The least version of the C library that has all that the program calls."""
    called = re.findall(r"GLIBC_(\d+)\.(\d+)", output_of("objdump", "-T", str(PROGRAM)))
    major, minor = max((int(major), int(minor)) for major, minor in called)
    return f"{major}.{minor}"


def documents() -> list[str]:
    """The documents of a package, by their places in the repository."""
    return sorted(str(path) for name in DOCUMENTS for path in Path().glob(name))


def links_of(document: str) -> list[str]:
    """The files that a document links to, by their places in the repository."""
    text = Path(document).read_text(encoding="utf-8")
    text = re.sub(r"(?ms)^```.*?^```|`[^`\n]*`|^    .*?$", "", text)
    found = re.findall(r"\]\(<?([^)>\s]+)|\b(?:src|href)=\"([^\"]+)", text)
    links = [(one or other).partition("#")[0] for one, other in found]
    folder = os.path.dirname(document)
    return [
        os.path.normpath(os.path.join(folder, link))
        for link in links
        if link and not re.match(r"[a-z]+:", link)
    ]


def lost_links() -> list[str]:
    """The links of packaged documents to files that are not packaged, in words."""
    packaged = documents()
    folders = {str(folder) for name in packaged for folder in Path(name).parents}
    return [
        f"{name} links to {link}, which is not packaged"
        for name in packaged
        if name.endswith(".md")
        for link in links_of(name)
        if link not in packaged and link not in folders
        if not f"{link}/".startswith(RELEASES)
    ]


def indented(text: str) -> str:
    """A text as a field of Debian's has it: each line after a space, and a point on an empty one."""
    lines = text.strip().splitlines()
    return "\n".join(f" {line}" if line.strip() else " ." for line in lines)


def copyright_of(version: str) -> str:
    """Debian's copyright file, which programs can read."""
    permission = Path("LICENSE-MIT").read_text(encoding="utf-8").partition("\n\n")[2]
    return f"""Format: https://www.debian.org/doc/packaging-manuals/copyright-format/1.0/
Upstream-Name: basket
Comment:
 basket {version}. The program has libraries of the kit that built it linked into
 it. The file NOTICE beside this one has what the kit states of their copyright
 and their licenses, with the texts.

Files: *
Copyright: 2026 the basket authors
License: Expat or Apache-2.0

License: Expat
{indented(permission)}

License: Apache-2.0
 On Debian systems the text of the Apache License, Version 2.0, is the file
 /usr/share/common-licenses/Apache-2.0.
"""


def fill(prefix: Path) -> None:
    """Puts the program, the page, the manual page, completions and documents below a prefix."""
    places = {
        str(PROGRAM): "bin/basket",
        str(PAGE): "share/basket/basket.html",
        **PLACES,
    }
    places |= {name: f"{PLACE}/{name}" for name in documents()}
    for name, place in places.items():
        (prefix / place).parent.mkdir(parents=True, exist_ok=True)
        shutil.copyfile(name, prefix / place)
        if name.endswith(".md"):
            text = Path(name).read_text(encoding="utf-8")
            (prefix / place).write_text(RELEASED.sub(r"\1", text), encoding="utf-8")
    manual = prefix / "share/man/man1/basket.1.gz"
    manual.parent.mkdir(parents=True)
    manual.write_bytes(gzip.compress(Path("man/basket.1").read_bytes(), mtime=0))


def settle(folder: Path, time: int) -> None:
    """Gives all files below a folder the same time, and rights that follow from what they are."""
    for path in (folder, *folder.rglob("*")):
        is_run = path.is_dir() or path.parent.name == "bin"
        path.chmod(0o755 if is_run else 0o644)
        os.utime(path, (time, time))


def version() -> str:
    return output_of(str(PROGRAM.resolve()), "--version").removeprefix("basket ")


def write_debian(tree: Path, version: str, time: int) -> None:
    changes = f"""basket ({version.replace('-', '~')}) unstable; urgency=medium

  * CHANGELOG.md beside this file says what changed.

 -- the basket authors <basket@localhost>  {formatdate(time)}
"""
    place = tree / "usr" / PLACE / "changelog.gz"
    place.write_bytes(gzip.compress(changes.encode(), mtime=0))
    place = tree / "usr/share/lintian/overrides/basket"
    place.parent.mkdir(parents=True)
    place.write_text(OVERRIDES, encoding="utf-8")
    size = sum(path.stat().st_size for path in tree.rglob("*") if path.is_file())
    (tree / "DEBIAN").mkdir()
    terms = tree / "usr" / PLACE / "copyright"
    terms.write_text(copyright_of(version), encoding="utf-8")
    (tree / "DEBIAN/control").write_text(
        f"""Package: basket
Version: {version.replace('-', '~')}
Architecture: amd64
Maintainer: the basket authors <basket@localhost>
Depends: libc6 (>= {least_libc()})
Installed-Size: {size // 1024 + 1}
Section: math
Priority: optional
Description: verified market-basket miner
 Lists the items and sets of items that are often bought together, and the
 rules between them, with exact counts, from FIMI files and CSV.
""",
        encoding="utf-8",
    )


def tell_sum(made: Path) -> None:
    print(f"{hashlib.sha256(made.read_bytes()).hexdigest()}  {made}")


def main(words: list[str]) -> None:
    if lost := lost_links():
        sys.exit("\n".join(lost))
    number = version()
    time = int(output_of("git", "log", "-1", "--format=%ct"))
    os.environ["SOURCE_DATE_EPOCH"] = str(time)
    os.umask(0o022)
    dist = Path(words[0] if words else "dist")
    dist.mkdir(parents=True, exist_ok=True)
    tell_sum(PAGE)
    with tempfile.TemporaryDirectory() as folder:
        name = f"basket-{number}-x86_64-linux"
        fill(Path(folder, name))
        settle(Path(folder, name), time)
        made = dist / f"{name}.tar.gz"
        words = [
            "tar",
            "--sort=name",
            "--owner=0",
            "--group=0",
            "--numeric-owner",
            "--format=ustar",
        ]
        packed = subprocess.run(
            [*words, "-C", folder, "-c", name], stdout=subprocess.PIPE, check=True
        )
        made.write_bytes(gzip.compress(packed.stdout, mtime=0))
        tell_sum(made)
        tree = Path(folder, "debian")
        fill(tree / "usr")
        write_debian(tree, number, time)
        settle(tree, time)
        made = dist / f"basket_{number}_amd64.deb"
        output_of(
            "dpkg-deb", "--root-owner-group", "-Zxz", "--build", str(tree), str(made)
        )
        tell_sum(made)


if __name__ == "__main__":
    main(sys.argv[1:])
