"""The crates of the repository, as crates.txt and the kit have them."""

import shutil
from pathlib import Path

# For each crate its line in crates.txt, and what it stands on.
Crates = dict[str, tuple[str, list[str]]]


def listed() -> Crates:
    """The crates of crates.txt, in its order."""
    crates = {}
    for line in Path("crates.txt").read_text(encoding="utf-8").splitlines():
        head, colon, below = line.partition("#")[0].partition(":")
        if colon:
            crates[head.split()[0]] = (line, below.split())
    return crates


def needed(names: list[str], crates: Crates) -> list[str]:
    """These crates and those that they stand on, lowest first."""
    found: list[str] = []

    def visit(name: str) -> None:
        if name in crates and name not in found:
            for below in crates[name][1]:
                visit(below)
            found.append(name)

    for name in names:
        visit(name)
    return found


def is_program(name: str) -> bool:
    return Path("crates", name, "src/main.rt").is_file()


def copy_to(tree: Path, names: list[str], crates: Crates) -> None:
    """Copies these crates without their must-fail edits, so that `rt ci` proves them and tries no edit."""
    (tree / ".git").mkdir()
    shutil.copy("HANDLES", tree)
    text = "".join(f"{crates[name][0]}\n" for name in names)
    (tree / "crates.txt").write_text(text, encoding="utf-8")
    unread = shutil.ignore_patterns("out", "must-fail")
    for name in names:
        shutil.copytree(Path("crates", name), tree / "crates" / name, ignore=unread)


def built(name: str) -> Path:
    """Where a program is, once it is built."""
    return Path("crates", name, "out", name)
