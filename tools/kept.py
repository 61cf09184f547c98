"""What `rt ci` keeps of the proofs of this text on this machine.

It keeps each proof under a sum of all that it was made from: the kit, the text of the crate and the libraries below
it. These sums are the kit's own, so what is found here is never of another text or by another kit.
"""

import functools
import hashlib
import importlib.machinery
import importlib.util
import json
import sys
from pathlib import Path
from typing import Any, NamedTuple

import kit

# Files of ours in the folder of a kept proof, which the kit doesn't read: where it is from, and its verdict.
ELSEWHERE, VERDICT = "basket-elsewhere", "basket-verdict"


@functools.cache
def checker() -> Any:
    """The kit's command `rt`, as a module."""
    path = str(kit.home() / "bin/rt")
    loader = importlib.machinery.SourceFileLoader("rt", path)
    spec = importlib.util.spec_from_loader("rt", loader)
    assert spec
    made = importlib.util.module_from_spec(spec)
    loader.exec_module(made)
    return made


class Entry(NamedTuple):
    """What is kept of a crate: the folder of its proof, and that of its tests if there is one."""

    crate: Any
    key: str
    proof: Path
    tests: Path | None

    @property
    def name(self) -> str:
        return str(self.crate.name)

    def folders(self) -> list[Path]:
        return [self.proof, *([self.tests] if self.tests else [])]

    def is_from_elsewhere(self) -> bool:
        return any((folder / ELSEWHERE).exists() for folder in self.folders())


class Store:
    """The folder in which the kit keeps proofs, or another like it."""

    def __init__(self, root: Path = Path(), place: Path | None = None) -> None:
        rt = checker()
        top = str(root.resolve())
        rt.Crate.allowed = rt.handles_of(top)
        rt.rtlib.listed.cache_clear()
        self.crates = rt.crates_of(top)
        self.kept = rt.Kept(self.crates)
        if place:
            self.kept.at = str(place)

    @property
    def place(self) -> Path:
        if not self.kept.at:
            sys.exit(f"{checker().STORE} cannot be used, so nothing is kept.")
        return Path(self.kept.at)

    def entries(self) -> dict[str, Entry]:
        """What is kept of each crate as its text and those below stand now, lowest first."""
        found: dict[str, Entry] = {}
        self.kept.rlibs.clear()
        for crate in self.crates:
            if any(it.name not in found for it in crate.below()):
                continue
            key = self.kept.key(crate)
            proof, tests = (
                Path(self.kept.place(crate, of_tests, key))
                for of_tests in (False, True)
            )
            if not (proof / "made.json").is_file():
                continue
            made = json.loads((proof / "made.json").read_text(encoding="utf-8"))
            # As the kit sums up the library that it built.
            files = [] if crate.is_program else [(it, sum) for it, sum in made["files"]]
            self.kept.rlibs[crate.name] = hashlib.sha256(
                repr(files).encode()
            ).hexdigest()
            is_tested = (tests / "made.json").is_file()
            found[crate.name] = Entry(crate, key, proof, tests if is_tested else None)
        return found

    def note(self, name: str, verdict: list[str]) -> None:
        """Writes down beside a proof that was made just now what the checker said at its end."""
        entry = self.entries().get(name)
        if entry and verdict:
            text = "".join(verdict)
            (entry.proof / VERDICT).write_text(text, encoding="utf-8")

    def lacking(self, found: dict[str, Entry]) -> list[str]:
        return [it.name for it in self.crates if it.name not in found]
