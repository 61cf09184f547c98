"""The words that a contract is stated in, each followed to its definition in the spec files of our crates and the kit's."""

import re
from collections.abc import Iterable
from pathlib import Path
from typing import NamedTuple

import kit

from .program import ROOT

CRATES = ROOT / "crates"
# The crates of the kit whose definitions are a part of the statement.
OF_KIT = ("clap", "csv")


class Word(NamedTuple):
    """A word of a spec file, whose name has a slash where the file is in a folder."""

    crate: str
    file: str
    name: str


def places() -> dict[tuple[str, str], Path]:
    """Each spec file, by its crate and name."""
    found = {}
    for folder in [
        *CRATES.glob("*/specs"),
        *(kit.home() / "rattle" / it / "specs" for it in OF_KIT),
    ]:
        for path in folder.rglob("*.antt"):
            name = path.relative_to(folder).with_suffix("").as_posix()
            found[folder.parent.name, name] = path
    return found


def imported(text: str) -> dict[str, Word]:
    """The words that a file has from spec files, by the names that it gives them."""
    found = {}
    uses = (
        r"(?m)^(?:ghost |pub )?use Rattle\.(\w+)\.specs\.((?:\w+\.)*\w+)\.\{([^}]*)\}"
    )
    for crate, file, words in re.findall(uses, text):
        for word in map(str.strip, words.split(",")):
            name, _, here = word.partition(" as ")
            found[here or name] = Word(crate, file.replace(".", "/"), name)
    return found


class Definitions:
    """What each word of a spec file is defined by."""

    def __init__(self) -> None:
        self.texts: dict[Word, str] = {}
        self.used: dict[tuple[str, str], dict[str, Word]] = {}
        for (crate, file), path in places().items():
            text = path.read_text(encoding="utf-8")
            self.used[crate, file] = imported(text)
            begins = (
                r"(?m)^(?:abbrev )?(?:pub )?(?:record |data )?(\w+)\b.*\n(?:[ ].*\n)*"
            )
            for found in re.finditer(begins, text):
                if found[1] not in ("use", "mod"):
                    word = Word(crate, file, found[1])
                    self.texts[word] = self.texts.get(word, "") + found[0]

    def reached(self, words: Iterable[Word]) -> set[Word]:
        """These words and all that they are defined by."""
        waiting, seen = [*words], set[Word]()
        while waiting:
            word = waiting.pop()
            known = self.used.get((word.crate, word.file), {})
            if word in self.texts and word not in seen:
                seen.add(word)
                for name in re.findall(r"\w+", self.texts[word]):
                    waiting.append(known.get(name, word._replace(name=name)))
            elif word not in self.texts and word.name in known:
                # The file passes it on.
                waiting.append(known[word.name])
        return seen

    def lines(self, words: Iterable[Word]) -> int:
        """How many lines define these words, without comments."""
        lines = "".join(map(self.texts.__getitem__, words)).splitlines()
        return sum(not re.match(r"\s*(--|$)", line) for line in lines)


def clauses(path: str, function: str) -> list[str]:
    """The lines of a function's contract."""
    text = (CRATES / path).read_text(encoding="utf-8")
    head = re.search(rf"(?ms)^pub fn {function}\b.*?^\{{$", text)
    assert head
    return re.findall(r"(?m)^ +((?:ensures|requires) .*)$", head[0])


def stated(path: str, function: str, without: str = "") -> set[Word]:
    """The words of a function's clauses, without the clause of a name."""
    known = imported((CRATES / path).read_text(encoding="utf-8"))
    lines = [
        it for it in clauses(path, function) if not it.startswith(f"ensures {without} ")
    ]
    words = re.findall(r"\w+", "\n".join(lines))
    return {known[name] for name in words if name in known}


RUN = ("basket/src/engine.rt", "run")
COUNT = ("basket/src/count.rt", "run_count")
PERFORM = ("basket_main/src/program.rt", "perform")
