#!/usr/bin/env python3
"""Tries the must-fail edits, and writes down over which text each was refused.

usage: tools/edits.py          all: `rt ci` over the repository as it stands, which proves every crate too
       tools/edits.py CRATE..  those of some crates, over what `rt check` kept of them: `rt must-fail CRATE..`

An edit of a crate's source has to be refused by the checker, which shows that a contract says what it should.
That is tried where an edit or its crate is changed and before a release, and not in each run of the gate. The
file refused.txt beside the crates says of each edit over which text of its crate, comments aside, it was last refused.
An edit of a crate of the statement that was refused over another text fails the gate.
"""

import hashlib
import re
import subprocess
import sys
from pathlib import Path
from typing import NamedTuple

import kit
from crates import listed

RECORD = Path("crates/refused.txt")
# The crates that carry the statement of a whole run.
STATED = (
    "basket",
    "basket_cli",
    "basket_main",
    "basket_mining",
    "basket_outcome",
    "basket_stream",
)
# How a line of comment begins.
COMMENTS = {".rt": b"//", ".antt": b"--"}
# A refusal only by a name that the edit took away, or only by a limit of the prover, shows nothing of a contract.
TRIED = re.compile(
    r"rt: must-fail (\w+)/(\S+\.edit): (refused, as it must be(?! \(only ))?"
)


def without_comments(path: Path) -> bytes:
    """The lines of a file that are no comment."""
    mark = COMMENTS.get(path.suffix, b"\0")
    lines = path.read_bytes().splitlines(keepends=True)
    return b"".join(line for line in lines if not line.lstrip().startswith(mark))


class Edit(NamedTuple):
    """A must-fail edit of a crate."""

    crate: str
    path: Path

    @property
    def name(self) -> str:
        return f"{self.crate}/{self.path.name}"

    def fault(self) -> str | None:
        """Why the edit can't be applied, if so."""
        texts: dict[Path, str] = {}
        file, old = None, None
        for line in self.path.read_text(encoding="utf-8").splitlines():
            kind, _, rest = line.partition(": ")
            if kind == "file":
                file = Path("crates", self.crate, rest)
                if not file.is_file():
                    return f"there is no file {rest}"
                texts.setdefault(file, file.read_text(encoding="utf-8"))
            elif kind == "old":
                old = rest
            elif kind == "new":
                if file is None or old is None or texts[file].count(old) != 1:
                    return f"its text stands not once in its file: {old}"
                texts[file] = texts[file].replace(old, rest)
        return None if old is not None else "it changes nothing"

    def sums(self) -> tuple[str, str]:
        """The sums of the crate's text without comments and of the edit's."""
        top = Path("crates", self.crate)
        files = [
            path
            for folder in ("src", "specs", "proofs")
            for path in sorted(top.glob(f"{folder}/**/*"))
            if path.is_file()
        ]
        whole = hashlib.sha256()
        for path in files:
            whole.update(f"{path}\n".encode() + without_comments(path))
        edit = hashlib.sha256(self.path.read_bytes())
        return whole.hexdigest()[:16], edit.hexdigest()[:16]


def edits() -> list[Edit]:
    return [
        Edit(crate, path)
        for crate in sorted(listed())
        for path in sorted(Path("crates", crate, "must-fail").glob("*.edit"))
    ]


def recorded() -> dict[str, tuple[str, str]]:
    """Of each edit that was refused, the sums over which that was."""
    found = {}
    if RECORD.exists():
        for line in RECORD.read_text(encoding="utf-8").splitlines():
            name, crate, edit = line.split()
            found[name] = (crate, edit)
    return found


def commits_since(line: str) -> str:
    """How many commits ago a line of the record was written."""
    words = ["git", "log", "--format=%H", f"-S{line}", "--", str(RECORD)]
    last = subprocess.run(words, capture_output=True, text=True, check=False)
    if not last.stdout:
        return "not committed yet"
    words = ["git", "rev-list", "--count", f"{last.stdout.split()[0]}..HEAD"]
    count = subprocess.run(words, capture_output=True, text=True, check=False)
    return f"{count.stdout.strip()} commits ago"


def looked_at() -> tuple[int, int]:
    """Says which edits can't be applied, and which were last refused over another text. Counts the good and the bad ones:
    bad are those that can't be applied, and of the crates of the statement those that were refused over another text.
    """
    known, bad, older = recorded(), 0, []
    for edit in edits():
        if fault := edit.fault():
            print(f"must-fail {edit.name}: {fault}")
            bad += 1
        elif known.get(edit.name) != edit.sums():
            older.append(edit.name)
            bad += edit.crate in STATED
    for name in older:
        if sums := known.get(name):
            when = commits_since(" ".join([name, *sums]))
            print(f"must-fail {name}: last refused over another text, {when}")
        else:
            print(f"must-fail {name}: not refused so far")
    if older:
        print(
            f"`make edits` tries them; {len(older)} of {len(edits())} are to be tried."
        )
    return len(edits()) - bad, bad


def main(names: list[str]) -> int:
    kit.demand()
    words = ["rt", "must-fail", *names] if names else ["rt", "ci"]
    before = {edit.name: edit.sums() for edit in edits()}
    known = {name: sums for name, sums in recorded().items() if name in before}
    with subprocess.Popen(words, stdout=subprocess.PIPE, text=True) as checker:
        assert checker.stdout
        for line in checker.stdout:
            print(line, end="", flush=True)
            if (found := TRIED.match(line)) and f"{found[1]}/{found[2]}" in before:
                name = f"{found[1]}/{found[2]}"
                known.pop(name, None)
                if found[3]:
                    known[name] = before[name]
    lines = [
        f"{name} {crate} {edit}\n" for name, (crate, edit) in sorted(known.items())
    ]
    RECORD.write_text("".join(lines), encoding="utf-8")
    return checker.returncode


if __name__ == "__main__":
    sys.exit(main(sys.argv[1:]))
