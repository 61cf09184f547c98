#!/usr/bin/env python3
"""Makes all files of a release under dist/, or says in what two folders of such files differ.

usage: tools/release.py [--trial] [FOLDER]      at the top of the repository, after `make` and `make page`
       tools/release.py --compare ONE OTHER     ends with 1 if a file of one isn't the same in the other

It makes the Debian package, the tar file, the wheel, the page, the kept proofs as a file, a list of what is linked
(SPDX), the record of the proof, notes from CHANGELOG.md, and SHA256SUMS over all of them. A release is of a committed
text whose version has no -dev, by a program that was proved here and not elsewhere. --trial makes the files of
anything else, without the proofs where they are not all here: such files are no release. BASKET and PAGE name another
program and page. The same commit, program and proofs give the same bytes.
"""

import filecmp
import hashlib
import re
import shutil
import sys
from pathlib import Path

import edits
import kept
import kit
import package
import proofs
import sbom
import wheel
from crates import listed, needed
from package import PAGE, PROGRAM, output_of

SUMS = "SHA256SUMS"


class Release:
    """The text that is released, and the folder for its files."""

    def __init__(self, folder: Path, is_trial: bool) -> None:
        self.folder, self.is_trial = folder, is_trial
        self.version = package.version()
        self.commit = output_of("git", "log", "-1", "--format=%H")
        self.entries = kept.Store().entries()
        self.crates = needed([kit.PROGRAM], listed())

    def faults(self) -> list[str]:
        """Why this is no release, in words."""
        found = []
        if self.version.endswith("-dev"):
            found.append(f"{self.version} is a version between releases")
        if changed := output_of("git", "status", "--porcelain"):
            found.append(f"this is not as it is committed:\n{changed}")
        if lost := [it for it in self.crates if it not in self.entries]:
            found.append(f"{' '.join(lost)} is not proved here as its text stands")
        known = [self.entries[it] for it in self.crates if it in self.entries]
        if away := [it.name for it in known if it.is_from_elsewhere()]:
            found.append(f"{' '.join(away)} was proved elsewhere")
        if found_by_proof := self.program_sums():
            if digest_of(PROGRAM) not in found_by_proof:
                found.append(f"{PROGRAM} is not the program that was proved")
        return found

    def program_sums(self) -> list[str]:
        """The SHA-256 sums of the program as its proof left it, one for each compiler."""
        entry = self.entries.get(kit.PROGRAM)
        files = sorted(entry.proof.glob("[0-9]*")) if entry else []
        return [digest_of(path) for path in files]

    def record(self) -> str:
        """What the checker said of each crate, on which axioms the program rests, and which wrong bodies it refused."""
        lines = [
            f"basket {self.version}, commit {self.commit}, kit {proofs.kit_name()}",
            "",
            "# What the checker said of each crate of the program",
        ]
        for name in self.crates:
            lines += ["", f"## {name}", *self.told(name)]
        lines += ["", "# The axioms on which the program's proof rests, by name", ""]
        lines += Path("crates/axioms.txt").read_text(encoding="utf-8").splitlines()
        lines += ["", "# Must-fail edits: each breaks a body, and was refused", ""]
        known = edits.recorded()
        for edit in edits.edits():
            is_same = known.get(edit.name) == edit.sums()
            how = "over this text" if is_same else "over another text, if at all"
            lines.append(f"{edit.name}: refused {how}")
        return "\n".join(lines) + "\n"

    def told(self, name: str) -> list[str]:
        if name not in self.entries:
            return ["not proved here"]
        entry = self.entries[name]
        note = entry.proof / kept.VERDICT
        said = ["proved elsewhere"] * entry.is_from_elsewhere()
        if not note.is_file():
            return [*said, "proved earlier; its verdict was not written down"]
        return [*said, *note.read_text(encoding="utf-8").splitlines()]

    def notes(self) -> str:
        """The part of CHANGELOG.md for this version."""
        text = Path("CHANGELOG.md").read_text(encoding="utf-8")
        parts = re.split(r"(?m)^## ", text)[1:]
        name = "Unreleased" if self.version.endswith("-dev") else self.version
        (part,) = [it for it in parts if it.startswith(name)]
        return f"# basket {part.strip()}\n"

    def make(self) -> None:
        self.folder.mkdir(parents=True, exist_ok=True)
        for old in (it for it in self.folder.iterdir() if it.is_file() and it != PAGE):
            old.unlink()
        package.main([str(self.folder)])
        wheel.main([str(self.folder)])
        page = self.folder / "basket.html"
        if page.resolve() != PAGE.resolve():
            shutil.copyfile(PAGE, page)
        name = f"basket-{self.version}"
        texts = {
            f"{name}.spdx.json": sbom.text_of(self.version, self.commit),
            f"{name}-proof.txt": self.record(),
            f"{name}-notes.md": self.notes(),
        }
        for place, text in texts.items():
            (self.folder / place).write_text(text, encoding="utf-8")
        if all(it in self.entries for it in self.crates):
            proofs.pack(self.folder)
        write_sums(self.folder)


def digest_of(path: Path) -> str:
    with open(path, "rb") as file:
        return hashlib.file_digest(file, "sha256").hexdigest()


def write_sums(folder: Path) -> None:
    """Writes the sums of all files in a folder, as `sha256sum -c` reads them."""
    files = sorted(it for it in folder.iterdir() if it.is_file() and it.name != SUMS)
    lines = [f"{digest_of(path)}  {path.name}\n" for path in files]
    (folder / SUMS).write_text("".join(lines), encoding="utf-8")
    print("".join(lines), end="")


def compared(one: Path, other: Path) -> list[str]:
    """The files of two folders that aren't the same in both."""
    names = {it.name for folder in (one, other) for it in folder.iterdir()}
    _, odd, lost = filecmp.cmpfiles(one, other, names, shallow=False)
    return sorted([*odd, *lost])


def main(words: list[str]) -> int:
    match words:
        case ["--compare", one, other]:
            odd = compared(Path(one), Path(other))
            print("\n".join(f"{name}: not the same" for name in odd) or "the same")
            return int(bool(odd))
        case ["--trial", *rest] if len(rest) < 2:
            is_trial = True
        case [*rest] if len(rest) < 2 and not "".join(rest).startswith("-"):
            is_trial = False
        case _:
            sys.exit(__doc__)
    kit.demand()
    made = Release(Path(rest[0] if rest else "dist"), is_trial)
    for fault in made.faults():
        print(f"No release: {fault}")
    if made.faults() and not is_trial:
        return 1
    made.make()
    return 0


if __name__ == "__main__":
    sys.exit(main(sys.argv[1:]))
