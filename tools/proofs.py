#!/usr/bin/env python3
"""Hands on what `rt ci` keeps of the proofs of this text: as a file, or as libraries for `rt check`.

usage: tools/proofs.py pack [FOLDER]    writes dist/proofs-COMMIT-KIT.tar.zst, or into another folder: `make proofs`
       tools/proofs.py take FILE        takes the proofs of such a file: `make proofs-from FILE=..`
       tools/proofs.py forget           takes away what came from such files: `make proofs-forget`
       tools/proofs.py libraries        gives this clone the libraries that were proved: `make libraries`

`rt ci` keeps each proof under a sum of all that it was made from: the kit, the text of the crate and the libraries
below it. These sums are the kit's own, so a proof of another text or by another kit is never taken. What is taken is
not checked: it is worth as much as the word of whoever made the file. A marker beside each such proof has the tools
here say that it was proved elsewhere.
"""

import hashlib
import re
import shutil
import subprocess
import sys
import tarfile
import tempfile
from pathlib import Path

import kept
import kit
from package import output_of

MEMBER = re.compile(
    rf"(?:proof|tests)-\w+-[0-9a-f]{{64}}/(?:\d+|made\.json|{kept.VERDICT})"
)


def kit_name() -> str:
    return (kit.home() / "KIT-ID").read_text(encoding="utf-8").split()[0]


def pack(folder: Path, program: str = kit.PROGRAM) -> Path:
    """Writes the proofs of this commit into one file. The same proofs give the same bytes."""
    if output_of("git", "status", "--porcelain", "crates", "crates.txt", "HANDLES"):
        sys.exit("The crates are not as they are committed, and the file has a commit.")
    found = kept.Store().entries()
    if program not in found:
        sys.exit(f"{program} is not proved here as its text stands: `make` proves it.")
    commit = output_of("git", "log", "-1", "--format=%H %ct").split()
    folder.mkdir(parents=True, exist_ok=True)
    made = folder / f"proofs-{commit[0][:12]}-{kit_name()}.tar.zst"
    with open(made, "wb") as file, subprocess.Popen(
        ["zstd", "-q", "-T0", "-6", "--long=27"], stdin=subprocess.PIPE, stdout=file
    ) as pressed:
        with tarfile.open(
            fileobj=pressed.stdin, mode="w|", format=tarfile.USTAR_FORMAT
        ) as tar:
            for entry in found.values():
                for path in (
                    it for top in entry.folders() for it in sorted(top.iterdir())
                ):
                    if MEMBER.fullmatch(name := f"{path.parent.name}/{path.name}"):
                        add(tar, path, name, int(commit[1]))
    if pressed.returncode != 0:
        sys.exit(f"{made} was not written.")
    print(f"{made}: the proofs of {len(found)} crates, {made.stat().st_size:,} bytes")
    return made


def add(tar: tarfile.TarFile, path: Path, name: str, time: int) -> None:
    """Adds a file by what it has alone, and not by whose it is or when it was made."""
    member = tarfile.TarInfo(name)
    member.size, member.mtime, member.mode = path.stat().st_size, time, 0o644
    with open(path, "rb") as content:
        tar.addfile(member, content)


def unpack(file: Path, folder: Path) -> None:
    """Unpacks a file of proofs, and nothing but files with the names that such have."""
    words = ["zstd", "-q", "-d", "--long=27", "-c", str(file)]
    with subprocess.Popen(words, stdout=subprocess.PIPE) as pressed:
        with tarfile.open(fileobj=pressed.stdout, mode="r|") as tar:
            for member in tar:
                if not member.isreg() or not MEMBER.fullmatch(member.name):
                    sys.exit(f"{file} has {member.name}, which is no part of a proof.")
                content = tar.extractfile(member)
                assert content
                path = folder / member.name
                path.parent.mkdir(exist_ok=True)
                with open(path, "wb") as made:
                    shutil.copyfileobj(content, made)
    if pressed.returncode != 0:
        sys.exit(f"{file} is not whole.")


def take(file: Path) -> int:
    """Takes the proofs of a file that are of this text and this kit, and aren't here."""
    store = kept.Store()
    digest = hashlib.sha256(file.read_bytes()).hexdigest()
    prefix = f"rt-new-{kept.checker().os.getpid()}-"
    with tempfile.TemporaryDirectory(prefix=prefix, dir=store.place) as name:
        unpack(file, Path(name))
        found = kept.Store(place=Path(name)).entries()
        known = store.entries()
        taken = [it for crate, it in found.items() if crate not in known]
        for folder in (it for entry in taken for it in entry.folders()):
            (folder / kept.ELSEWHERE).write_text(
                f"{file.name} {digest}\n", encoding="utf-8"
            )
            if not (place := store.place / folder.name).exists():
                folder.rename(place)
    if not found:
        print(
            f"{file} has no proof of these crates as they stand by {kit_name()} as it is installed here."
        )
        return 1
    print(
        f"{file}: {len(taken)} of {len(found)} proofs taken, the others are here already."
    )
    if lost := store.lacking(found):
        print(f"It has none of {' '.join(lost)}.")
    print(
        "Nobody checked them here: each is said to be proved elsewhere wherever it is used."
    )
    return 0


def forget() -> int:
    """Takes away what came from files."""
    store = kept.Store()
    marks = sorted(store.place.glob(f"*/{kept.ELSEWHERE}"))
    for mark in marks:
        store.kept.drop(str(mark.parent))
    print(f"{len(marks)} proofs from elsewhere were taken away.")
    return 0


def give_libraries() -> int:
    """Puts each library that is kept where `rt check` looks for it. No verdict of `make` rests on these."""
    store = kept.Store()
    found = store.entries()
    given = []
    for crate in store.crates:
        place = Path(crate.folder, "out/rlib")
        if crate.is_program or place.exists() and crate.name not in found:
            # Over other libraries below it has to be built again.
            (place / "stamp").unlink(missing_ok=True)
            continue
        shutil.rmtree(place, ignore_errors=True)
        if crate.name in found and store.kept.give(crate, False, found[crate.name].key):
            (place / "stamp").write_text(crate.stamp(), encoding="utf-8")
            given.append(crate.name)
    elsewhere = [it for it in given if found[it].is_from_elsewhere()]
    print(
        f"{len(given)} libraries are here for `rt check`, {len(elsewhere)} of them proved elsewhere."
    )
    return 0


def main(words: list[str]) -> int:
    kit.demand()
    match words:
        case ["pack"]:
            pack(Path("dist"))
        case ["pack", folder]:
            pack(Path(folder))
        case ["take", file] if Path(file).is_file():
            return take(Path(file))
        case ["forget"]:
            return forget()
        case ["libraries"]:
            return give_libraries()
        case _:
            sys.exit(__doc__)
    return 0


if __name__ == "__main__":
    sys.exit(main(sys.argv[1:]))
