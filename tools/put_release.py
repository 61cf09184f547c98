#!/usr/bin/env python3
"""Puts the files of a release into the repository, in place of those of the one before: releases/.

usage: tools/put_release.py [FOLDER]    at the top of the repository, after `make release`; FOLDER is dist by default

As long as nothing is published elsewhere, who sees the repository has the page, the package, the tar file and the wheel
of the newest version there, with their sums and the record of the proof. The proofs themselves stay out.
"""

import re
import shutil
import sys
from pathlib import Path

from release import SUMS, digest_of

PLACE = Path("releases")
KINDS = (
    "basket.html",
    "basket_*_amd64.deb",
    "basket-*-x86_64-linux.tar.gz",
    "basket_miner-*.whl",
    "basket-*.spdx.json",
    "basket-*-proof.txt",
)
HEAD = re.compile(r"basket (\S+), commit ([0-9a-f]{40}), kit (\S+)\n")
PAGE = """\
# basket {version}

The newest version, as files that need no toolchain. [docs/INSTALL.md](../docs/INSTALL.md) says what each needs, how it is installed, and whom you trust by it.

| File | For |
|---|---|
| [basket.html]({html}) | a browser on any system: save it, and open it |
| [{deb}]({deb}) | Debian 12 and its derivatives, on x86-64 |
| [{tar}]({tar}) | other Linux on x86-64 |
| [{wheel}]({wheel}) | Python 3.11 or later on Linux on x86-64 |
| [{spdx}]({spdx}) | what is linked into the program (SPDX) |
| [{proof}]({proof}) | the record of the proof |

- Commit `{commit}`, kit `{kit}`.
- `sha256sum -c SHA256SUMS` in this folder compares the sums:

```text
{sums}```
"""


def only(folder: Path, pattern: str) -> Path:
    found = [it for it in folder.glob(pattern)]
    if len(found) != 1:
        sys.exit(f"{folder} has {len(found)} files {pattern}; `make release` makes it.")
    return found[0]


def put(folder: Path, place: Path) -> None:
    files = [only(folder, pattern) for pattern in KINDS]
    head = HEAD.match(files[-1].read_text(encoding="utf-8"))
    assert head
    listed = (folder / SUMS).read_text(encoding="utf-8").splitlines(keepends=True)
    sums = [f"{digest_of(path)}  {path.name}\n" for path in sorted(files)]
    if lost := [line for line in sums if line not in listed]:
        sys.exit(f"{folder / SUMS} has other sums than these:\n{''.join(lost)}")
    shutil.rmtree(place, ignore_errors=True)
    place.mkdir()
    for path in files:
        shutil.copyfile(path, place / path.name)
    (place / SUMS).write_text("".join(sums), encoding="utf-8")
    names = dict(zip(("html", "deb", "tar", "wheel", "spdx", "proof"), files))
    text = PAGE.format(
        version=head[1],
        commit=head[2],
        kit=head[3],
        sums="".join(sums),
        **{word: path.name for word, path in names.items()},
    )
    (place / "README.md").write_text(text, encoding="utf-8")
    print(f"{place}: basket {head[1]}, {len(files)} files")


def main(words: list[str]) -> int:
    if len(words) > 1:
        sys.exit(__doc__)
    put(Path(words[0] if words else "dist"), PLACE)
    return 0


if __name__ == "__main__":
    sys.exit(main(sys.argv[1:]))
