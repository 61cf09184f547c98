#!/usr/bin/env python3
"""Makes the page with the program in it, dist/basket.html.

usage: tools/page.py               at the top of the repository: proves the program first, if that is not done
       tools/page.py --unproved    the page over the program built without its proofs, beside that program

The kit makes the LLVM module of the program for x86-64 (tools/kit.py). It is compiled here for WebAssembly with 64-bit
memory, and linked with the C files of page/, by the kit's own clang and linker; nothing else is needed. The same
program gives the same bytes.
"""

import base64
import gzip
import hashlib
import json
import re
import subprocess
import sys
import tempfile
from pathlib import Path

import kit
from crates import listed, needed
from prove import prove

PAGE = Path("dist/basket.html")
UNPROVED = kit.UNPROVED.with_name("basket.html")
TEMPLATE = Path("page/page.html")
C_FILES = ("system", "heap")
# The largest page that is made, in bytes, and the most memory that a browser gives WebAssembly.
MOST, MOST_MEMORY = 1_000_000, 1 << 34
STACK = 1 << 20
# As the kit compiles for WebAssembly: the passes that are turned off have known faults.
TARGET = (
    "--target=wasm64-unknown-unknown --no-default-config -mcpu=lime1 -msimd128 -mllvm -expand-div-rem-bits=64 "
    "-mllvm -expand-fp-convert-bits=64 -mllvm -trap-unreachable -mllvm -disable-machine-licm "
    "-mllvm -disable-postra-machine-licm -mllvm -sink-common-insts=false -ffunction-sections -fdata-sections "
    "-fno-crash-diagnostics"
).split()
OF_C = "-O2 -ffreestanding -nostdinc -fno-builtin -fwrapv -Wall -Werror -c".split()
OF_MODULE = "-O3 -Werror -c -x ir".split()
LINKED = (
    f"-flavor wasm -mwasm64 --no-entry --stack-first -z stack-size={STACK} --max-memory={MOST_MEMORY} "
    "--gc-sections --strip-all --fatal-warnings"
).split()
# What a function of the module says of x86-64, and its first lines say of the target.
OF_X86 = re.compile(
    r' "(?:target-cpu|target-features|probe-stack|stack-probe-size)"="[^"]*"'
)
OF_TARGET = re.compile(r"^target (datalayout|triple) = .*$", re.M)
MARK = re.compile(r"{{([\w/.-]+)}}")


def clang(*words: str | Path) -> bytes:
    """What the kit's clang writes to standard output."""
    tool = kit.home() / "toolchain/bin/clang"
    return subprocess.run([tool, *words], stdout=subprocess.PIPE, check=True).stdout


def retargeted(text: str) -> str:
    """A module for x86-64 as one for WebAssembly. Pointers have 64 bits in both, so that no type changes its shape."""
    empty = clang(*TARGET, "-S", "-emit-llvm", "-x", "c", "/dev/null", "-o", "-")
    lines = {found[1]: found[0] for found in OF_TARGET.finditer(empty.decode())}
    text = OF_TARGET.sub(lambda found: lines[found[1]], text, count=len(lines))
    # A function `main` would be called with words of C.
    return OF_X86.sub("", text.replace("@main(", "@program("))


def compiled(module: Path) -> Path:
    """The program for WebAssembly, compiled from its module if that is newer."""
    made = module.with_name("program.o")
    sources = (module, Path(__file__))
    if made.exists() and all(
        it.stat().st_mtime <= made.stat().st_mtime for it in sources
    ):
        return made
    print("Compiling the program for WebAssembly.", file=sys.stderr, flush=True)
    plain = (
        "--no-default-config",
        "-S",
        "-emit-llvm",
        "-Xclang",
        "-disable-llvm-passes",
    )
    text = clang(*plain, "-x", "ir", module, "-o", "-").decode()
    with tempfile.TemporaryDirectory(prefix="basket-") as folder:
        source, part = Path(folder, "program.ll"), made.with_suffix(".part")
        source.write_text(retargeted(text), encoding="utf-8")
        clang(*TARGET, *OF_MODULE, source, "-o", part)
    return part.replace(made)


def linked(program: Path, *more: str) -> bytes:
    """The WebAssembly module of the program, over the C files of the page, with more words for the linker."""
    with tempfile.TemporaryDirectory(prefix="basket-") as folder:
        objects: list[str | Path] = [program]
        for name in C_FILES:
            objects.append(Path(folder, f"{name}.o"))
            clang(*TARGET, *OF_C, f"page/{name}.c", "-o", objects[-1])
        made = Path(folder, "basket.wasm")
        linker = kit.home() / "toolchain/bin/ld.lld"
        words: list[str | Path] = [linker, *LINKED, *more, "-o", made, *objects]
        subprocess.run(words, check=True)
        return made.read_bytes()


def packed(wasm: bytes, facts: dict[str, str]) -> str:
    """The page in one file.

    Its template names the files whose texts it has, and where the module and the facts stand. The digest, which its
    policy has, is that of its script.
    """
    texts = {
        "digest": "{{digest}}",
        "module": base64.b64encode(gzip.compress(wasm, 9, mtime=0)).decode(),
        "facts": json.dumps(facts).replace("<", "\\u003c"),
    }

    def text_of(mark: re.Match[str]) -> str:
        name = mark[1]
        text = texts[name] if name in texts else Path(name).read_text(encoding="utf-8")
        if re.search(r"(?i)</(?:script|style)", text):
            sys.exit(
                f"{name}: this text would end the element of the page that it is in"
            )
        return text

    text = MARK.sub(text_of, TEMPLATE.read_text(encoding="utf-8"))
    script = re.search(r"(?s)<script>(.*?)</script>", text)
    digest = hashlib.sha256(script[1].encode() if script else b"").digest()
    return text.replace("{{digest}}", base64.b64encode(digest).decode(), 1)


def version() -> str:
    text = Path("CITATION.cff").read_text(encoding="utf-8")
    found = re.search(r"^version: (\S+)$", text, re.M)
    assert found
    return found[1]


def write(page: Path, module: Path, is_proved: bool) -> Path:
    """Writes the page over a module."""
    kit_name = (kit.home() / "KIT-ID").read_text(encoding="utf-8").split()[0]
    facts = {"version": version(), "module": "proved" if is_proved else "unproved"}
    text = packed(linked(compiled(module)), {**facts, "kit": kit_name}).encode()
    if len(text) >= MOST:
        sys.exit(
            f"{page} would have {len(text):,} bytes, and is to have fewer than {MOST:,}"
        )
    page.parent.mkdir(parents=True, exist_ok=True)
    page.write_bytes(text)
    print(f"{page}: built, {len(text):,} bytes", flush=True)
    return page


def unproved() -> Path:
    """The page over the program built without its proofs."""
    return write(UNPROVED, kit.unproved_module(), False)


def proved(tree: Path) -> Path:
    """The page over the program that was proved in a folder."""
    if not kit.has_proved_module():
        kit.make_proved(tree)
    return write(PAGE, kit.PROVED_MODULE, True)


def main(words: list[str]) -> int:
    kit.demand()
    if words == ["--unproved"]:
        unproved()
    elif words:
        sys.exit(__doc__)
    elif kit.has_proved_module():
        write(PAGE, kit.PROVED_MODULE, True)
    else:
        with tempfile.TemporaryDirectory(prefix="basket-") as tree:
            if prove(needed([kit.PROGRAM], listed()), Path(tree)).failed:
                return 1
            proved(Path(tree))
    return 0


if __name__ == "__main__":
    sys.exit(main(sys.argv[1:]))
