#!/usr/bin/env python3
"""Runs Weka and ELKI over inputs of the bench beside basket, and judges the sets of each by an independent count.

usage: bench/peers/peers.py PROGRAM [FOLDER]    at the top of the repository; inputs stay in FOLDER

It needs Debian's packages weka, elki, default-jdk-headless and time, and g++. For each program and question it prints the
processor seconds (user and system, of one run that writes no sets, the start of the Java machine among them), the
greatest memory, how many sets were listed, and which of them are wrong: bench/peers/count.cpp lists all sets by nothing
but rows of bits. A run may take LIMIT processor seconds. The miners that aren't FP-growth are asked the first question alone: they
take much longer.
"""

import os
import re
import subprocess
import sys
import tempfile
from collections.abc import Callable, Iterator
from datetime import datetime, timezone
from pathlib import Path
from typing import NamedTuple

HERE = Path(__file__).resolve().parent
sys.path.insert(0, str(HERE.parent))

from workloads import DENSE, INPUTS, SHORT, SPARSE  # noqa: E402

LIMIT = 60
# Inputs, and the least count of each question, as a fraction has it.
QUESTIONS = [
    (SPARSE, "1/200"),
    (SPARSE, "1/1000"),
    (DENSE, "1/10"),
    (SHORT, "1/5000"),
]
# One collector of garbage on one thread takes the fewest processor seconds.
JAVA = ["java", "-XX:+UseSerialGC", "-Xmx4g"]
JARS = Path("/usr/share/java")
WEKA = JARS / "weka.jar"
ELKI_MINERS = {"FPGrowth": "fp-growth", "Eclat": "eclat", "APRIORI": "apriori"}
SLOW = ("ELKI Eclat", "ELKI APRIORI", "Weka Apriori")
Sets = dict[frozenset[int], int]


class Run(NamedTuple):
    """What a run took, or that it was ended."""

    seconds: float
    megabytes: float
    has_ended: bool

    def __str__(self) -> str:
        if not self.has_ended:
            return f"over {LIMIT} s"
        return f"{self.seconds:.2f} s, {self.megabytes:.0f} MB"


def timed(words: list[str | Path], out: Path) -> Run:
    """Runs a command, whose standard output goes to a file.

    Debian's `time` starts it: the memory of a process counts from before it was another program, and that of this one
    is large.
    """
    with tempfile.NamedTemporaryFile("r") as note:
        bounded = f'ulimit -t {LIMIT}; exec /usr/bin/time -f "%U %S %M" -o "$0" "$@"'
        started: list[str | Path] = ["sh", "-c", bounded, note.name, *words]
        with open(out, "wb") as file:
            ended = subprocess.run(
                started, stdout=file, stderr=subprocess.DEVNULL, check=False
            )
        user, system, size = note.read().split()[-3:]
    seconds = float(user) + float(system)
    return Run(seconds, int(size) * 1024 / 1e6, ended.returncode == 0)


class Question(NamedTuple):
    """An input as each program reads it, and the least count."""

    fimi: Path
    least: int
    baskets: int
    folder: Path

    def arff(self) -> Path:
        """The input as Weka reads it: a sparse row of binary attributes for each basket."""
        made = self.fimi.with_suffix(".arff")
        if not made.exists():
            rows = [sorted({*map(int, line.split())}) for line in open(self.fimi)]
            items = sorted({item for row in rows for item in row})
            places = {item: place for place, item in enumerate(items)}
            with open(made, "w", encoding="ascii") as file:
                file.write("@relation baskets\n")
                file.writelines(f"@attribute i{item} {{0, 1}}\n" for item in items)
                file.write("@data\n")
                for row in rows:
                    cells = ",".join(f"{places[item]} 1" for item in row)
                    file.write(f"{{{cells}}}\n")
        return made


def read(lines: Iterator[str], pattern: str) -> Sets:
    """The sets of a text, whose pattern has the items and the count."""
    found: Sets = {}
    for line in lines:
        if match := re.fullmatch(pattern, line.strip()):
            items = frozenset(map(int, re.findall(r"\d+", match[1])))
            assert items not in found, line
            found[items] = int(match[2])
    return found


def by_basket(program: str, miner: str, ask: Question) -> tuple[Run, Sets | None]:
    words: list[str | Path] = [program, "sets", "--min", str(ask.least)]
    words += ["--miner", miner, ask.fimi]
    out = ask.folder / "basket.txt"
    return timed(words, out), read(iter(open(out)), r"([\d ]+) \((\d+)\)")


def by_elki(miner: str, ask: Question) -> tuple[Run, Sets | None]:
    jars = [*JARS.glob("elki.jar"), *JARS.glob("libsvm3.jar"), *JARS.glob("batik*.jar")]
    words: list[str | Path] = [*JAVA, "-cp", ":".join(map(str, jars))]
    words += ["de.lmu.ifi.dbs.elki.application.ELKILauncher", "KDDCLIApplication"]
    words += ["-dbc.in", ask.fimi, "-dbc.parser", "SimpleTransactionParser"]
    words += ["-algorithm", f"itemsetmining.{miner}"]
    words += ["-itemsetmining.minsupp", str(ask.least), "-resulthandler"]
    run = timed([*words, "DiscardResultHandler"], Path(os.devnull))
    if not run.has_ended:
        return run, None
    with tempfile.TemporaryDirectory() as folder:
        timed([*words, "ResultWriter", "-out", folder], Path(os.devnull))
        made = Path(folder, f"{ELKI_MINERS[miner]}.txt")
        return run, read(iter(open(made)), r"([\d, ]+): (\d+)")


def by_weka(miner: str, ask: Question) -> tuple[Run, Sets | None]:
    # The least support is a fraction; half a basket less leaves no doubt of rounding.
    share = repr((ask.least - 0.5) / ask.baskets)
    if miner == "Apriori":
        words: list[str | Path] = [*JAVA, "-cp", WEKA, "weka.associations.Apriori"]
        words += ["-t", ask.arff(), "-Z", "-M", share, "-U", "1.0", "-D", "1.0"]
        return timed([*words, "-C", "1.0", "-N", "1"], Path(os.devnull)), None
    words = [*JAVA, "-cp", f"{WEKA}:{ask.folder}", "weka.associations.Sets"]
    words += [ask.arff(), share]
    run = timed(words, Path(os.devnull))
    if not run.has_ended:
        return run, None
    made = ask.folder / "weka.txt"
    timed([*words, made], Path(os.devnull))
    return run, read(iter(open(made)), r"((?:i\d+ )+)\((\d+)\)")


def judged(found: Sets | None, right: Sets) -> str:
    """How many sets were listed, and what is wrong with them."""
    if found is None:
        return "sets not seen"
    lost = right.keys() - found.keys()
    more = found.keys() - right.keys()
    odd = [it for it in right.keys() & found.keys() if right[it] != found[it]]
    faults = {"missing": lost, "too many": more, "with another count": odd}
    said = ", ".join(f"{len(it)} {name}" for name, it in faults.items() if it)
    example = min((sorted(it) for it in [*lost, *more, *odd]), default=None)
    return f"{len(found):,} sets, {said or 'all right'}" + (
        f" (as {example})" if example else ""
    )


def made_input(says: str, folder: Path) -> Path:
    path = folder / f"{re.sub(r'[^0-9a-z]+', '-', says)}.dat"
    if not path.exists():
        with open(path, "wb") as file:
            for generator in INPUTS[says]:
                words = [sys.executable, *generator.split()]
                subprocess.run(words, cwd=HERE.parent, stdout=file, check=True)
    return path


def version_of(package: str) -> str:
    words = ["dpkg-query", "--show", "--showformat=${Version}", package]
    return subprocess.run(words, stdout=subprocess.PIPE, text=True, check=True).stdout


def measure(program: str, folder: Path) -> None:
    count = folder / "count"
    words: list[str | Path] = [
        "g++",
        "-O2",
        "-march=x86-64-v2",
        "-std=c++17",
        "-o",
        count,
    ]
    subprocess.run([*words, HERE / "count.cpp"], check=True)
    subprocess.run(["javac", "-cp", WEKA, "-d", folder, HERE / "Sets.java"], check=True)
    tools: dict[str, Callable[[Question], tuple[Run, Sets | None]]] = {}
    for miner in ("apriori", "eclat-bits", "fpgrowth"):
        tools[f"basket {miner}"] = lambda ask, it=miner: by_basket(program, it, ask)  # type: ignore[misc]
    for miner in ELKI_MINERS:
        tools[f"ELKI {miner}"] = lambda ask, it=miner: by_elki(it, ask)  # type: ignore[misc]
    for miner in ("FPGrowth", "Apriori"):
        tools[f"Weka {miner}"] = lambda ask, it=miner: by_weka(it, ask)  # type: ignore[misc]
    named = ", ".join(f"{it} {version_of(it)}" for it in ("weka", "elki"))
    day = datetime.now(timezone.utc).date()
    print(f"{named}, {day}; {sys.version.split()[0]}", flush=True)
    one = folder / "one.dat"
    one.write_text("1 2\n1\n", encoding="ascii")
    for says, share in [("two baskets", "1/1"), *QUESTIONS]:
        fimi = one if says == "two baskets" else made_input(says, folder)
        baskets = sum(1 for _ in open(fimi))
        over, under = map(int, share.split("/"))
        ask = Question(fimi, -(-baskets * over // under), baskets, folder)
        listed = subprocess.run(
            [count, fimi, str(ask.least)], stdout=subprocess.PIPE, text=True, check=True
        )
        right = read(iter(listed.stdout.splitlines()), r"([\d ]+) \((\d+)\)")
        print(f"\n{says}, {share}: {len(right):,} sets by count.cpp", flush=True)
        for name, tool in [*tools.items()]:
            load = os.getloadavg()[0]
            run, found = tool(ask)
            if says == SPARSE and name in SLOW:
                del tools[name]
            said = judged(found, right) if run.has_ended else ""
            print(f"  {name}: {run}; {said} (load {load:.0f})", flush=True)


def main(words: list[str]) -> int:
    if not words or len(words) > 2:
        sys.exit(__doc__)
    program = str(Path(words[0]).resolve())
    with tempfile.TemporaryDirectory(prefix="basket-peers-") as name:
        folder = Path(words[1] if len(words) > 1 else name).resolve()
        folder.mkdir(parents=True, exist_ok=True)
        measure(program, folder)
    return 0


if __name__ == "__main__":
    sys.exit(main(sys.argv[1:]))
