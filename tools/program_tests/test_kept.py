"""Kept proofs are handed on by the kit's own sums, and are said to come from elsewhere."""

import contextlib
import io
import subprocess
import tempfile
import time
import unittest
from pathlib import Path
from unittest import mock

import kept
import proofs
from checked import Report

CRATES = {
    "low": ("", "lib"),
    "high": (" low", "lib"),
    "app": (" high", "main"),
}


def write_crates(root: Path) -> None:
    """A repository of three crates, each on the one before."""
    lines = []
    for name, (below, top) in CRATES.items():
        source = root / "crates" / name / "src" / f"{top}.rt"
        source.parent.mkdir(parents=True)
        source.write_text(f"#![tactic(auto)]\n// {name}\n", encoding="utf-8")
        lines.append(f"{name}:{below}\n")
    (root / "crates.txt").write_text("".join(lines), encoding="utf-8")
    (root / "HANDLES").write_text("Handles allowed: none.\n", encoding="utf-8")
    (root / ".gitignore").write_text("out/\n", encoding="utf-8")
    words = ["-c", "user.name=a", "-c", "user.email=a@b", "commit", "-qm", "All"]
    for more in (["init", "-q"], ["add", "."], words):
        subprocess.run(["git", *more], cwd=root, check=True)


def keep_all(store: kept.Store) -> None:
    """Keeps what a proof of each crate would leave, by the kit's own code."""
    for crate in store.crates:
        out = Path(crate.folder, "out")
        files = [f"rlib/{crate.name}.rlib/format"]
        if crate.is_program:
            files = [crate.name + end for end in kept.checker().BACKENDS.values()]
        for name in files:
            (out / name).parent.mkdir(parents=True, exist_ok=True)
            (out / name).write_text(f"{crate.name} as built\n", encoding="utf-8")
        store.kept.is_built(crate)
        store.kept.keep(crate, False, store.kept.key(crate))


class Kept(unittest.TestCase):
    """Three crates, and stores of this test alone."""

    def setUp(self) -> None:
        place = Path(self.enterContext(tempfile.TemporaryDirectory()))
        self.root, self.stores = place / "root", [place / "one", place / "other"]
        write_crates(self.root)
        self.enterContext(contextlib.chdir(self.root))
        self.said = self.enterContext(contextlib.redirect_stdout(io.StringIO()))
        self.stands_in(0)
        keep_all(kept.Store())

    def stands_in(self, number: int) -> None:
        """Has this store be the machine's from here on."""
        place = str(self.stores[number])
        self.enterContext(mock.patch.object(kept.checker(), "STORE", place))

    def handed_on(self) -> Path:
        file = proofs.pack(self.root.parent / "dist", "app")
        self.stands_in(1)
        return file

    def test_proofs_of_a_file_are_told_as_proved_elsewhere(self) -> None:
        report, begun = Report(), time.time()
        report.take("rt: low is kept: an earlier run proved the same files\n")
        self.assertEqual(report.how("low", begun + 60, kept.Store()), "kept")
        self.assertEqual(proofs.take(self.handed_on()), 0)
        self.assertEqual(
            report.how("low", begun, kept.Store()), "kept, proved elsewhere"
        )
        self.assertIn("1 of these proved elsewhere", report.share())
        proofs.forget()
        self.assertEqual(kept.Store().entries(), {})

    def test_the_verdict_of_a_proof_is_written_down_and_handed_on(self) -> None:
        report, begun = Report(), time.time()
        for line in ("== low\n", "logic=proved functions=2\n", "rt: low proved\n"):
            report.take(line)
        self.assertEqual(report.how("low", begun, kept.Store()), "proved")
        proofs.take(self.handed_on())
        entry = kept.Store().entries()["low"]
        said = (entry.proof / kept.VERDICT).read_text(encoding="utf-8")
        self.assertEqual(said, "logic=proved functions=2\n")

    def test_proofs_of_another_text_are_not_taken_nor_those_above(self) -> None:
        file = self.handed_on()
        Path("crates/high/src/lib.rt").write_text("// other\n", encoding="utf-8")
        proofs.take(file)
        self.assertEqual([*kept.Store().entries()], ["low"])
        Path("crates/low/src/lib.rt").write_text("// other\n", encoding="utf-8")
        self.assertEqual(proofs.take(file), 1)

    def test_proofs_that_are_here_already_stay_proved_here(self) -> None:
        file = self.handed_on()
        self.stands_in(0)
        proofs.take(file)
        marked = [it.is_from_elsewhere() for it in kept.Store().entries().values()]
        self.assertEqual(marked, [False] * 3)

    def test_the_same_proofs_are_the_same_bytes_as_a_file(self) -> None:
        files = [proofs.pack(self.root.parent / name, "app") for name in ("a", "b")]
        self.assertEqual(files[0].read_bytes(), files[1].read_bytes())

    def test_a_file_with_other_names_in_it_is_refused(self) -> None:
        Path("odd").write_text("", encoding="utf-8")
        subprocess.run(["tar", "--zstd", "-cf", "odd.tar.zst", "odd"], check=True)
        with self.assertRaisesRegex(SystemExit, "has odd, which is no part of a proof"):
            proofs.take(Path("odd.tar.zst"))
        self.assertEqual(list(self.stores[0].glob("rt-new-*")), [])

    def test_libraries_are_where_the_kit_looks_for_them(self) -> None:
        for crate in kept.Store().crates:
            subprocess.run(["rm", "-r", f"{crate.folder}/out"], check=True)
        Path("crates/high/src/lib.rt").write_text("// other\n", encoding="utf-8")
        proofs.give_libraries()
        built = {it.name: it.is_built() for it in kept.Store().crates}
        self.assertEqual(built, {"low": True, "high": False, "app": False})
