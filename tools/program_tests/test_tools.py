"""What the tools say where something failed."""

import contextlib
import io
import itertools
import tempfile
import unittest
from pathlib import Path

import axioms
import edits
from checked import Report
from edits import TRIED, Edit
from package import links_of
from slow import by_function

from .certified import check

# As `rt ci` prints it.
CHECKED = """\
== basket_stream
by-macro: thiserror::Error blocks=2
fn basket_stream::sink::write: proved
note: something of basket_stream
logic=proved functions=28
rt: basket_stream proved
rt: basket_order is kept: an earlier run on this machine proved the same files over the same libraries
== basket_report
fn basket_report::text: proved
error: an open goal of basket_report::line
logic=not-proved functions=9
rt: basket_report NOT PROVED
rt: basket NOT PROVED: its library basket_report failed
rt: FAILED: basket_report basket
2 passed, 2 failed
"""


class Tools(unittest.TestCase):
    """Tools over texts that are written here."""

    def test_a_failed_proof_is_told_with_what_the_checker_says_of_that_crate_alone(
        self,
    ) -> None:
        report = Report()
        lines = CHECKED.splitlines(keepends=True)
        proved = [name for line in lines if (name := report.take(line))]
        self.assertEqual(proved, ["basket_stream", "basket_order"])
        self.assertEqual(
            report.text().splitlines(),
            [
                "== basket_report",
                "error: an open goal of basket_report::line",
                "logic=not-proved functions=9",
                "rt: basket_report NOT PROVED",
                "rt: basket NOT PROVED: its library basket_report failed",
                "rt: FAILED: basket_report basket",
                "2 passed, 2 failed",
            ],
        )

    def test_axioms_are_written_down_by_name_and_counted_by_library(self) -> None:
        listed = (
            "axioms libc: 2 reached of the 3 declared\n  libc::access\n"
            "  libc::heap::rattle_alloc   reached\n  libc::read   reached\n"
            "axioms os: 1 reached of the 1 declared\n  os::c::open   reached\n"
        )
        names = axioms.REACHED.findall(listed)
        self.assertEqual(
            names, ["libc::heap::rattle_alloc", "libc::read", "os::c::open"]
        )
        with tempfile.TemporaryDirectory() as folder, contextlib.chdir(folder):
            self.assertEqual(axioms.counted(), "")
            axioms.RECORD.parent.mkdir()
            axioms.RECORD.write_text("\n".join(names), encoding="utf-8")
            self.assertEqual(axioms.counted(), "2 of `libc`, 1 of `os`")

    def test_a_word_of_a_verdict_that_the_page_does_not_have_is_told(self) -> None:
        report = Report()
        for line in (
            "== app\n",
            "axioms libc: libc::read, libc::write (2 of the 9 declared)\n",
            "logic=proved functions=8 axioms=2 partial=yes native=nat sum=dac8\n",
            "rt: app proved\n",
        ):
            report.take(line)
        page = "2 functions of `libc`, `native=nat` and `sum=dac8`"
        self.assertEqual(report.untold("app", page), "app rests on partial=yes")
        self.assertEqual(report.untold("app", f"{page}, `partial=yes`"), "")
        self.assertEqual(report.untold("lib", page), "")

    def test_links_are_those_outside_code_and_to_files_alone(self) -> None:
        with tempfile.TemporaryDirectory() as folder:
            page = Path(folder, "page.md")
            page.write_text(
                "[`a`](a.md#part) ![b](<../b.png>) [c](https://c.org) [d](#d) `[e](e.md)`\n"
                '\n```text\n[f](f.md)\n```\n\n    [g](g.md)\n\n<img src="h.png">\n',
                encoding="utf-8",
            )
            above = Path(folder).parent
            self.assertEqual(
                links_of(str(page)),
                [f"{folder}/a.md", f"{above}/b.png", f"{folder}/h.png"],
            )

    def test_an_edit_is_applied_only_where_its_text_stands_once(self) -> None:
        rows = {
            "let a = 1;": None,
            "let b = 2;": "its text stands not once in its file: let b = 2;",
            "let c = 3;": "its text stands not once in its file: let c = 3;",
        }
        with tempfile.TemporaryDirectory() as folder, contextlib.chdir(folder):
            source = Path("crates/one/src/lib.rt")
            source.parent.mkdir(parents=True)
            source.write_text("let a = 1;\nlet b = 2;\nlet b = 2;\n", encoding="utf-8")
            for text, wanted in rows.items():
                edit = Path("crates/one/other.edit")
                lines = f"file: src/lib.rt\nold: {text}\nnew: let a = 0;\n"
                edit.write_text(lines, encoding="utf-8")
                with self.subTest(text=text):
                    self.assertEqual(Edit("one", edit).fault(), wanted)

    def test_an_edit_is_stale_after_a_change_of_code_and_fails_where_the_statement_is(
        self,
    ) -> None:
        edit = "file: src/lib.rt\nold: let a = 1;\nnew: let a = 0;\n"
        for crate, before in itertools.product(
            ("basket", "mine_fp"), ("// Why.\n", "let b = 2;\n")
        ):
            with tempfile.TemporaryDirectory() as folder, contextlib.chdir(folder):
                source = Path("crates", crate, "src/lib.rt")
                source.parent.mkdir(parents=True)
                Path("crates.txt").write_text(f"{crate}:\n", encoding="utf-8")
                place = Path("crates", crate, "must-fail/one.edit")
                place.parent.mkdir()
                place.write_text(edit, encoding="utf-8")
                source.write_text("let a = 1;\n", encoding="utf-8")
                (one,) = edits.edits()
                edits.RECORD.write_text(" ".join([one.name, *one.sums()]) + "\n")
                source.write_text(f"{before}let a = 1;\n", encoding="utf-8")
                is_stale = not before.startswith("//")
                bad = int(is_stale and crate == "basket")
                with self.subTest(crate=crate, before=before):
                    with contextlib.redirect_stdout(io.StringIO()) as said:
                        self.assertEqual(edits.looked_at(), (1 - bad, bad))
                    self.assertEqual("another text" in said.getvalue(), is_stale)

    def test_a_refusal_that_shows_nothing_of_a_contract_is_not_taken(self) -> None:
        rows = {
            "refused, as it must be": True,
            "refused, as it must be: src/lib.rt:4:1: error": True,
            "refused, as it must be (only because a proof file names what ..": False,
            "refused, as it must be (only by a limit of the prover, which ..": False,
            "NOT REFUSED: the crate is still proved with this edit": False,
        }
        for said, is_refused in rows.items():
            with self.subTest(said=said):
                found = TRIED.match(f"rt: must-fail one/other.edit: {said}")
                assert found
                self.assertEqual(bool(found[3]), is_refused)

    def test_what_the_checker_counts_is_taken_also_after_the_tests_of_a_crate(
        self,
    ) -> None:
        report = Report()
        lines = [
            "rt: basket_order is kept: an earlier run proved the same files",
            "== basket_runs",
            "rt: basket_runs proved",
            "== basket_runs: its tests",
            "fn basket_runs::tests::one: proved",
            "rt: basket_runs: its tests are proved",
            "rt: ok",
            "2 passed, 0 failed",
        ]
        for line in lines:
            report.take(f"{line}\n")
        self.assertEqual(
            (report.proved, report.kept), (["basket_runs"], ["basket_order"])
        )
        self.assertEqual((report.passed, report.failed), (2, 0))

    def test_numbers_of_axioms_that_a_page_has_not_are_told(self) -> None:
        report = Report()
        lines = (
            "== basket_cli",
            "axioms libc: libc::close, libc::read, ... (31 of the 393 declared)",
            "axioms os: os::load, os::store (11 of the 20 declared)",
            "rt: basket_cli proved",
        )
        for line in lines:
            report.take(f"{line}\n")
        rows = (
            ("31 functions of `libc` and 11 of `os`", ""),
            ("30 functions of `libc` and 11 of `os`", "basket_cli rests on 31 of libc"),
            ("", "basket_cli rests on 11 of os, 31 of libc"),
        )
        for page, wanted in rows:
            with self.subTest(page=page):
                self.assertEqual(report.untold("basket_cli", page), wanted)
        self.assertEqual(report.untold("basket_look", ""), "")

    def test_a_report_over_standard_input_or_a_file_is_checked_by_other_code(
        self,
    ) -> None:
        shop, named = b"1 2\n1\n", b"tea;jam\ntea\n"
        # Words, standard input, the file, and the report.
        rows = (
            ("sets --min 2", shop, b"", b"1 (2)\n"),
            ("sets --min=2 --workers=4 -", shop, b"", b"1 (2)\n"),
            ("items --min 2 shop", b"", shop, b"1 (2)\n"),
            ("items --form=baskets --sep=; --min=2 shop", b"", named, b"2;tea\n"),
        )
        for words, given, content, report in rows:
            with self.subTest(words=words), tempfile.TemporaryDirectory() as folder:
                Path(folder, "shop").write_bytes(content)
                check(words.split(), given, report, folder)
                wrong = report.replace(b"2", b"3")
                with self.assertRaises(ValueError):
                    check(words.split(), given, wrong, folder)

    def test_seconds_go_to_the_function_of_which_a_file_is_kept(self) -> None:
        files = (
            (10.0, "Rattle-basket_csv-proofs.RowLemmas.oantt"),
            (11.0, "Rattle-basket_csv-specs.contracts.row.text_at.Key.oantt"),
            (13.5, "Rattle-basket_csv-proofs.row.text_at.Lts.oantt"),
            (13.5, "Rattle-basket_csv-proofs.row.text_at.Lts.decls.oantt"),
            (17.5, "Rattle-basket_csv.proofs.pairs.Pairs.append.Proof.oantt"),
            (18.0, "judged"),
        )
        self.assertEqual(
            by_function(reversed(files)),
            ({"row.text_at": 3.5, "pairs.Pairs.append": 4.0}, 0.5),
        )
