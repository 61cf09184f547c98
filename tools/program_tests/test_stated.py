"""THEOREM, DEFINITIONS and PROVED name all that the statements rest on: spec files word by word, the kit's words, crates."""

import contextlib
import re
import unittest
from typing import ClassVar

from crates import listed as crates_listed
from crates import needed
from kit import PROGRAM

from .program import ROOT
from .stated import (
    COUNT,
    CRATES,
    OF_KIT,
    PERFORM,
    RUN,
    Definitions,
    Word,
    clauses,
    stated,
)
from .test_trust_pages import SpecFile, listed, named_in, page, what_to_read


def files_of(words: set[Word]) -> set[SpecFile]:
    """The spec files of our crates that some words are in."""
    return {(it.crate, it.file) for it in words if it.crate not in OF_KIT}


def crates_of_program() -> list[str]:
    """The crates of the program, and the kit's that are linked."""
    with contextlib.chdir(ROOT):
        crates = crates_listed()
        ours = needed([PROGRAM], crates)
    below = {name for it in ours for name in crates[it][1]}
    return [*ours, *sorted(below - {*ours})]


def cycles_of(crate: str) -> list[set[str]]:
    """The functions of a crate that call one another, by the mark that the kit demands, and each that calls itself."""
    found: dict[str, set[str]] = {}
    for path in sorted((CRATES / crate / "src").rglob("*.rt")):
        text = path.read_text(encoding="utf-8")
        mark = r"#\[cycle\((\w+)\)\]\s+(?:#\[.*\]\s+)*(?:pub(?:\(\w+\))? )?fn (\w+)"
        for cycle, name in re.findall(mark, text):
            found.setdefault(f"{path.stem} {cycle}", set()).add(name)
        functions = r"(?ms)^( *)(?:pub(?:\(\w+\))? )?fn (\w+)\b[^\n]*\n(.*?)^\1\}$"
        for indent, name, body in re.findall(functions, text):
            call = rf"self\.{name}\(" if indent else rf"{name}\("
            if re.search(
                rf"(?<![.\w:]){call}", re.sub(r"(?m)^\s*(//|ensures).*$", "", body)
            ):
                found.setdefault(f"{path.stem} {name}", set()).add(name)
    return [*found.values()]


class Words(unittest.TestCase):
    """The words of the clauses of `run`, `run_count` and `perform`, followed to their definitions."""

    known: ClassVar[Definitions]

    @classmethod
    def setUpClass(cls) -> None:
        cls.known = Definitions()

    def reached(self, *functions: tuple[str, str], without: str = "done") -> set[Word]:
        """All that contracts say. What a run comes to beside its report stands apart, since no report rests on it."""
        roots = (word for it in functions for word in stated(*it, without))
        return self.known.reached(roots)

    def test_each_clause_of_run_and_of_perform_is_quoted(self) -> None:
        quoted = [line.strip() for line in page("THEOREM").splitlines()]
        for function in (RUN, PERFORM):
            ensured = [it for it in clauses(*function) if it.startswith("ensures")]
            self.assertGreater(len(ensured), 5)
            self.assertEqual([it for it in ensured if it not in quoted], [])

    def test_the_table_of_what_to_read_has_the_files_with_a_word_of_run_and_no_other(
        self,
    ) -> None:
        found = files_of(self.reached(RUN))
        self.assertGreater(len(found), 30)
        self.assertEqual(listed(), found)

    def test_each_file_with_a_word_of_a_statement_is_named_and_has_a_row_of_definitions(
        self,
    ) -> None:
        found = files_of(self.reached(RUN, COUNT, PERFORM))
        self.assertEqual(found - named_in(what_to_read()), set())
        more = files_of(self.reached(RUN, COUNT, PERFORM, without=""))
        self.assertEqual(named_in(what_to_read()) - more, set())
        places = {*re.findall(r"`([a-z_]+)/(\w+)`", page("DEFINITIONS"))}
        self.assertEqual(found - places, set())

    def test_the_size_of_the_kits_definitions_is_told(self) -> None:
        said = " ".join(page("THEOREM").split())
        for function, crate in ((RUN, "csv"), (PERFORM, "clap")):
            words = {it for it in self.reached(function) if it.crate == crate}
            self.assertGreater(len(words), 30)
            files = sorted({it.file for it in words})
            told = (
                f"{len(words)} words of `{crate}`, {self.known.lines(words)} lines "
                f"in {len(files)} files ({', '.join(files)})"
            )
            self.assertIn(told, said)


class Crates(unittest.TestCase):
    """What the pages say of crates and of functions that call themselves."""

    def test_the_crates_that_are_linked_are_those_of_the_list_of_crates(self) -> None:
        line = re.search(r"(?m)^The ported crates that are linked.*$", page("THEOREM"))
        assert line
        told = line[0].partition("(")[2].partition(")")[0]
        with contextlib.chdir(ROOT):
            ours = crates_listed()
        linked = {name for name in crates_of_program() if name not in ours}
        self.assertEqual({*re.findall(r"`(\w+)`", told)}, {*linked, "std"})

    def test_each_function_that_calls_itself_has_a_row_of_how_deep_it_goes(
        self,
    ) -> None:
        rows = page("PROVED").partition("## Recursion\n")[2].partition("\n## ")[0]
        first = "\n".join(re.findall(r"(?m)^\| ([^|]*) \|", rows))
        told = {
            (crate, name) for name, crate in re.findall(r"`(\w+)` of `(\w+)`", first)
        }
        cycles = [
            (crate, it) for crate in crates_of_program() for it in cycles_of(crate)
        ]
        self.assertGreater(len(cycles), 10)
        for crate, names in cycles:
            with self.subTest(crate=crate, names=names):
                self.assertTrue({(crate, name) for name in names} & told)
        marked = {(crate, name) for crate, names in cycles for name in names}
        ours = {(crate, name) for crate, name in told if (CRATES / crate).is_dir()}
        self.assertEqual(ours - marked, set())
