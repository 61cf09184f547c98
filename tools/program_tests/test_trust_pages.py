"""The pages that say what is proved cite files and clauses that are there, and their numbers are right."""

import re
import unittest
from pathlib import Path

from .program import ROOT

CRATES = ROOT / "crates"
# What the theorem is stated in: `run` cites words of both files.
ROOTS = (("basket_outcome", "Outcome"), ("basket", "Engine"))

SpecFile = tuple[str, str]


def page(name: str) -> str:
    return (ROOT / "docs" / f"{name}.md").read_text(encoding="utf-8")


def path_of(file: SpecFile) -> Path:
    crate, name = file
    return CRATES / crate / "specs" / f"{name}.antt"


def imported_by(file: SpecFile) -> set[SpecFile]:
    """The spec files of our crates that a spec file uses. What is declared in code is no such file."""
    text = path_of(file).read_text(encoding="utf-8")
    uses = re.findall(r"(?m)^use Rattle\.(\w+)\.specs\.((?:\w+\.)*\w+)\.\{", text)
    found = {(crate, name.replace(".", "/")) for crate, name in uses}
    return {used for used in found if path_of(used).is_file()}


def closure() -> set[SpecFile]:
    found: set[SpecFile] = set()
    waiting = {*ROOTS}
    while waiting:
        file = waiting.pop()
        found.add(file)
        waiting |= imported_by(file) - found
    return found


def what_to_read() -> str:
    return page("THEOREM").partition("## What to read\n")[2].partition("\n## ")[0]


def named_in(text: str) -> set[SpecFile]:
    """The spec files that a text names, as "`basket_sets`: Itemset, Support"."""
    found = re.findall(r"`(\w+)`: ([A-Z]\w*(?:, [A-Z]\w*)*)", text)
    return {(crate, name) for crate, names in found for name in names.split(", ")}


def listed() -> set[SpecFile]:
    """The spec files of the table that THEOREM has of what to read."""
    return named_in("\n".join(re.findall(r"(?m)^\|.*$", what_to_read())))


def lines_of(file: SpecFile) -> int:
    """How many lines a spec file has without comments, imports and empty lines."""
    lines = path_of(file).read_text(encoding="utf-8").splitlines()
    return sum(not re.match(r"\s*(--|use |$)", line) for line in lines)


class Files(unittest.TestCase):
    """The spec files that the pages cite."""

    def test_each_spec_file_that_a_page_lists_is_there(self) -> None:
        places = re.findall(r"`([a-z_]+)/(\w+)`", page("DEFINITIONS"))
        for cited in (named_in(what_to_read()), {*places}):
            self.assertGreater(len(cited), 30)
            lost = [file for file in cited if not path_of(file).is_file()]
            self.assertEqual(lost, [])

    def test_the_files_to_read_are_among_those_that_the_statement_imports(self) -> None:
        self.assertEqual(listed() - closure(), set())

    def test_the_types_of_code_that_a_page_lists_are_those_that_these_files_use(
        self,
    ) -> None:
        bullet = what_to_read().partition("- types of our code: ")[2].partition("\n")[0]
        types = {*re.findall(r"`([A-Z]\w*)`", bullet)}
        used = re.findall(
            r"(?m)^use Rattle\.\w+\.specs\.declared\.\w+\.(\w+)",
            "\n".join(path_of(file).read_text(encoding="utf-8") for file in listed()),
        )
        self.assertGreater(len(types), 10)
        # `Plan` has a view of its own, which the files take for it.
        self.assertEqual(types - {*used}, {"Plan"})

    def test_the_numbers_of_files_and_lines_are_those_of_the_folders(self) -> None:
        files = CRATES.glob("*/specs/**/*.antt")
        whole = sum(path.stem != "Lib" for path in files)
        lines = sum(map(lines_of, listed()))
        said = " ".join(page("THEOREM").split())
        self.assertIn(f"They import {len(closure() - listed())} more files", said)
        self.assertIn(
            f"That is {len(listed())} files of {whole}, about {round(lines, -2)} lines",
            said,
        )
        self.assertIn(f"The words of {len(closure())} files:", page("DEFINITIONS"))


class Crate:
    """The functions of a crate, and what their contracts say."""

    def __init__(self, name: str) -> None:
        # The contracts of the functions of a name, and the names of functions in the file of a type.
        self.contracts: dict[str, str] = {}
        self.beside: dict[str, set[str]] = {}
        for path in sorted((CRATES / name / "src").rglob("*.rt")):
            self.read(path.stem, path.read_text(encoding="utf-8"))

    def read(self, module: str, text: str) -> None:
        parts = re.findall(r"(?s)\bfn (\w+)(.*?)(?=\bfn \w|\Z)", text)
        for name, part in parts:
            clauses = "\n".join(re.findall(r"(?m)^\s*ensures .*$", part))
            self.contracts[name] = f"{self.contracts.get(name, '')}\n{clauses}"
        for kind in {module, *re.findall(r"\b(?:struct|enum|trait) (\w+)", text)}:
            self.beside.setdefault(kind, set()).update(name for name, _ in parts)

    def contract(self, name: str) -> str:
        """The contract of a function, or those of all functions in the file of a type or a module."""
        last = name.rpartition("::")[2]
        names = {last} if last in self.contracts else self.beside.get(last, set())
        return "\n".join(self.contracts[name] for name in sorted(names))


def facts() -> dict[str, set[str]]:
    """The fields of each record in the spec files."""
    found: dict[str, set[str]] = {}
    for path in CRATES.glob("*/specs/**/*.antt"):
        text = path.read_text(encoding="utf-8")
        for name, body in re.findall(r"(?m)^pub record (\w+).*\n((?:  .*\n)*)", text):
            found[name] = {*re.findall(r"(?m)^  pub (\w+) :", body)}
    return found


def rows() -> list[tuple[str, list[str], list[str]]]:
    """Of each row of PROVED that names clauses: the crate, the functions and the clauses."""
    found = []
    for section in page("PROVED").split("\n## ")[1:]:
        crate = re.match(r"`(\w+)`", section)
        for first, second in re.findall(r"(?m)^\| (`.*?) \| (.*) \|$", section):
            named = re.findall(r"\((`\w+`(?:, `\w+`)*)[,)]", second)
            clauses = re.findall(r"`(\w+)`", " ".join(named))
            if crate and clauses:
                found.append((crate[1], re.findall(r"`([\w:]+)`", first), clauses))
    return found


class Clauses(unittest.TestCase):
    """The clauses that PROVED names."""

    def test_each_clause_of_a_row_is_one_of_its_functions_or_a_fact_of_a_record(
        self,
    ) -> None:
        records, crates = facts(), dict[str, Crate]()
        self.assertGreater(len(rows()), 30)
        for crate, functions, clauses in rows():
            known = crates.setdefault(crate, Crate(crate))
            contract = "\n".join(map(known.contract, functions))
            there = {*re.findall(r"(?m)^\s*ensures (\w+) ", contract)}
            for word in {*re.findall(r"\w+", contract)} & records.keys():
                there |= records[word]
            with self.subTest(crate=crate, functions=functions):
                self.assertEqual({*clauses} - there, set())
