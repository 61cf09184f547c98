"""The names of code and of its files that documents cite are there."""

import re
import unittest
from pathlib import Path

from .program import ROOT

PAGES = ("ARCHITECTURE", "PROVED", "DECISIONS", "THEOREM", "DEFINITIONS")

# Words of Rust, of the kit's crates, of the Makefile and of a run that the gate repeats.
OTHER_NAMES = set(
    "Display None Ord args checks clap csv false make map_vec mod runs std stdin stdout thread true".split()
)

# Words of the kit, its crates and its specs, and two variables.
OTHER_NAMES |= set(
    "Appends Consumes SeqCst atomic_table bytes_eq drop filter flat_map fold heap indexmap is_utf8 itoa libc list_all "
    "list_any malloc map o os position_or_len pthread_create r rattle_realloc row_text slice_cmp smallvec starts_with "
    "sum_by thiserror unsafe Wp antt either rattle".split()
)

DEFINED_IN_CODE = (
    r"\b(?:fn|struct|enum|trait|const|type|mod|ensures|requires|ghost) (?:\w+ (?=fn))?(\w+)",
    r"(?m)^\s+(?:pub )?(\w+): ",
    r"(?m)^\s+([A-Z]\w*)(?:,| \{|\()",
)

DEFINED_IN_SPECS = (
    r"(?m)^(?:abbrev )?(?:pub )?(?:record )?(\w+)",
    r"(?m)^  pub (\w+) :",
)


def defined_in(path: Path, patterns: tuple[str, ...]) -> set[str]:
    text = path.read_text(encoding="utf-8")
    return {path.stem}.union(*(re.findall(pattern, text) for pattern in patterns))


def defined() -> set[str]:
    crates = ROOT / "crates"
    found = {folder.name for folder in crates.iterdir()}
    for path in crates.glob("*/src/**/*.rt"):
        found |= defined_in(path, DEFINED_IN_CODE)
    for path in crates.glob("*/specs/**/*.antt"):
        found |= defined_in(path, DEFINED_IN_SPECS)
    return found.union(path.stem for path in crates.glob("*/proofs/*.antt"))


def text_of(page: str) -> str:
    return (ROOT / "docs" / f"{page}.md").read_text(encoding="utf-8")


def cited_in(page: str) -> list[str]:
    return re.findall(r"`([A-Za-z_]\w*(?:::\w+)*)`", text_of(page))


class CitedNames(unittest.TestCase):
    """A page that cites a name which was changed since is wrong."""

    def test_each_name_that_a_page_cites_is_defined(self) -> None:
        known = defined() | OTHER_NAMES
        for page in PAGES:
            cited = cited_in(page)
            self.assertGreater(len(cited), 40, page)
            lost = {name for name in cited if set(name.split("::")) - known}
            with self.subTest(page=page):
                self.assertEqual(lost, set())

    def test_each_file_of_code_that_a_page_cites_is_there(self) -> None:
        there = {path.name for path in (ROOT / "crates").glob("*/src/**/*.rt")}
        cited = set(re.findall(r"`(\w+\.rt)`", text_of("DECISIONS")))
        self.assertGreater(len(cited), 50)
        self.assertEqual(cited - there, set())


# Two crates that have only laws, two programs, and the crates of tests.
WITHOUT_EXAMPLE = (
    "basket_laws",
    "mine_classes",
    "basket_bench",
    "basket_cli",
    "basket_checks",
    "basket_runs",
    "mine_plain",
)


def examples() -> dict[str, str]:
    """The example in the first lines of each crate that has one."""
    found = {}
    for path in (ROOT / "crates").glob("*/src/lib.rt"):
        text = path.read_text(encoding="utf-8")
        for example in re.findall(r"(?m)^//! ```\n((?://!.*\n)+?)//! ```$", text):
            found[path.parts[-3]] = stripped(example.replace("//!", ""))
    return found


def stripped(text: str) -> str:
    """A text without its layout: blanks, line ends, and the comma behind the last of several lines."""
    return re.sub(r",(?=[)}\]])", "", "".join(text.split()))


def code_by_crate() -> dict[str, str]:
    """The code of each crate, with that of its tests."""
    crates = ROOT / "crates"
    found: dict[str, str] = {}
    for part in ("src", "tests"):
        for path in crates.glob(f"*/{part}/**/*.rt"):
            crate = path.relative_to(crates).parts[0]
            text = stripped(path.read_text(encoding="utf-8"))
            found[crate] = found.get(crate, "") + text
    return found


class Examples(unittest.TestCase):
    """The first lines of a crate show calls that a test or another crate makes, so that the gate proves them."""

    def test_each_crate_has_an_example_but_laws_programs_and_tests(self) -> None:
        lacking = set(code_by_crate()) - set(examples())
        self.assertEqual(lacking, set(WITHOUT_EXAMPLE))

    def test_each_example_of_a_crate_stands_in_a_test_or_another_crate(self) -> None:
        code = code_by_crate()
        for crate, example in examples().items():
            others = [text for name, text in code.items() if name != crate]
            with self.subTest(crate=crate):
                self.assertTrue(any(example in text for text in others), example)
