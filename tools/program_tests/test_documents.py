"""README, manual page, completions and change log say what the program does."""

import contextlib
import itertools
import re
import subprocess
import tempfile
import unittest
from pathlib import Path

from package import lost_links

from .program import ROOT, run, run_script

COMMANDS = ("items", "sets", "closed", "maximal", "rules", "count", "look", "pairs")
DOCUMENTS = ("README.md", "docs/FAQ.md", "man/basket.1")
COMPLETIONS = (
    "completions/basket.bash",
    "completions/_basket",
    "completions/basket.fish",
)


def text_of(name: str) -> str:
    return (ROOT / name).read_text(encoding="utf-8")


def manual() -> str:
    """The source of the manual page without marks of fonts and without escaped hyphens."""
    plain = re.sub(r"(?m)^\.(nf|fi|br|PP|TP|SH.*)$", "", text_of("man/basket.1"))
    plain = re.sub(r"(?m)^\.\w+ ", "", plain)
    return plain.replace("\\-", "-").replace("\\e", "\\")


def shown(document: str) -> list[tuple[str, str]]:
    """Each command that a document shows after a dollar sign, with the lines that it shows below."""
    found: list[tuple[str, str]] = []
    command, lines, indent = "", "", ""
    for line in [*document.splitlines(), ""]:
        start = re.match(r"( *)\$ (.*basket .*)$", line)
        is_below = command and line.startswith(indent) and line.strip(" `")
        if start or not is_below:
            if command:
                found.append((command, lines))
            command, lines, indent = (start[2], "", start[1]) if start else ("", "", "")
        else:
            lines += line.removeprefix(indent) + "\n"
    return found


def options_of(command: str) -> set[str]:
    said = run([command, "--help"]).out.decode()
    return set(re.findall(r"(?m)^ +(?:-\w, )?(--[a-z]+)", said))


def values_of(option: str) -> list[str]:
    """The values that help lists of an option."""
    said = run(["sets", "--help"]).out.decode()
    found = re.search(rf"--{option} [^[]*\[possible values: ([^]]*)\]", said)
    return found[1].split(", ") if found else []


def is_taken(command: str, option: str) -> bool:
    """Whether the program knows an option of a command, whatever it says of the value."""
    return "unexpected argument" not in run([command, f"{option}=?"]).said


class Documents(unittest.TestCase):
    """Texts that are written by hand, beside what the program says."""

    def test_commands_that_a_document_shows_write_what_it_shows(self) -> None:
        for name in DOCUMENTS:
            text = manual() if name.endswith(".1") else text_of(name)
            rows = shown(text)
            self.assertTrue(rows, f"{name} shows no command")
            for command, lines in rows:
                with self.subTest(name=name, command=command):
                    ended = run_script(command, ROOT)
                    self.assertEqual((ended.out.decode(), ended.status), (lines, 0))

    def test_the_way_over_parts_writes_what_is_shown_and_what_the_whole_gives(
        self,
    ) -> None:
        blocks = re.findall(r"(?m)(?:^    .*\n)+", text_of("docs/PARTS.md"))
        script, shown_lines = (re.sub(r"(?m)^    ", "", block) for block in blocks[:2])
        whole = (
            "basket sets --min 20% examples/shop.dat; "
            "basket rules --min 20% --conf 2/3 examples/shop.dat"
        )
        with tempfile.TemporaryDirectory() as folder:
            Path(folder, "examples").symlink_to(ROOT / "examples")
            ended = run_script(script, Path(folder))
            at_once = run_script(whole, Path(folder))
            cut = "split -n l/8 examples/shop.dat part.\n"
            eighths = re.sub(r"\A.*\n", cut, script).replace("part1 part2", "part.*")
            in_eight = run_script(eighths, Path(folder))
        self.assertEqual((ended.out.decode(), ended.said), (shown_lines, ""))
        self.assertEqual(in_eight, ended)
        self.assertEqual(at_once.out.decode(), shown_lines)

    def test_counting_what_a_part_lacks_alone_writes_what_the_whole_gives(self) -> None:
        blocks = re.findall(r"(?m)(?:^    .*\n)+", text_of("docs/PARTS.md"))
        first, _, script = (re.sub(r"(?m)^    ", "", block) for block in blocks[:3])
        eighths = script.replace("part1.sets part2.sets", "part.??.sets")
        cuts = {
            first.partition("\n")[0]: script,
            "split -n l/8 examples/shop.dat part.": eighths.replace(
                "part1 part2", "part.??"
            ),
        }
        whole = run_script("basket rules --min 20% --conf 2/3 examples/shop.dat", ROOT)
        for cut, rest in cuts.items():
            with tempfile.TemporaryDirectory() as folder, self.subTest(cut=cut):
                Path(folder, "examples").symlink_to(ROOT / "examples")
                self.assertEqual(run_script(f"{cut}\n{rest}", Path(folder)), whole)

    def test_the_theorem_that_is_quoted_stands_in_the_source(self) -> None:
        theorem = (
            text_of("docs/THEOREM.md")
            .partition("## The statement\n")[2]
            .partition("\n## ")[0]
        )
        quoted = [
            line.strip() for line in theorem.splitlines() if line.startswith("    ")
        ]
        self.assertGreater(len(quoted), 20)
        places = (
            "basket/src/engine.rt",
            "basket_outcome/specs/Outcome.antt",
            "basket/specs/Count.antt",
            "basket_main/src/program.rt",
        )
        source = "\n".join(text_of(f"crates/{place}") for place in places)
        stated = {line.strip() for line in source.splitlines()}
        self.assertEqual([line for line in quoted if line and line not in stated], [])

    def test_manual_and_completions_have_each_option_and_no_other(self) -> None:
        wanted = {"--version"}.union(*(options_of(command) for command in COMMANDS))
        self.assertIn("--conf", wanted)
        self.assertEqual(set(re.findall(r"--[a-z]+", manual())), wanted)
        for name in COMPLETIONS:
            with self.subTest(name=name):
                completed = re.sub(r"(?m)^set -l .*$", "", text_of(name))
                found = re.findall(r"(?:--|-l )([a-z]+)", completed)
                self.assertEqual({f"--{option}" for option in found}, wanted)

    def test_help_of_a_command_has_each_of_its_options_and_no_other(self) -> None:
        known = set().union(*(options_of(command) for command in COMMANDS))
        for command in COMMANDS:
            taken = {option for option in known if is_taken(command, option)}
            with self.subTest(command=command):
                self.assertEqual(options_of(command), taken)

    def test_help_is_no_wider_than_100_columns_and_help_is_a_word_too(self) -> None:
        given: list[list[str]] = [[], *([command] for command in COMMANDS)]
        for words in given:
            with self.subTest(words=words):
                text = run([*words, "--help"]).out.decode()
                self.assertLessEqual(max(map(len, text.splitlines())), 100)
                self.assertEqual(run(["help", *words]).out.decode(), text)
        self.assertEqual(run(["help", "help"]), run(["--help"]))

    def test_pages_tell_one_rule_of_which_miner_suits_which_data(self) -> None:
        said = run(["--help"]).out.decode()
        rule = re.findall(r"(?m)^  ((?:apriori|eclat|fpgrowth)\S* .*)$", said)
        self.assertEqual(len(rule), 5)
        few = re.search(r"some [\d,]+", rule[0])
        assert few
        self.assertIn(f"Few sets, up to {few[0]}: `apriori`", text_of("docs/FAQ.md"))
        for name in ("README.md", "docs/GUIDE.md", "docs/CLI.md"):
            lines = [line.strip() for line in text_of(name).splitlines()]
            with self.subTest(name=name):
                self.assertEqual([line for line in rule if line not in lines], [])
        for line in rule:
            miner, _, text = line.partition(" ")
            self.assertIn(f"{miner}\n{text.strip()}\n", manual())

    def test_relative_links_of_documents_lead_to_files(self) -> None:
        pages = [ROOT / "README.md", *sorted((ROOT / "docs").glob("*.md"))]
        for page in pages:
            links = re.findall(r"\]\(([^)#:]+)\)", page.read_text(encoding="utf-8"))
            for link in links:
                # Its files come with the first release.
                is_to_come = "releases/" in link and not (ROOT / "releases").exists()
                with self.subTest(page=page.name, link=link):
                    self.assertTrue(is_to_come or (page.parent / link).exists())

    def test_manual_and_completions_have_each_command_and_value(self) -> None:
        for name in ("man/basket.1", *COMPLETIONS):
            text = manual() if name.endswith(".1") else text_of(name)
            for option in ("form", "sep", "miner"):
                values = values_of(option)
                self.assertGreater(len(values), 2, option)
                for word in (*COMMANDS, *values):
                    with self.subTest(name=name, word=word):
                        self.assertRegex(text, rf"(?<![\w-]){word}(?![\w-])")

    def test_completion_for_bash_offers_commands_options_values_and_files(self) -> None:
        rows = (
            ("basket it", "items"),
            ("basket rules --co", "--conf"),
            ("basket sets --miner f", "fpgrowth"),
            ("basket count --set", "--sets"),
            ("basket count --form c", "counts csv-counts"),
            ("basket count --mi", ""),
            ("basket sets --form =", "fimi baskets single counts csv-counts"),
            ("basket sets --form = bask", "baskets"),
            ("basket help ma", "maximal"),
            ("basket help sets ''", ""),
            # Where nothing is offered, bash offers files.
            ("basket sets --min 2 ''", ""),
            ("basket sets --min 2 examples/re", ""),
            ("basket look ''", ""),
        )
        for line, wanted in rows:
            script = (
                f"source {ROOT}/completions/basket.bash; COMP_WORDS=({line}); "
                "COMP_CWORD=$((${#COMP_WORDS[@]} - 1)); _basket; "
                "echo ${COMPREPLY[*]}; complete -p basket"
            )
            with self.subTest(line=line):
                said = subprocess.run(
                    ["bash", "-c", script], capture_output=True, check=True
                ).stdout.decode()
                offered, _, how = said.partition("\n")
                self.assertEqual(offered.strip(), wanted)
                self.assertIn("-o default", how)

    def test_the_program_of_the_library_page_is_the_one_that_is_tested(self) -> None:
        shown_there = re.findall(r"(?s)```rust\n(.*?)```", text_of("docs/LIBRARY.md"))
        functions = r"(?ms)^(?:///[^\n]*\n)?fn (?!main|the_)\w+.*?^}\n"
        tested = text_of("crates/basket_runs/src/tests/library.rt")
        found = re.findall(functions, tested)
        self.assertEqual(re.findall(functions, "".join(shown_there)), found)
        self.assertEqual(len(found), 3)

    def test_no_page_but_one_says_how_long_a_build_takes(self) -> None:
        pages = [*map(ROOT.glob, ("*.md", "Makefile", "tools/*.py", "man/*"))]
        others = [path for path in ROOT.glob("docs/*.md") if path.stem != "GUIDE"]
        for path in [*itertools.chain(*pages), *others]:
            told = re.findall(r"\b(?:\w+) (?:minutes?|hours?)\b", text_of(str(path)))
            with self.subTest(page=path.name):
                self.assertEqual(told, [])

    def test_each_link_between_documents_leads_to_a_file_that_is_packaged(self) -> None:
        with contextlib.chdir(ROOT):
            self.assertEqual(lost_links(), [])

    def test_the_folders_of_theory_that_a_page_lists_are_those_that_are_there(
        self,
    ) -> None:
        page = text_of("docs/ARCHITECTURE.md")
        told = page.partition("## The theory of itemsets\n")[2].partition("\n## ")[0]
        crates = re.findall(r"(?m)^\| `(\w+)` \|", told) + ["basket_sets"]
        there = [path.parts[-3] for path in ROOT.glob("crates/*/proofs/theory")]
        self.assertEqual(sorted(crates), sorted(there))

    def test_the_version_is_the_same_everywhere(self) -> None:
        version = run(["--version"]).out.decode().removeprefix("basket ").strip()
        self.assertRegex(version, r"^\d+\.\d+\.\d+(-dev)?$")
        self.assertIn(f'"basket {version}"', text_of("man/basket.1"))
        self.assertIn(f"\nversion: {version}\n", text_of("CITATION.cff"))
        self.assertIn(f'\nversion = "{version}"\n', text_of("python/pyproject.toml"))
        # The version between releases has no day.
        last = f"{re.escape(version)}, \\d{{4}}-\\d\\d-\\d\\d"
        head = "Unreleased" if version.endswith("-dev") else last
        self.assertRegex(text_of("CHANGELOG.md"), rf"\A# [^#]*## {head}\n")

    def test_the_manual_page_is_laid_out_without_a_warning(self) -> None:
        words = ["groff", "-man", "-Tutf8", "-ww", "-z", str(ROOT / "man/basket.1")]
        try:
            ended = subprocess.run(words, capture_output=True, check=False)
        except FileNotFoundError:
            self.skipTest("groff isn't here")
        self.assertEqual((ended.stderr.decode(), ended.returncode), ("", 0))
