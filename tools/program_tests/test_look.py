"""What `basket look` says of files as people have them, that the command it shows is the right one, and `pairs`."""

import csv
import gzip
import io
import json
import os
import re
import subprocess
import sys
import tempfile
import unittest
from pathlib import Path
from typing import Any

from .program import PROGRAM, ROOT, SECONDS, run, run_between, run_script

SHOP = (ROOT / "examples/shop.dat").read_bytes()
RECEIPTS = (ROOT / "examples/receipts.csv").read_bytes()


def shown(content: bytes, folder: Path) -> dict[str, Any]:
    """What is said to programs of a file with this content, which is `a file` in a folder."""
    (folder / "a file").write_bytes(content)
    ended = run_script("basket look --json 'a file'", folder)
    assert (ended.said, ended.status) == ("", 0), ended
    said = json.loads(ended.out)
    assert isinstance(said, dict)
    return said


def looked(content: bytes) -> tuple[dict[str, Any], list[str]]:
    """What is said of a file, and the lines of the report of the first command that is shown."""
    with tempfile.TemporaryDirectory() as name:
        said = shown(content, Path(name))
        command = re.sub(r"--min \S+", "--min 10%", said["readings"][0]["commands"][0])
        report = run_script(command, Path(name))
        assert (report.said, report.status) == ("", 0), report
        return said, report.out.decode().splitlines()


def sets_in(report: list[str]) -> list[list[str]]:
    """The sets of a report of FIMI or of CSV, each behind its count, whatever separates the names."""
    numbers = re.compile(r"([\d ]+) \((\d+)\)")
    if report and numbers.fullmatch(report[0]):
        lines = [numbers.fullmatch(line) for line in report]
        return sorted([it[2], *sorted(it[1].split())] for it in lines if it)
    first = re.match(r"\d+(\W)", "".join(report[:1]))
    sep = first[1] if first else ","
    rows = csv.reader(io.StringIO("\n".join(report)), delimiter=sep)
    return sorted([row[0], *sorted(row[1:])] for row in rows)


def said_of(content: bytes) -> str:
    """What is said to people of standard input."""
    ended = run(["look"], content)
    assert (ended.said, ended.status) == ("", 0), ended
    return ended.out.decode()


class Files(unittest.TestCase):
    """Files as tills, spreadsheets, databases, pandas and R write them."""

    def test_the_first_command_that_is_shown_finds_the_sets_of_each_file(self) -> None:
        with tempfile.TemporaryDirectory() as name:
            folder = Path(name)
            writer = str(ROOT / "tools/odd_files.py")
            subprocess.run([sys.executable, writer, name], check=True)
            wanted = json.loads((folder / "sets.json").read_text(encoding="utf-8"))
            self.assertGreater(len(wanted), 50)
            for file, sets in wanted.items():
                with self.subTest(file=file):
                    content = (folder / file).read_bytes()
                    self.assertEqual(sets_in(looked(content)[1]), sets)

    def test_people_and_programs_are_shown_the_same_commands(self) -> None:
        for content in (RECEIPTS, SHOP, b"3,milk,tea\n2,tea\n3,milk\n" * 9):
            with self.subTest(content=content[:20]):
                said = json.loads(run(["look", "--json"], content).out)
                text = said_of(content)
                for reading in said["readings"]:
                    for command in reading["commands"]:
                        self.assertIn(f"\n  {command}\n", text)

    def test_the_columns_the_first_baskets_and_the_doubts_are_told(self) -> None:
        said, _ = looked(RECEIPTS)
        roles = [(it["name"], it["role"]) for it in said["columns"]]
        self.assertEqual(roles, [("receipt", "basket"), ("product", "item")])
        first = said["baskets"][0]
        self.assertEqual(first, {"id": "1001", "items": ["bread", "milk", "jam"]})
        (reading,) = said["readings"]
        self.assertEqual((reading["sure"], reading["as_it_is"]), (True, True))
        self.assertEqual(reading["options"], ["--form", "single", "--header"])
        cheese = RECEIPTS.replace(b"milk", "Käse".encode("latin-1"))
        said, report = looked(cheese)
        self.assertEqual(said["encoding"], "windows-1252")
        self.assertIn("12,Käse", report)
        self.assertIn("Not sure: how its letters are written", said_of(cheese))

    def test_of_many_short_lines_the_first_65536_decide(self) -> None:
        for line in (b"1,milk\n", b"1 2\n"):
            told = [
                json.loads(run(["look", "--json"], line * lines).out)["whole"]
                for lines in (65_536, 65_537)
            ]
            self.assertEqual(told, [True, False])

    def test_weights_that_would_become_items_are_refused_with_what_to_do(self) -> None:
        with tempfile.TemporaryDirectory() as name:
            said = shown(b"3x 1 2\r2x 2\r4 5\r", Path(name))
        self.assertEqual((said["kind"], said.get("readings", [])), ("weights", []))
        self.assertIn("line feeds", said["remedy"])

    def test_a_guess_that_may_be_wrong_says_so_and_shows_what_else_it_may_be(
        self,
    ) -> None:
        weights, _ = looked(b"3,milk,tea\n2,tea\n3,milk\n1,tea,jam\n" * 9)
        pairs, _ = looked(
            b"".join(b"%d %d\n" % (n // 3, 90 + n % 7) for n in range(60))
        )
        for said in (weights, pairs):
            with self.subTest(kind=said["kind"]):
                self.assertEqual(len(said["readings"]), 2)
                self.assertEqual([it["sure"] for it in said["readings"]], [False] * 2)


class Others(unittest.TestCase):
    """Files of other kinds."""

    def test_what_can_not_be_mined_as_it_is_is_named(self) -> None:
        rows = (
            (b"", "standard input is empty"),
            (b"\n \n", "no basket"),
            (gzip.compress(SHOP), "zcat FILE | basket look"),
            (b"PK\x03\x04 and more", "zip file"),
            (b'{"a": 1}', "JSON"),
            (bytes(range(256)), "no text"),
            (b"\xd0\xcf\x11\xe0\xa1\xb1\x1a\xe1" + bytes(504), "an old workbook"),
            (b"PAR1 and more", "Parquet"),
            (b"SQLite format 3\0", "SQLite"),
            (b'[{"a": 1}]\n', "JSON"),
            (b"<html><table><tr><td>1</td></tr></table></html>\n", "HTML"),
            (b"INSERT INTO sales VALUES (1, 'tea');\n" * 9, "SQL"),
            (b"@relation shop\n@attribute tea {0,1}\n@data\n1\n", "ARFF"),
            (b"1 -1 3 -1 -2\n2 -1 3 -1 -2\n", "SPMF"),
            (b"receipt,product\n", "too short to tell"),
            (b"# a comment\n" + SHOP, "The first: # a comment"),
            (b'"bread,milk\n' + b"tea\n" * 9, "The quote that opens on line 1"),
        )
        for content, text in rows:
            with self.subTest(content=content[:20]):
                self.assertIn(text, said_of(content))

    def test_names_can_not_change_a_terminal(self) -> None:
        self.assertIn("is no text", said_of(b"a,\x1b[31mb\nc,d\n" * 5))
        for letter in ("\x7f", "\x9b"):
            with self.subTest(letter=letter):
                said = said_of(f"a,{letter}31mb\nb,{letter}31mb\nb,tea\n".encode() * 5)
                self.assertNotIn(letter, said)
                self.assertIn("?31mb", said)

    def test_only_the_beginning_is_read_and_that_is_said(self) -> None:
        endless = ["sh", "-c", f"yes 1 2 3 | '{PROGRAM}' look"]
        ended = subprocess.run(
            endless, capture_output=True, timeout=SECONDS, check=False
        )
        self.assertIn("only its beginning was read", ended.stdout.decode())
        self.assertIn("FIMI", ended.stdout.decode())

    def test_a_file_that_is_longer_than_what_is_mined_is_said_to_be(self) -> None:
        with tempfile.TemporaryDirectory() as name:
            path = Path(name, "long.dat")
            with path.open("wb") as file:
                file.write(SHOP * (2**21 // len(SHOP)))
                file.truncate(2**32)
            lines = run(["look", str(path)]).out.decode()
        self.assertIn("split -n l/8", lines)


class Pairs(unittest.TestCase):
    """What `pairs` writes."""

    def test_each_option_does_what_its_help_says(self) -> None:
        table = b'shop list\nday;id;name;n\n2 Nov 8:00;1;tea;2\n2 Nov 9:00;1;"a;b";1\n;2;jam;1\nsum;3;x;4\n'
        top = ["--skip=1", "--sep", "semicolon", "--header"]
        rows: tuple[tuple[list[str], bytes, str], ...] = (
            (["--item=2"], b"1,tea\n1,jam\n", "1,tea\n2,jam\n"),
            (["--basket=1", "--item=2"], b"1,tea\n,jam\n2,\n", "1,tea\n"),
            (["--basket=1", "--fill", "--item=2"], b"1,tea\n,jam\n", "1,tea\n1,jam\n"),
            (
                ["--item", "2-"],
                b"9,tea,jam\n9,NULL,\\N\n9,nan,egg\n",
                "1,tea\n1,jam\n3,egg\n",
            ),
            (["--item=1,3"], b"tea,9,jam\n", "1,tea\n1,jam\n"),
            (
                ["--header", "--marks=2-4"],
                b"id,tea,jam,egg\n7,1,0,x\n8,-1,no,2\n",
                "1,tea\n1,egg\n2,egg\n",
            ),
            (["--marks=1-2"], b"1,0\n0,1\n", "1,1\n2,2\n"),
            (
                ["--item=1", "--within=comma", "--columns=1"],
                b"['a, b', 'c']\n{d,e}\n",
                '1,"a, b"\n1,c\n2,d\n2,e\n',
            ),
            (["--item=1", "--within=plus"], b"a + b\n", "1,a\n1,b\n"),
            (
                ["--item=2", "--within=comma", "--counts"],
                b'1,"2x a, b x3, c (4), 7up"\n',
                "1,a\n1,b\n1,c\n1,7up\n",
            ),
            (["--item=1", "--within=line"], b'"a\nb"\n', "1,a\n1,b\n"),
            (["--header", "--item=1"], b"name\na\nname\nb\n", "1,a\n3,b\n"),
            (
                [*top, "--skip-last=1", "--basket=2", "--item=3"],
                table,
                "1,tea\n1,a;b\n2,jam\n",
            ),
            (
                [*top, "--basket=2,1:day", "--item=3"],
                table,
                '"1,2",tea\n"1,2",a;b\n"3,sum",x\n',
            ),
            (
                ["--basket=1,2", "--item=3"],
                b'"a,b",c,tea\na,"b,c",tea\n',
                '"""a,b"",c",tea\n"a,""b,c""",tea\n',
            ),
            (["--sep=space", "--item=1-"], b"a  b\n----\n\nc\n", "1,a\n1,b\n2,c\n"),
            (
                ["--columns=1,6", "--item=2"],
                b"1    tea\n---- ---\n22222jam\n",
                "1,tea\n2,jam\n",
            ),
            (
                ["--encoding=utf-16le", "--item=1"],
                "\ufeffKäse\n".encode("utf-16-le"),
                "1,Käse\n",
            ),
            (["--encoding=cp850", "--item=1"], "Käse\n".encode("cp850"), "1,Käse\n"),
            (
                ["--encoding=macintosh", "--item=1"],
                "Käse\n".encode("mac_roman"),
                "1,Käse\n",
            ),
            (
                ["--encoding=windows-1252", "--item=1"],
                "2 €\n".encode("cp1252"),
                "1,2 €\n",
            ),
        )
        for words, content, pairs in rows:
            with self.subTest(words=words):
                ended = run(["pairs", *words], content)
                self.assertEqual((ended.said, ended.status), ("", 0))
                self.assertEqual(ended.out.decode(), pairs)

    def test_every_letter_of_an_encoding_is_the_one_that_python_has(self) -> None:
        names = (
            ("windows-1252", "cp1252"),
            ("cp850", "cp850"),
            ("macintosh", "mac_roman"),
        )
        for name, python in names:
            letters = [bytes([byte]) for byte in range(128, 256)]
            known = [it for it in letters if it.decode(python, "ignore").strip()]
            content = b"".join(b"<" + it + b">\n" for it in known)
            wanted = "".join(
                f"{n},<{it.decode(python)}>\n" for n, it in enumerate(known, 1)
            )
            with self.subTest(name=name):
                ended = run(["pairs", f"--encoding={name}", "--item=1"], content)
                self.assertEqual(ended.out.decode(), wanted)

    def test_what_is_no_text_or_no_column_ends_with_3(self) -> None:
        rows = (
            (["--item=1"], b"tea\nK\xe4se\n", "line 2 is not utf-8"),
            (
                ["--encoding=utf-16le", "--item=1"],
                b"a\0\n\0\0\xd8",
                "line 2 is not utf-16le",
            ),
            (["--item=3"], b"a,b\n", "no record has a column 3"),
            (["--basket=4", "--item=1"], b"a,b\n", "no record has a column 4"),
        )
        for words, content, said in rows:
            with self.subTest(words=words):
                ended = run(["pairs", *words], content)
                self.assertIn(f"basket: {said}", ended.said)
                self.assertEqual(ended.status, 3)

    def test_mistaken_words_end_with_2_and_name_the_mistake(self) -> None:
        rows: tuple[tuple[list[str], str], ...] = (
            ([], "--item or --marks"),
            (["--item=0"], "invalid value '0' for '--item'"),
            (["--item=2-1"], "invalid value '2-1' for '--item'"),
            (["--item=1", "--sep=dot"], "invalid value 'dot' for '--sep'"),
            (["--item=1", "--what=2"], "'--what'"),
            (["--item=1", "a", "b"], "unexpected argument 'b' found"),
        )
        for words, said in rows:
            with self.subTest(words=words):
                ended = run(["pairs", *words])
                self.assertIn(said, ended.said)
                self.assertEqual((ended.out, ended.status), (b"", 2))

    def test_a_full_device_and_a_missing_file_end_with_4(self) -> None:
        ended = run_between(["pairs", "--item=1"], str(ROOT / "README.md"), "/dev/full")
        self.assertEqual(
            (ended.said, ended.status), ("basket: cannot write the report\n", 4)
        )
        self.assertEqual(run(["pairs", "--item=1", "no such file"]).status, 4)


class Words(unittest.TestCase):
    """The words after `look`, and statuses."""

    def test_a_file_that_can_not_be_read_ends_with_4(self) -> None:
        for name in ("no such file", "/"):
            with self.subTest(name=name):
                ended = run(["look", name])
                self.assertTrue(ended.said.startswith(f"basket: cannot read {name}: "))
                self.assertEqual((ended.out, ended.status), (b"", 4))

    def test_an_output_that_takes_nothing_ends_with_4(self) -> None:
        ended = run_between(["look"], os.devnull, "/dev/full")
        self.assertEqual(
            (ended.said, ended.status), ("basket: cannot write the report\n", 4)
        )

    def test_other_words_are_mistakes(self) -> None:
        self.assertIn("basket pairs --help", run(["look", "--help"]).out.decode())
        self.assertIn("--within", run(["help", "pairs"]).out.decode())
        for words in (["look", "a", "b"], ["look", "--min=2"], ["look", "-x", "a"]):
            with self.subTest(words=words):
                ended = run(words)
                self.assertIn("unexpected argument '", ended.said)
                self.assertEqual((ended.out, ended.status), (b"", 2))
