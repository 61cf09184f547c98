"""Reports are checked by other code: good ones pass, and each that is spoilt is refused."""

import ast
import csv
import io
import random
import re
import sys
from collections import Counter
from collections.abc import Iterator
from pathlib import Path
from typing import Any

import pytest

from basket_miner import InputError, WrongReport, certify
from basket_miner.__main__ import main
from basket_miner._program import run

ROOT = Path(__file__).parents[2]
SHOP = ROOT / "examples/shop.dat"
NAMES = ["bread", "semi; skim", 'a "big" one', "two\nlines", "tea, black", "käse"]
NAMED: dict[str, Any] = {
    "form": "baskets",
    "sep": "semicolon",
    "header": True,
    "weighted": True,
}
ASKS = ("items", "sets", "closed", "maximal", "rules")
# What README shows.
CLOSED = b"1 (10)\n2 (12)\n3 (7)\n1 2 (7)\n2 3 (5)\n"

# The count in a line of numbers, or at the start of a record.
COUNT = re.compile(rb"(?m)(?<=\()[0-9]+|^[0-9]+(?=;)")

Question = dict[str, Any]
Case = tuple[bytes, bytes, Question]


def words_of(question: Question) -> list[str]:
    """The words of a command line."""
    names = {"minimum": "min", "confidence": "conf", "form": "form", "sep": "sep"}
    flags = {"header": "--header", "weighted": "--weight"}
    options = [f"--{names[key]}={question[key]}" for key in names if key in question]
    return [
        question["ask"],
        *options,
        *(flags[key] for key in flags if key in question),
    ]


def numbered(chance: random.Random) -> bytes:
    """Baskets of numbers, some with weights, after a byte order mark."""
    lines = []
    for _ in range(40):
        basket = map(str, chance.sample(range(1, 13), chance.randint(0, 6)))
        weight = chance.choice(["", "", f"{chance.randint(1, 9)}x"])
        lines.append(weight + " ".join(basket))
    return b"\xef\xbb\xbf" + "\r\n".join(lines).encode()


def named(chance: random.Random) -> bytes:
    """Records of a weight and names, after a header."""
    text = io.StringIO()
    writer = csv.writer(text, delimiter=";")
    writer.writerow(["weight", "products"])
    for _ in range(40):
        basket = chance.sample(NAMES, chance.randint(1, 4))
        writer.writerow([chance.randint(1, 5), *basket])
    return text.getvalue().encode()


def cases() -> list[Case]:
    """Reports of the program, each with its baskets and its question."""
    chance = random.Random(7)
    found: list[Case] = []
    for ask in ASKS * 2:
        kinds: list[tuple[bytes, Question]] = [
            (numbered(chance), {}),
            (named(chance), NAMED),
        ]
        for content, layout in kinds:
            question: Question = {"ask": ask, **layout}
            question["minimum"] = chance.choice(["5", "10%"])
            if ask == "rules":
                question["confidence"] = "1/2"
            found.append((run(words_of(question), content), content, question))
    return found


def one_higher(report: bytes, found: re.Match[bytes]) -> bytes:
    """The report with a count that is one higher."""
    count = str(int(found[0]) + 1).encode()
    return report[: found.start()] + count + report[found.end() :]


def spoilt(report: bytes, chance: random.Random) -> Iterator[bytes]:
    """Other reports that are nearly this one."""
    lines = report.splitlines(keepends=True)
    place = chance.randrange(len(lines))
    before, line, after = lines[:place], lines[place], lines[place + 1 :]
    yield b"".join(before + after)
    yield b"".join([*before, line, line, *after])
    yield b"".join([*before, line, b"7 9 11 12 13 (99)\n", *after])
    yield b"".join([*before, line, b"99;bread;milk\n", *after])
    yield b"".join([*after, *before, line]) if after else b""
    yield b"".join([*lines[:-2], lines[-1], lines[-2]])
    yield report[:-1]
    yield report + b"\n"
    yield report.replace(b"\n", b"\r\n")
    for digit in chance.sample([*re.finditer(rb"[0-9]", report)], 3):
        other = str((int(digit[0]) + chance.randint(1, 9)) % 10).encode()
        yield report[: digit.start()] + other + report[digit.end() :]
    yield one_higher(report, chance.choice([*COUNT.finditer(report)]))
    yield re.sub(rb"1/1", rb"2/2", report, count=1)


def test_reports_of_the_program_pass_and_each_that_is_spoilt_is_refused() -> None:
    chance, refused = random.Random(8), 0
    for report, content, question in cases():
        assert report.count(b"\n") > 2
        assert certify(report, content, **question).startswith("all ")
        for other in {*spoilt(report, chance)} - {report}:
            refused += 1
            with pytest.raises(WrongReport):
                certify(other, content, **question)
    assert refused >= 200


def test_after_the_given_time_lines_are_drawn_and_a_wrong_count_is_seen() -> None:
    for report, content, question in cases():
        if question["ask"] != "items":
            said = certify(report, content, 0, **question)
            assert re.search("without a gap; of [0-9]+ more, [0-9]+ were drawn", said)
            *_, last = COUNT.finditer(report)
            with pytest.raises(WrongReport):
                certify(one_higher(report, last), content, 0, **question)


def test_a_drawn_line_is_compared_with_the_text_that_it_should_have() -> None:
    rules = b"1 => 2 (7) 7/10 7/8\n"
    rows: list[tuple[bytes, bytes, Question]] = [
        (CLOSED, b"2 1 (7)", {"ask": "closed"}),
        (CLOSED, b"1 1 2 (7)", {"ask": "closed"}),
        (CLOSED, b" (15)", {"ask": "closed"}),
        (CLOSED, b"1 => 2 (7) 7/10 7/8", {"ask": "closed"}),
        (rules, b"1 => 1 (10) 1/1 3/2", {"ask": "rules", "confidence": "2/3"}),
        (rules, b"1 2 (7)", {"ask": "rules", "confidence": "2/3"}),
    ]
    for report, line, question in rows:
        with pytest.raises(WrongReport):
            certify(report + line + b"\n", SHOP, 0, minimum="5", **question)


def test_the_report_that_readme_shows_passes_and_other_questions_have_another() -> None:
    said = "all 5 lines are right, without a gap"
    assert certify(CLOSED, SHOP, ask="closed", minimum="1/3") == said
    assert certify(CLOSED, SHOP, ask="closed", minimum="5") == said
    for ask, minimum in (("items", "5"), ("maximal", "5"), ("closed", "4")):
        with pytest.raises(WrongReport):
            certify(CLOSED, SHOP, ask=ask, minimum=minimum)


@pytest.mark.parametrize(
    ("content", "form"),
    [
        (b"1 2\n3 -4\n", "fimi"),
        (b"4294967296\n", "fimi"),
        (b"4294967295x 1\n" * 257, "fimi"),
        (b"bread\n\xff\n", "baskets"),
        (b"1,bread\n2\n", "single"),
    ],
)
def test_of_baskets_that_the_program_refuses_no_report_is_right(
    content: bytes, form: str
) -> None:
    with pytest.raises(ValueError):
        certify(b"", content, ask="sets", minimum="1", form=form)


def test_odd_baskets_are_read_or_refused_as_the_program_reads_or_refuses_them() -> None:
    chance = random.Random(9)
    layouts: list[tuple[str, Question]] = [
        ("1234  0x \t\r\n\n-", {}),
        ('abä ",,;\t\r\n\n1', {"form": "baskets"}),
        ('abä ",,;\t\r\n\n2', {"form": "single", "header": True}),
        ('123,,ab\n\n"\r', {"form": "baskets", "weighted": True}),
    ]
    ended = Counter[str]()
    for letters, layout in layouts * 100:
        content = "".join(chance.choices(letters, k=chance.randint(0, 30))).encode()
        content += b"\xff" * (chance.random() < 0.05)
        question: Question = {"minimum": "2", **layout}
        question["ask"] = chance.choice(ASKS[:4])
        try:
            report = run(words_of(question), content)
        except InputError:
            with pytest.raises(ValueError) as caught:
                certify(b"", content, **question)
            assert not isinstance(caught.value, WrongReport)
            ended["refused"] += 1
        else:
            certify(report, content, **question)
            ended["read"] += 1
    assert min(ended.values()) > 50


def test_words_that_make_no_question_are_refused() -> None:
    questions: list[Question] = [
        {"ask": "set", "minimum": "1"},
        {"ask": "sets", "minimum": "0"},
        {"ask": "sets", "minimum": "3/2"},
        {"ask": "sets", "minimum": "1", "form": "counts"},
        {"ask": "sets", "minimum": "1", "sep": "colon"},
        {"ask": "sets", "minimum": "1", "confidence": "1/2"},
        {"ask": "rules", "minimum": "1"},
    ]
    for question in questions:
        with pytest.raises(ValueError):
            certify(b"", b"", **question)


def test_the_command_says_what_it_checked_or_what_is_wrong(
    tmp_path: Path, capsys: pytest.CaptureFixture[str]
) -> None:
    file = tmp_path / "report"
    words = ["certify", str(file), str(SHOP), "closed", "--min", "1/3", "--workers=4"]
    file.write_bytes(CLOSED)
    assert main(words) == 0
    assert capsys.readouterr().out == "all 5 lines are right, without a gap\n"
    file.write_bytes(CLOSED.replace(b"12", b"13"))
    assert main(words) == 1
    assert capsys.readouterr().err == "line 2 should be '2 (12)\\n'\n"


def test_the_command_ends_with_3_if_not_all_is_checked_whatever_line_is_missing(
    tmp_path: Path, capsys: pytest.CaptureFixture[str]
) -> None:
    file = tmp_path / "report"
    words = ["certify", str(file), str(SHOP), "closed", "--min", "1/3", "--seconds=0"]
    lines = CLOSED.splitlines(keepends=True)
    for lost in range(3, len(lines) + 1):
        file.write_bytes(b"".join(lines[:lost] + lines[lost + 1 :]))
        assert main(words) == 3
        assert "were drawn and have right figures" in capsys.readouterr().out


def test_a_bad_question_or_file_ends_with_2_and_is_told_in_words(
    tmp_path: Path, capsys: pytest.CaptureFixture[str]
) -> None:
    report, baskets = tmp_path / "report", tmp_path / "baskets"
    report.write_bytes(b"")
    baskets.write_bytes(b"1,bread\n2\n")
    single = ["sets", "--min=1", "--form=single"]
    shares = "a share is written as 20% or 1/5"
    rows = (
        (["sets", "--min=0.2"], f"'0.2' is no minimum: {shares}"),
        (["sets", "--min=120%"], f"'120%' is no minimum: {shares}"),
        (
            ["rules", "--min=1", "--conf=0.5"],
            f"'0.5' is no confidence: {shares}",
        ),
        (["rules", "--min=1"], "rules alone have a confidence"),
        (single, "record 2: fewer than two fields"),
    )
    for words, said in rows:
        assert (
            main(["certify", str(report), str(baskets), "--form=baskets", *words]) == 2
        )
        assert capsys.readouterr().err.endswith(f"{said}\n")
    baskets.write_bytes(b"1,\xff\n")
    assert main(["certify", str(report), str(baskets), *single]) == 2
    assert capsys.readouterr().err == "record 1: field is not UTF-8\n"
    assert main(["certify", str(report), "nowhere", *single]) == 2
    assert capsys.readouterr().err == "nowhere: No such file or directory\n"


def test_the_check_has_no_code_but_its_own_and_of_the_standard_library() -> None:
    text = (ROOT / "python/basket_miner/certify.py").read_text(encoding="utf-8")
    nodes = [*ast.walk(ast.parse(text))]
    modules = {node.module for node in nodes if isinstance(node, ast.ImportFrom)}
    for node in nodes:
        if isinstance(node, ast.Import):
            modules |= {name.name for name in node.names}
    tops = {str(name).partition(".")[0] for name in modules}
    assert {"re", "fractions"} <= tops <= sys.stdlib_module_names
    assert "subprocess" not in tops
    assert len(text.splitlines()) <= 250
