"""The advice that an exception has as a note, beside its message, which stays the program's."""

import pickle
from fractions import Fraction
from pathlib import Path
from typing import Any

import pytest

import basket_miner as miner
from basket_miner._errors import error_of

MINIMUM = (
    "A minimum is a count of baskets as an int, as 20; or a share of all baskets as a float from 0 to 1, where "
    '0.2 is 20%, as a fractions.Fraction, or as a text: "20%", "0.5%", "1/5" or "0.2". A text "20" is a count.'
)
CONFIDENCE = (
    "A confidence is a share: a float from 0 to 1, where 0.6 is 60%, a fractions.Fraction, or a text as "
    '"60%", "2/3" or "0.6".'
)
CSV = (
    "The file was read as FIMI text, which has numbers alone. If it is CSV, give "
    'form="baskets" for a basket in each record, or form="single" for a basket\'s id and an item in each.'
)
FIELDS = (
    'form="single" wants two fields in each record, a basket\'s id and an item. Give sep= if the separator is '
    'no comma, and form="baskets" if a record has a whole basket.'
)
BASKETS = [["tea", "jam"], ["tea"]]


def notes_of(error: BaseException) -> list[str]:
    return getattr(error, "__notes__", [])


def refused(call: Any, *words: Any, **options: Any) -> tuple[str, str, list[str]]:
    """The kind, the message and the notes of what a call raises."""
    with pytest.raises(miner.BasketError) as caught:
        call(*words, **options)
    error = caught.value
    return type(error).__name__, str(error), notes_of(error)


@pytest.mark.parametrize(
    ("minimum", "kind", "said"),
    [
        ("-1/5", "UsageError", "basket: bad value for --min"),
        ("20 %", "UsageError", "basket: bad value for --min"),
        (20.0, "DataError", "a minimum as a share is from 0 to 1: 20.0; a count is an"),
        (0, "DataError", "a minimum as a count is from 1 to 1099511627775: 0"),
        (None, "DataError", "a minimum is a number, a Fraction or a text as '1/200', "),
    ],
)
def test_a_bad_minimum_says_which_are_good(minimum: Any, kind: str, said: str) -> None:
    found = refused(miner.sets, BASKETS, minimum)
    assert (found[0], found[1][: len(said)], found[2]) == (kind, said, [MINIMUM])


@pytest.mark.parametrize("confidence", ["3/2", 60.0, None, Fraction(3, 2)], ids=str)
def test_a_bad_confidence_says_which_are_good(confidence: Any) -> None:
    assert refused(miner.rules, BASKETS, 1, confidence)[2] == [CONFIDENCE]


def test_too_many_sets_and_too_little_memory_say_what_to_raise() -> None:
    assert refused(miner.sets, BASKETS, 1, limit=1) == (
        "TooManySets",
        "basket: more than 1 frequent itemsets",
        ["Raise the minimum, or limit= if more itemsets are wanted."],
    )
    assert notes_of(error_of(6, "basket: out of memory\n")) == [
        "Raise the minimum: fewer frequent itemsets take less memory. With limit= such a question ends early."
    ]


@pytest.mark.parametrize(
    ("text", "notes"),
    [
        ("bread,milk\n", [CSV]),
        ("1,2\n", [CSV]),
        ("1;2\n", [CSV]),
        ('"1" 2\n', [CSV]),
        ("Ärger\n", [CSV]),
        ("1 -2\n", []),
        ("1 (2)\n", []),
    ],
)
def test_a_file_that_looks_like_csv_says_which_form_to_give(
    tmp_path: Path, text: str, notes: list[str]
) -> None:
    path = tmp_path / "shop"
    path.write_text(text, encoding="utf-8")
    kind, said, found = refused(miner.sets, path, 1)
    assert (kind, found) == ("InputError", notes)
    assert said.startswith("basket: line 1: byte 0x")


def test_records_without_two_fields_and_counts_without_a_total_say_what_is_missing(
    tmp_path: Path,
) -> None:
    path = tmp_path / "shop.csv"
    path.write_text("r1;tea\n", encoding="utf-8")
    found = refused(miner.sets, path, 1, form="single")
    assert found == ("InputError", "basket: record 1: fewer than two fields", [FIELDS])
    said = "basket: no count of the empty set, as (15), which a share and rules need"
    assert notes_of(error_of(3, said)) == [
        "The counts have to begin with the number of all baskets, as `basket count` writes it; without it, give "
        "the minimum as a count and ask for no rules."
    ]


def test_a_file_in_another_encoding_says_how_to_read_it(tmp_path: Path) -> None:
    path = tmp_path / "shop.csv"
    path.write_bytes("r1,thé\n".encode("cp1252"))
    _, said, notes = refused(miner.sets, path, 1, form="single")
    assert said == "basket: record 1: field is not UTF-8"
    assert [note.partition(":")[0] for note in notes] == [
        "The file has another encoding, often Windows-1252"
    ]


def test_a_file_that_cannot_be_opened_or_read_says_where_to_look(
    tmp_path: Path,
) -> None:
    kind, _, notes = refused(miner.sets, tmp_path / "none", 1)
    assert (kind, notes) == (
        "FileError",
        [
            "A path without a leading / begins at the current folder, which os.getcwd() tells."
        ],
    )
    kind, _, notes = refused(miner.sets, tmp_path, 1)
    assert (kind, notes) == (
        "FileError",
        [
            "The path may be that of a folder, where a file is wanted, or the disk failed."
        ],
    )
    said = "basket: cannot open shop: Permission denied (os error 13)"
    assert notes_of(error_of(4, said)) == [
        "The system does not let this user open the file: see its owner and its permissions."
    ]


def test_a_note_is_there_once_and_goes_with_its_exception_to_another_process() -> None:
    error = error_of(2, "basket: bad value for --min\n")
    assert str(error) == "basket: bad value for --min"
    sent = pickle.loads(pickle.dumps(error))
    assert (type(sent), str(sent)) == (miner.UsageError, str(error))
    assert notes_of(sent) == notes_of(error) == [MINIMUM]


def test_what_no_advice_fits_has_no_note() -> None:
    for status, said in ((2, "error: x"), (3, "basket: record 1: bad weight"), (9, "")):
        assert notes_of(error_of(status, said)) == []
    assert notes_of(error_of(-9, "")) == []


def test_exceptions_have_what_a_caller_acts_on(tmp_path: Path) -> None:
    with pytest.raises(miner.TooManySets) as many:
        miner.sets(BASKETS, 1, limit=1)
    assert (many.value.limit, many.value.status) == (1, 5)
    path = tmp_path / "shop.dat"
    path.write_text("1 2\n1 -2\n")
    with pytest.raises(miner.InputError) as line:
        miner.sets(path, 1)
    assert (line.value.line, line.value.status) == (2, 3)
    path.write_text("a,b\nc\n")
    with pytest.raises(miner.InputError) as record:
        miner.sets(path, 1, form="single")
    assert record.value.line == 2
    assert pickle.loads(pickle.dumps(line.value)).line == 2
    assert miner.DataError("no").status is None
