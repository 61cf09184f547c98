# mypy: allow-untyped-calls
"""Parts that are CSV files, whose names stay names."""

import itertools
import random
from pathlib import Path
from typing import Any

import pandas as pd
import pytest
from distributed import Client

import basket_miner
from basket_miner import DataError, InputError, cluster
from basket_miner._program import run
from cut_files import cut, written

QUESTIONS = ("items", "sets", "closed", "maximal --workers=2", "rules --conf=1/2")
NAMES = ("tea", '"jam, red"', " figs ", '"say ""milk"""', "7", "béchamel", "(2)")


def of_names(separator: str, records: int, weighted: bool = False) -> bytes:
    """Records of names; the rarest come first, so that their order is not that of their counts."""
    source = random.Random(20261127)
    heads = [[str(source.randrange(1, 4))] if weighted else [] for _ in range(records)]
    baskets = [
        [name for place, name in enumerate(NAMES) if source.random() < (place + 2) / 9]
        for _ in range(records)
    ]
    lines = [separator.join(head + basket) for head, basket in zip(heads, baskets)]
    return "".join(f"{line}\n" for line in lines).encode()


@pytest.mark.parametrize("ends", [[], [3], [0, 3, 3, 9, 20], range(1, 24)], ids=len)
def test_parts_of_names_have_the_bytes_of_one_run(
    client: Client, tmp_path: Path, ends: list[int]
) -> None:
    for words, separator in (
        (["--form=baskets"], ","),
        (["--form=baskets", "--sep=semicolon", "--weight"], ";"),
    ):
        text = of_names(separator, 24, "--weight" in words)
        files = written(tmp_path, cut(text, *ends))
        for minimum, question in itertools.product(("0%", "1/4", "5"), QUESTIONS):
            asked = [*question.split(), f"--min={minimum}", *words]
            report = cluster.report(files, *asked, client=client)
            assert report == run(asked, text), asked
            assert report.count(b"\n") > 2


def test_each_file_has_its_header_and_the_frame_has_the_names(
    client: Client, tmp_path: Path
) -> None:
    first, second = b"w,items\n2,tea,milk\n1,jam\n", b"w,items\n3,milk,tea\n1,milk\n"
    layout: dict[str, Any] = {"form": "baskets", "header": True, "weighted": True}
    files = written(tmp_path, [first, second])
    one = tmp_path / "one.csv"
    one.write_bytes(first + second.partition(b"\n")[2])
    parts = cluster.prepare(files, client=client, **layout)
    got = cluster.rules(parts, "1/2", 0.8, client=client, exact=True)
    pd.testing.assert_frame_equal(
        got, basket_miner.rules(one, "1/2", 0.8, exact=True, **layout)
    )
    assert got["antecedents"].tolist() == [{"milk"}, {"tea"}]
    assert got["count"].tolist() == [5, 5]
    again = cluster.sets(files, 4, client=client, **layout)
    pd.testing.assert_frame_equal(again, basket_miner.sets(one, 4, **layout))


def test_files_of_which_nothing_is_said_are_read_as_they_look(
    client: Client, tmp_path: Path
) -> None:
    texts = [b"tea;jam\ntea;jam;figs\n" * 5, b"tea;figs\njam;tea;rice\n" * 5]
    files = written(tmp_path, texts)
    found = cluster.sets(files, "3/4", client=client)
    assert found["itemsets"].tolist() == [{"tea"}, {"jam"}, {"jam", "tea"}]
    assert found["count"].tolist() == [20, 15, 15]
    files[1].write_text("tea,figs\njam,tea,rice\n" * 5)
    with pytest.raises(DataError, match="is written otherwise than .*: give form="):
        cluster.sets(files, "3/4", client=client)
    files[1].write_text("receipt,product\n1,tea\n1,jam\n2,tea\n")
    with pytest.raises(DataError, match="read such files as a Dask data frame"):
        cluster.sets(files[1:], "3/4", client=client)


def test_a_bad_record_is_told_with_its_part(client: Client, tmp_path: Path) -> None:
    files = written(tmp_path, [b"1,a\n", b"1,b\n0,c\n"])
    words = ("sets", "--min=1", "--form=baskets", "--weight")
    with pytest.raises(InputError, match="record 2: bad weight.*part 2 of 2.*part 1"):
        cluster.report(files, *words, client=client)
