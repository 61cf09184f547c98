# mypy: allow-untyped-calls
"""Questions over parts on a cluster of three processes, beside one run over all baskets."""

import itertools
import math
import random
import subprocess
import sys
import time
from collections.abc import Sequence
from fractions import Fraction
from pathlib import Path
from typing import Any

import pandas as pd
import pytest
from dask.bag.core import from_delayed
from dask.dataframe.io.io import from_pandas
from dask.delayed import delayed
from distributed import Client

import basket_miner
from basket_miner import BasketError, DataError, InputError, TooManySets, UsageError
from basket_miner import cluster
from basket_miner._program import run
from basket_miner.cluster._passes import _completed
from cut_files import cut, written

ROOT = Path(__file__).parents[2]
QUESTIONS = ("sets", "closed", "maximal", "rules --conf=1/2")
SHOP = (ROOT / "examples/shop.dat").read_bytes()


def whole(texts: Sequence[bytes]) -> bytes:
    """All parts concatenated, each ended by a line feed."""
    return b"".join(text if text.endswith(b"\n") else text + b"\n" for text in texts)


def test_seven_parts_of_100000_baskets_have_the_bytes_of_one_run(
    client: Client, tmp_path: Path, capsys: pytest.CaptureFixture[str]
) -> None:
    quest = f"{sys.executable} {ROOT}/bench/quest.py 10 4 100000 1000 2000 1".split()
    text = subprocess.run(quest, capture_output=True, check=True).stdout
    ends = [1_887, 16_981, 20_754, 45_283, 50_943, 60_377]
    files = written(tmp_path, cut(text, *ends))
    everything = tmp_path / "all"
    everything.write_bytes(text)
    for question in ("sets --min=500", *(f"{name} --min=1/200" for name in QUESTIONS)):
        words = question.split()
        start = time.monotonic()
        report = cluster.report(files, *words, client=client)
        middle = time.monotonic()
        assert report == run([*words, "--workers=4"], everything), words
        seconds = middle - start, time.monotonic() - middle
        with capsys.disabled():
            print(
                f"\n{question}: {report.count(10)} lines; seven parts on three "
                "processes %.2f s, one run of four workers %.2f s" % seconds
            )


@pytest.mark.parametrize(
    "texts",
    [
        pytest.param([SHOP], id="one part"),
        pytest.param(cut(SHOP, 0, 3, 3, 9, 13), id="empty parts"),
        pytest.param([b"", b""], id="no basket at all"),
        pytest.param([p.rstrip() for p in cut(SHOP, 5, 9)], id="no line feed at ends"),
        pytest.param([SHOP, b"".join(b"%d\n" % n for n in range(50, 90))], id="rare"),
        pytest.param(cut(SHOP, *range(1, 9)), id="more parts than one sum takes"),
        pytest.param([b"\xef\xbb\xbf1 2\r\n", b"7x 2 3\n\n", b"\n"], id="marks"),
    ],
)
def test_odd_parts_have_the_bytes_of_one_run(
    client: Client, tmp_path: Path, texts: list[bytes]
) -> None:
    files = written(tmp_path, texts)
    questions = ("items", "closed --miner=fpgrowth --workers=2", "rules --conf=1/2")
    for minimum, question in itertools.product(("0%", "1/5", "3", "1000"), questions):
        words = [*question.split(), f"--min={minimum}"]
        report = cluster.report(files, *words, client=client)
        assert report == run(words, whole(texts)), words


def test_random_baskets_have_the_bytes_of_one_run_wherever_they_are_cut(
    client: Client, tmp_path: Path
) -> None:
    draw = random.Random(4)
    for number in range(6):
        lines = [
            b"%dx " % draw.randrange(1, 4) * (number % 2)
            + b" ".join(b"%d" % item for item in draw.choices(range(6), k=4))
            for _ in range(40)
        ]
        text = b"".join(b"%s\n" % line for line in lines)
        files = written(tmp_path, cut(text, *sorted(draw.choices(range(41), k=4))))
        for words in (["sets", "--min=1/4"], ["rules", "--min=9", "--conf=1/3"]):
            report = cluster.report(files, *words, client=client)
            assert report == run(words, text), (text, words)


def test_sets_that_a_part_listed_are_not_counted_in_it_again() -> None:
    # A wrong count stays, so nothing counted it.
    counts = _completed(
        b"1 2\n2\n", "part", b"1 2 (99)\n", b"(0)\n2 (0)\n1 2 (0)\n", ()
    )
    assert counts == b"(2)\n2 (2)\n1 2 (99)\n"


def test_a_count_whose_share_has_numbers_too_large_to_be_read_is_met_exactly(
    client: Client, tmp_path: Path
) -> None:
    most = 2**32 - 1
    uneven = [b"%dx 1 2\n" % most * 3, b"%dx 1 3\n" % (most - 1), b"5x 2 3\n4x 4\n"]
    # Item 1 meets the share of its count exactly, in each part as in the whole.
    even = [b"%dx 1\n%dx 2\n7x 1\n" % (most, most)] * 2
    assert math.gcd(most + 7, 2 * most + 7) == 1
    for texts, least in (
        *((uneven, 3 * most + more) for more in (-1, 0, 1, most - 1, most)),
        *((uneven, least) for least in (4, 5, 9)),
        *((even, 2 * (most + 7) + more) for more in (-1, 0, 1)),
    ):
        files = written(tmp_path, texts)
        words = ["sets", f"--min={least}"]
        report = cluster.report(files, *words, client=client)
        assert report == run(words, whole(texts)), least


BASKETS: list[list[Any]] = [
    ["tea", 1, None],
    [1, (2, 3)],
    ["tea"],
    [],
    ["1", 1, "tea", "tea"],
    [(2, 3), "tea", 1],
    [2.5],
    ["1", (2, 3)],
    [1, "tea"],
    [(2, 3), 2.5],
]


def bag_of(*parts: list[list[Any]]) -> Any:
    return from_delayed([delayed(iter)(part) for part in parts])


def test_a_bag_gives_the_frames_of_its_baskets_as_an_iterable(client: Client) -> None:
    bag = bag_of(BASKETS[:4], [], BASKETS[4:7], BASKETS[7:]).map(iter)
    for minimum in (2, Fraction(1, 3)):
        same: dict[str, Any] = {"minimum": minimum, "missing": "drop", "exact": True}
        for name in ("sets", "closed", "maximal"):
            got = getattr(cluster, name)(bag, client=client, **same)
            wanted = getattr(basket_miner, name)(BASKETS, **same)
            pd.testing.assert_frame_equal(got, wanted)
        got = cluster.rules(bag, confidence=0.5, client=client, **same)
        wanted = basket_miner.rules(BASKETS, confidence=0.5, **same)
        pd.testing.assert_frame_equal(got, wanted)
        assert not got.empty


def frame_of_rows() -> pd.DataFrame:
    """A frame of 60 baskets, whose rows stand in any order, with weights and repeated rows."""
    source = random.Random(1)
    rows = [
        {"receipt": f"r{number}", "product": product, "times": 1 + number % 4}
        for number in range(60)
        for product in source.choices(["tea", "milk", 3, "3", "jam", "bread"], k=4)
    ]
    source.shuffle(rows)
    return pd.DataFrame(rows)


def test_a_data_frame_gives_the_frames_of_its_rows_wherever_they_are_cut(
    client: Client,
) -> None:
    whole_frame, gaps = frame_of_rows(), frame_of_rows()
    gaps.loc[::9, "product"] = None
    gaps.loc[::7, "receipt"] = None
    columns: dict[str, Any] = {"basket": "receipt", "item": "product"}
    weighted = columns | {"weight": "times"}
    for frame, parts, options in (
        (whole_frame, 7, columns),
        (whole_frame, 1, weighted),
        (gaps, 12, weighted | {"missing": "drop"}),
        (whole_frame.astype("category"), 5, columns),
    ):
        cut_up = from_pandas(frame, npartitions=parts, sort=False)
        got = cluster.rules(cut_up, "5%", "1/2", client=client, **options)
        wanted = basket_miner.rules(frame, "5%", "1/2", **options)
        pd.testing.assert_frame_equal(got, wanted)
        assert len(got) > 5


def test_prepared_parts_answer_several_questions_and_name_their_numbers(
    client: Client,
) -> None:
    bag = bag_of([["tea", "milk"]], [["milk"], ["tea", "milk", 7]])
    parts = cluster.prepare(bag, client=client)
    assert cluster.report(parts, "sets", "--min=2", client=client) == (
        b"0 (2)\n1 (3)\n0 1 (2)\n"
    )
    assert cluster.report(parts, "maximal", "--min=1", client=client) == b"0 1 2 (1)\n"
    assert parts.labels == ["tea", "milk", 7]
    with pytest.raises(DataError, match="prepared"):
        cluster.sets(parts, 2, client=client, missing="drop")


def test_what_cannot_be_asked_of_parts_is_refused(
    client: Client, tmp_path: Path
) -> None:
    good, bad = written(tmp_path, [b"1 2\n", b"1 2\n3 y\n"])
    rows: list[tuple[list[Any], str, type[BasketError], str]] = [
        ([good, bad], "sets --min=1", InputError, "line 2: byte 0x79.*part 2 of 2.*1"),
        ([good, bad], "sets --min=50%", InputError, "line 2: byte 0x79.*part 2 of 2"),
        ([good], "sets --min=1 --limit=2", TooManySets, "more than 2"),
        ([good], "sets --min=none", UsageError, "bad value for --min"),
        ([good], "sets --min=1 --miner=none", UsageError, "--miner"),
        ([good], "sets", UsageError, "--min"),
        ([good], "count --min=1", UsageError, "count"),
        ([good], "sets --min=1 --form=counts", UsageError, "--form"),
        ([good], f"sets --min=1 {good.name}", UsageError, good.name.split()[0]),
        ([], "sets --min=1", DataError, "no part"),
        ([tmp_path / "a.csv"], "sets --min=1", DataError, "form="),
        ([good], "sets --min=1 --form=single", DataError, "cut a basket"),
        ([["bread"]], "sets --min=1", DataError, "list"),
    ]
    for parts, words, kind, said in rows:
        with pytest.raises(kind, match=said):
            cluster.report(parts, *words.split(), client=client)
    for parts in (str(good), 7, delayed(good)):
        with pytest.raises(DataError, match="list of files"):
            cluster.sets(parts, 1, client=client)
    with pytest.raises(DataError, match="missing"):
        cluster.sets(bag_of([["tea", None]]), 1, client=client)
    frame = frame_of_rows()
    columns: dict[str, Any] = {"basket": "receipt", "item": "product"}
    frame.loc[::2, "times"] += 1
    with pytest.raises(DataError, match="several weights"):
        cut_up = from_pandas(frame.head(40), chunksize=1, sort=False)
        cluster.sets(cut_up, 1, client=client, weight="times", **columns)
    with pytest.raises(DataError, match="no column"):
        cluster.sets(cut_up, 1, client=client, weight="time", **columns)
    with pytest.raises(DataError, match="basket="):
        cluster.sets(cut_up, 1, client=client)


def test_the_engine_shows_its_bar_where_it_is_asked_to(
    client: Client, tmp_path: Path, capfd: pytest.CaptureFixture[str]
) -> None:
    files = written(tmp_path, cut(SHOP, 5))
    frame = cluster.sets(files, "20%", client=client, progress=True)
    assert len(frame) == 9
    assert "100% Completed" in capfd.readouterr().out


def test_the_engine_shows_the_steps_of_a_question_by_their_names(
    client: Client, tmp_path: Path
) -> None:
    files = written(tmp_path, cut(SHOP, 5))
    assert len(cluster.sets(files, 3, client=client)) == 9

    def names(dask_scheduler: Any) -> set[str]:
        return {*dask_scheduler.task_prefixes}

    steps = ("counted", "added", "share", "found", "united", "answered")
    assert {f"basket_{step}" for step in steps} <= client.run_on_scheduler(names)
