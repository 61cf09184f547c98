"""Files of other kinds than text in UTF-8 are named with what reads them."""

import gzip
import lzma
import subprocess
from pathlib import Path
from typing import Any

import pytest

import basket_miner as miner

KINDS = {
    "a Parquet file: read it by pandas.read_parquet": b"PAR1\x15\x04\x15\x00PAR1",
    "a zip file, as Excel's .* by pandas.read_excel": b"PK\x03\x04\x14\x00\x06\x00",
    "a workbook of an old Excel": b"\xD0\xCF\x11\xE0\xA1\xB1\x1A\xE1\x00",
    "a database of SQLite: .* pandas.read_sql": b"SQLite format 3\x00\x10\x00",
    "compressed by gzip: unpack it": gzip.compress(b"1 2\n"),
    "compressed by xz: unpack it": lzma.compress(b"1 2\n"),
    'text in UTF-16: .* encoding="utf-16"': "1 2\n".encode("utf-16"),
}


@pytest.mark.parametrize("said", KINDS)
@pytest.mark.parametrize("form", ["fimi", "single"])
def test_a_file_of_another_kind_is_named_with_what_reads_it(
    said: str, form: Any, tmp_path: Path
) -> None:
    path = tmp_path / "shop"
    path.write_bytes(KINDS[said])
    with pytest.raises(miner.DataError, match=f"{path} is {said}"):
        miner.sets(path, 1, form=form)
    with subprocess.Popen(["cat", path], stdout=subprocess.PIPE) as made:
        assert made.stdout
        with pytest.raises(miner.DataError, match=f"is {said}"):
            miner.sets(f"/dev/fd/{made.stdout.fileno()}", 1, form=form)


def test_names_that_begin_as_a_parquet_file_are_mined(tmp_path: Path) -> None:
    path = tmp_path / "shop.csv"
    path.write_bytes(b"PAR1,tea\nPAR1\n")
    assert miner.sets(path, 2, form="baskets")["itemsets"].tolist() == [{"PAR1"}]
