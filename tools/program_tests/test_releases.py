"""The files of a release that lie in the repository are whole and of the newest version."""

import contextlib
import re
import subprocess
import tempfile
import unittest
from pathlib import Path

import release
import sbom
from put_release import HEAD, KINDS, put

from .program import ROOT

PLACE = ROOT / "releases"


def write_dist(folder: Path) -> None:
    """Files with the names of a release, and their sums."""
    folder.mkdir()
    for name in (
        "basket.html",
        "basket_9.8.7_amd64.deb",
        "basket-9.8.7-x86_64-linux.tar.gz",
        "basket_miner-9.8.7-py3-none-manylinux_2_34_x86_64.whl",
        "basket-9.8.7.spdx.json",
        "basket-9.8.7-notes.md",
        "proofs-0123456789ab-some-kit.tar.zst",
    ):
        (folder / name).write_text(f"{name} itself\n", encoding="utf-8")
    head = f"basket 9.8.7, commit {40 * 'a'}, kit some-kit\n"
    (folder / "basket-9.8.7-proof.txt").write_text(head, encoding="utf-8")
    release.write_sums(folder)


class Releases(unittest.TestCase):
    """What tools/release.py makes and tools/put_release.py puts here."""

    def check(self, place: Path) -> None:
        """Sums, names and the page of a folder agree."""
        (record,) = place.glob("*-proof.txt")
        head = HEAD.match(record.read_text(encoding="utf-8"))
        assert head
        words = ["sha256sum", "--quiet", "--strict", "-c", "SHA256SUMS"]
        subprocess.run(words, cwd=place, check=True)
        sums = (place / "SHA256SUMS").read_text(encoding="utf-8")
        page = (place / "README.md").read_text(encoding="utf-8")
        names = {it.name for it in place.iterdir()} - {"SHA256SUMS", "README.md"}
        self.assertEqual(set(re.findall(r"(?m)  (\S+)$", sums)), names)
        self.assertEqual(len(names), len(KINDS))
        for name in names - {"basket.html"}:
            self.assertIn(head[1], name)
        for word in (*head.groups(), sums, *names):
            self.assertIn(word, page)

    def test_what_is_put_into_the_repository_is_whole_and_of_one_version(self) -> None:
        with tempfile.TemporaryDirectory() as name, contextlib.redirect_stdout(None):
            dist, place = Path(name, "dist"), Path(name, "releases")
            write_dist(dist)
            put(dist, place)
            self.check(place)
            (place / "basket.html").write_text("another\n", encoding="utf-8")
            with self.assertRaises(subprocess.CalledProcessError):
                self.check(place)

    def test_files_with_other_sums_than_those_of_the_release_are_refused(self) -> None:
        with tempfile.TemporaryDirectory() as name, contextlib.redirect_stdout(None):
            dist, place = Path(name, "dist"), Path(name, "releases")
            write_dist(dist)
            (dist / "basket.html").write_text("another\n", encoding="utf-8")
            with self.assertRaisesRegex(SystemExit, "other sums"):
                put(dist, place)
            self.assertFalse(place.exists())

    def test_two_folders_of_a_release_are_compared_by_bytes(self) -> None:
        with tempfile.TemporaryDirectory() as name, contextlib.redirect_stdout(None):
            one, other = Path(name, "one"), Path(name, "other")
            write_dist(one)
            write_dist(other)
            self.assertEqual(release.compared(one, other), [])
            (other / "basket.html").write_text("another\n", encoding="utf-8")
            (one / "more").touch()
            self.assertEqual(release.compared(one, other), ["basket.html", "more"])

    def test_the_release_in_the_repository_is_whole_and_of_the_newest_version(
        self,
    ) -> None:
        if not PLACE.exists():
            self.skipTest("no release is here yet")
        self.check(PLACE)
        changes = (ROOT / "CHANGELOG.md").read_text(encoding="utf-8")
        newest = re.search(r"(?m)^## (\d\S*), ", changes)
        page = (PLACE / "README.md").read_text(encoding="utf-8")
        assert newest
        self.assertTrue(page.startswith(f"# basket {newest[1]}\n"))
        html = (PLACE / "basket.html").read_text(encoding="utf-8")
        self.assertIn(f'"version": "{newest[1]}", "module": "proved"', html)

    def test_the_notice_has_each_library_that_is_linked_and_no_other(self) -> None:
        notice = (ROOT / "NOTICE").read_text(encoding="utf-8")
        table = notice.partition("-------  ---")[2].partition("The standard library")
        told = set(re.findall(r"(?m)^(\w+),?(?: and)?  +\S", table[0]))
        rest = re.search(r"\(([\w, \n]+)\) has no licence file", notice)
        assert rest
        told.update(re.findall(r"\w+", rest[1]))
        with contextlib.chdir(ROOT):
            linked = {it for it in sbom.linked() if it not in sbom.C_ARCHIVES}
        self.assertEqual(linked, told)
        self.assertLessEqual(sbom.LICENCES.keys(), linked)
