# mypy: allow-untyped-calls
"""Files as tills, spreadsheets, databases, pandas and R write them, brought into what is mined as the page does it."""

import base64
import json
import subprocess
import sys
from pathlib import Path

from selenium import webdriver

from program_tests.program import ROOT
from program_tests.test_look import sets_in

# What an opening does, without the drawing.
SETS = """
const [contents, done] = arguments;
const own = begin();
const textOf = ({ report }) => new TextDecoder().decode(report);
async function setsOf(content) {
  const whole = new Blob([Uint8Array.from(atob(content), (letter) => letter.charCodeAt(0))]);
  const { data: given } = await dataOf(own, whole, "some file", "");
  source = { given, look: JSON.parse(textOf(await lookedAt(own, given))) };
  takeReading(source.look.readings[0]);
  const ways = waysOf();
  return textOf(await ask(own, ["sets", "--min", "10%", ...ways.words, "-"], await inputOf(own, ways)));
}
(async () => {
  const found = [];
  for (const content of contents) found.push(await setsOf(content));
  done(found);
})();
"""


def test_the_sets_of_each_file_are_the_right_ones(
    shown: webdriver.Chrome, tmp_path: Path
) -> None:
    writer = str(ROOT / "tools/odd_files.py")
    subprocess.run([sys.executable, writer, str(tmp_path)], check=True)
    wanted = json.loads((tmp_path / "sets.json").read_text(encoding="utf-8"))
    assert len(wanted) > 50
    given = [base64.b64encode((tmp_path / it).read_bytes()).decode() for it in wanted]
    found = shown.execute_async_script(SETS, given)
    for report, (name, sets) in zip(found, wanted.items(), strict=True):
        assert sets_in(report.splitlines()) == sets, name
