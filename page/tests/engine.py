# mypy: allow-untyped-calls
"""The program in a page, asked as the page asks it, and the same program without a page."""

import base64
import tempfile
from collections.abc import Sequence
from pathlib import Path
from typing import Any, NamedTuple

from selenium import webdriver

from program_tests.program import Run, run_at_terminal

# Workers of the page's own source over its own module, apart from those that the page makes.
BEGIN = """
const [done] = arguments;
const bytesOf = (text) => Uint8Array.from(atob(text), (character) => character.charCodeAt(0));
const text = (id) => document.getElementById(id).textContent;
const source = URL.createObjectURL(new Blob([text("worker")], { type: "text/javascript" }));
const packed = new Blob([bytesOf(text("module"))]).stream().pipeThrough(new DecompressionStream("gzip"));
async function encoded(bytes) {
  const url = await new Promise((told) => {
    const reader = new FileReader();
    reader.onload = () => told(reader.result);
    reader.readAsDataURL(new Blob([bytes]));
  });
  return url.slice(url.indexOf(",") + 1);
}
const told = (worker, message) =>
  new Promise((answer) => {
    worker.onmessage = ({ data }) => answer(data);
    worker.onerror = (event) => answer({ status: -1, report: new Uint8Array(0), explanation: event.message });
    worker.postMessage(message);
  });
window.miner = {
  async begin(module) {
    const worker = new Worker(source);
    const { ready, why } = await told(worker, { module });
    if (!ready) throw new Error(why);
    return worker;
  },
  ask: (worker, { id, words, input, sets }) =>
    told(worker, { id, words, input: bytesOf(input), sets: sets === null ? null : bytesOf(sets) }),
  shown: async (answer) => ({ ...answer, report: await encoded(answer.report) }),
};
(async () => {
  miner.module = await WebAssembly.compile(await new Response(packed).arrayBuffer());
  miner.worker = await miner.begin(miner.module);
})().then(() => done(null), (error) => done(String(error)));
"""
ASK = """
const [questions, done] = arguments;
(async () => {
  const answers = [];
  for (const question of questions) answers.push(await miner.shown(await miner.ask(miner.worker, question)));
  done(answers);
})();
"""


class Question(NamedTuple):
    """Words after the program's name, the input, and what the file `sets` has, if it is there."""

    words: str
    given: bytes = b""
    sets: bytes | None = None


class Answer(NamedTuple):
    """What the page was told, and the bytes of the memory that the run had."""

    run: Run
    memory: int


def encoded(given: bytes) -> str:
    return base64.b64encode(given).decode()


def message_of(number: int, question: Question) -> dict[str, Any]:
    sets = question.sets
    return {
        "id": number,
        "words": question.words.split(),
        "input": encoded(question.given),
        "sets": None if sets is None else encoded(sets),
    }


class Engine:
    """The program in a page that a browser has opened."""

    def __init__(self, browser: webdriver.Chrome, page: Path) -> None:
        self.browser = browser
        browser.set_script_timeout(600)
        browser.get(page.as_uri())
        assert browser.execute_async_script(BEGIN) is None

    def ask(self, questions: Sequence[Question]) -> list[Answer]:
        """The answers to these questions, asked one after the other of one worker."""
        messages = [message_of(*it) for it in enumerate(questions)]
        answers = self.browser.execute_async_script(ASK, messages)
        assert [it["id"] for it in answers] == [*range(len(questions))]
        return [
            Answer(
                Run(base64.b64decode(it["report"]), it["explanation"], it["status"]),
                it["memory"],
            )
            for it in answers
        ]


def without_page(question: Question) -> Run:
    """What the program answers at a terminal."""
    with tempfile.TemporaryDirectory(prefix="basket-") as folder:
        if question.sets is not None:
            Path(folder, "sets").write_bytes(question.sets)
        return run_at_terminal(question.words.split(), question.given, folder)
