# mypy: allow-untyped-calls
"""The program in a page where something is refused: memory, time and the network."""

import json
from pathlib import Path

from selenium import webdriver

from browser import opened
from program_tests.inputs import dense, fimi, shop
from program_tests.program import MINERS

from .engine import Engine, Question, message_of, without_page

SMALL = Question("sets --min 2", b"1 2\n1 2\n2 3\n")
OUT_OF_MEMORY = "basket: out of memory\n"
# Another worker asks a question after the first was ended.
GIVE_WAY = """
const [long, short, done] = arguments;
(async () => {
  const first = await miner.begin(miner.module);
  let isAnswered = false;
  miner.ask(first, long).then(() => { isAnswered = true; });
  await new Promise((passed) => setTimeout(passed, 300));
  first.terminate();
  const second = await miner.begin(miner.module);
  const { report, status } = await miner.ask(second, short);
  done([isAnswered, status, new TextDecoder().decode(report)]);
})();
"""
# What the page's policy refuses to the page and to a worker of it.
FETCH = """
const [done] = arguments;
const told = "addEventListener('securitypolicyviolation', (event) => postMessage(event.effectiveDirective));";
const worker = new Worker(URL.createObjectURL(new Blob([`${told} fetch("http://127.0.0.1:9/").catch(() => {});`])));
worker.onmessage = ({ data }) => {
  const found = [data];
  setTimeout(() => done(found), 10_000);
  document.addEventListener("securitypolicyviolation", (event) => {
    if (found.push(event.effectiveDirective) === 4) done(found.sort());
  });
  fetch("http://127.0.0.1:9/").catch(() => {});
  const [base, form] = ["base", "form"].map((tag) => document.body.appendChild(document.createElement(tag)));
  base.href = form.action = "http://127.0.0.1:9/";
  form.submit();
};
"""


def test_memory_that_does_not_grow_ends_with_6_and_no_byte(page: Path) -> None:
    given = fimi(shop())
    questions = [
        Question(f"{ask} --min {least} --miner {miner}", given)
        for ask in ("sets", "rules --conf 1/2")
        for least in ("5%", "1%", "1/500", "2")
        for miner in MINERS
    ]
    # Pages of 64 KiB, of which the program has some twenty before it begins.
    with opened("--js-flags=--wasm-max-mem-pages=80") as browser:
        answers = Engine(browser, page).ask([*questions, SMALL])
    refused = 0
    for question, answer in zip(questions, answers):
        if answer.run.status == 6:
            # Advice may follow, if there is memory for it.
            assert answer.run.said.startswith(OUT_OF_MEMORY)
            assert answer.run.out == b""
            refused += 1
        else:
            assert answer.run == without_page(question), question
    assert 5 < refused < len(questions) - 5
    assert answers[-1].run == without_page(SMALL)


def test_a_long_question_gives_way(engine: Engine) -> None:
    # A billion sets.
    long = Question("sets --min 1", fimi(dense()))
    messages = [message_of(number, it) for number, it in enumerate((long, SMALL))]
    found = engine.browser.execute_async_script(GIVE_WAY, *messages)
    assert found == [False, 0, "1 (2)\n2 (3)\n1 2 (2)\n"]


def requests(browser: webdriver.Chrome) -> set[str]:
    """The addresses that were asked for, without those of the browser's own pages."""
    messages = [
        json.loads(entry["message"])["message"]
        for entry in browser.get_log("performance")
    ]
    found = {
        it["params"]["request"]["url"]
        for it in messages
        if it["method"] == "Network.requestWillBeSent"
    }
    return {url for url in found if not url.startswith(("chrome:", "blob:", "data:"))}


def test_nothing_is_asked_of_a_network(page: Path) -> None:
    with opened(log="performance") as browser:
        answers = Engine(browser, page).ask([SMALL, Question("sells")])
        assert [it.run.status for it in answers] == [0, 2]
        assert requests(browser) == {page.as_uri()}
        found = browser.execute_async_script(FETCH)
        assert found == ["base-uri", "connect-src", "connect-src", "form-action"]
