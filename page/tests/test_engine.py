"""What the program in the page answers, beside the same program at a terminal, byte for byte."""

import random
from concurrent.futures import ThreadPoolExecutor
from pathlib import Path

from program_tests.inputs import dense, fimi, pairs, repeated, shop, weighted
from program_tests.program import MINERS

from .engine import Engine, Question, without_page

ROOT = Path(__file__).parents[2]
EXAMPLES = {path.name: path.read_bytes() for path in (ROOT / "examples").iterdir()}


def names(baskets: list[list[int]]) -> bytes:
    """A record for each basket, with names that are quoted or not of ASCII here and there."""
    shown = ("tea {}", '"tea, no. {}"', "thé {}", "{}", " tea {} ")
    return "".join(
        f"{','.join(shown[item % 5].format(item) for item in basket)}\n"
        for basket in baskets
    ).encode()


def records(baskets: list[list[int]]) -> bytes:
    """A record for each item of each basket, below a header."""
    lines = [
        f"r{place};item {item}"
        for place, basket in enumerate(baskets)
        for item in basket
    ]
    random.Random(6).shuffle(lines)
    return "\n".join(["receipt;item", *lines]).encode()


INPUTS = {
    **EXAMPLES,
    "shop": fimi(shop()),
    "dense": fimi(dense()),
    "pairs": fimi(pairs()),
    "weights": weighted(repeated()),
    "names": names(shop()),
    "records": records(shop()),
    "weighted names": b"3,tea,milk\n1,milk\n2,tea\n",
    "counts": b"(7)\n1 (5)\n2 (4)\n1 2 (3)\n",
    "named counts": b"7\n5,tea\n4,milk\n3,milk,tea\n",
    "windows": b"caf\xe9,tea\n",
    "nothing": b"",
}
# Words and the name of an input.
QUESTIONS = (
    ("items --min 2", "shop.dat"),
    ("closed --min 1/3", "shop.dat"),
    ("rules --min 1/3 --conf 1/2", "shop.dat"),
    ("rules --min 20% --conf 2/3 --form single --header", "receipts.csv"),
    ("maximal --min 2 --form single --header", "receipts.csv"),
    ("items --min 1 --form baskets", "baskets.csv"),
    ("sets --min 2 --form baskets", "baskets.csv"),
    ("rules --min 1 --conf 0/1 --form baskets --workers 4", "baskets.csv"),
    ("items --min 1", "shop"),
    *((f"sets --min 1% --miner {miner}", "shop") for miner in MINERS),
    *((f"closed --min 40% --miner {miner} --workers 4", "dense") for miner in MINERS),
    *((f"rules --min 2 --conf 1/2 --miner {miner}", "pairs") for miner in MINERS),
    ("maximal --min 5 --pieces 1000 --workers 4", "shop"),
    ("sets --min 1", "weights"),
    ("items --min 1%", "weights"),
    ("sets --min 2% --form baskets --miner eclat-bits", "names"),
    ("items --min 1 --form baskets", "names"),
    (
        "rules --min 2% --conf 60% --form single --header --sep semicolon --miner fpgrowth",
        "records",
    ),
    ("closed --min 3% --form single --header --sep semicolon --workers 4", "records"),
    ("sets --min 1 --form baskets --weight", "weighted names"),
    ("closed --min 1/2 --form counts", "counts"),
    ("rules --min 2 --conf 3/4 --form csv-counts", "named counts"),
    ("sets --min 1", "nothing"),
    ("sets --min 90%", "shop"),
    ("look", "receipts.csv"),
    ("look -", "shop"),
    ("look", "windows"),
    ("look --json", "receipts.csv"),
    ("pairs --header --basket 1 --item 2", "receipts.csv"),
    ("pairs --encoding windows-1252 --item 1-", "windows"),
    ("--version", "nothing"),
    ("rules --help", "nothing"),
    # Faults, and the advice on them.
    ("sets --min 20%", "receipts.csv"),
    ("sets --min 0.2", "shop.dat"),
    ("sets --min 20 --conf 1/2", "shop.dat"),
    ("rules --min 20% --conf 50", "shop.dat"),
    ("sets --min 1 --form single", "baskets.csv"),
    ("sets --min 1 --form baskets", "windows"),
    ("sets --min 1/1000 --limit 100", "shop"),
    ("sets --min 2 missing.dat", "shop.dat"),
    ("sets --min 1/2 --form counts", "shop.dat"),
    ("pairs --item 1-", "windows"),
    ("pairs --item 7", "receipts.csv"),
    ("pairs --item", "receipts.csv"),
    ("sells", "shop.dat"),
    ("", "nothing"),
)
# Words, the name of an input, and the sets that are counted.
COUNTED = (
    ("count --sets sets", "shop.dat", b"1 2\n3\n"),
    ("count --sets sets --form baskets", "baskets.csv", b"0,milk,bread\n0,wine\n"),
    ("count --sets sets --form baskets", "baskets.csv", b""),
    ("count --sets sets --form counts", "counts", b"1 2 (0)\n2 (0)\n"),
    ("count --sets sets", "shop.dat", b"1 x\n"),
    ("count --sets sets --form csv-counts", "named counts", b"0,wine\n"),
    ("count --sets sets", "shop.dat", None),
    ("count --sets=sets --workers 4", "shop", fimi(pairs()[:50])),
    ("count --sets - sets", "counts", b"1 2\n1\n"),
)
ALL = (
    *(Question(words, INPUTS[name]) for words, name in QUESTIONS),
    *(Question(words, INPUTS[name], sets) for words, name, sets in COUNTED),
)


def compare(engine: Engine, questions: list[Question]) -> list[int]:
    """Asks both, and returns the statuses that they agree on."""
    with ThreadPoolExecutor() as pool:
        wanted = [*pool.map(without_page, questions)]
    for question, answer, run in zip(questions, engine.ask(questions), wanted):
        assert answer.run == run, question
    return [run.status for run in wanted]


def test_the_page_answers_as_the_program_does(engine: Engine) -> None:
    assert {*compare(engine, [*ALL])} == {0, 2, 3, 4, 5}


TOKENS = {
    "fimi": ("1", "2", "3", "4", "12", "0", "4294967295", "2x 1", "-"),
    "baskets": ("tea", "milk", "bread", '"a, b"', "é", "", '"', " x "),
    "single": ("r1", "r2", "r3", "tea", "milk", "bread", "é"),
    "counts": ("1 (9)", "2 (8)", "1 2 (7)", "(9)", "3 (2)", "1 3 (2)", "x"),
    "csv-counts": ("9,tea", "8,milk", "7,tea,milk", "9", "2,wine", "x"),
}
SEPARATORS = {"fimi": " ", "baskets": ",", "single": ","}


def random_input(source: random.Random, form: str) -> bytes:
    """Up to a dozen lines of a form, of which some are none of it, and of which some end in any bytes."""
    many = SEPARATORS.get(form)
    lines = []
    for _ in range(source.randint(0, 12)):
        count = source.randint(1, 5) if many else 1
        count = 2 if form == "single" and source.random() < 0.95 else count
        weights = [6] * 3 + [1] * (len(TOKENS[form]) - 3)
        lines.append((many or "").join(source.choices(TOKENS[form], weights, k=count)))
    end = source.choice(("\n", "\n", "\r\n"))
    text = "".join(f"{line}{end}" for line in lines).encode()
    return text + source.randbytes(3) if source.random() < 0.05 else text


def random_question(source: random.Random) -> Question:
    form = source.choice([*TOKENS])
    command = source.choice(
        ("items", "sets", "closed", "maximal", "rules", "count", "look")
    )
    least = source.choice(("1", "2", "3", "1/3", "20%", "1/1", "0", "x"))
    miner, workers = source.choice(MINERS), source.choice((1, 1, 4, 7))
    words, sets = [command], None
    if command == "count":
        words += ["--sets", "sets"]
        sets = random_input(source, source.choice((form, "counts", "csv-counts")))
    elif command != "look":
        words += ["--min", least, "--miner", miner]
    if command == "rules":
        words += ["--conf", source.choice(("0/1", "1/2", "70%", "1/1"))]
    if command != "look":
        words += ["--form", form, "--workers", str(workers)]
        words += ["--header"] * (source.random() < 0.2)
        words += ["--weight"] * (source.random() < 0.1)
    return Question(" ".join(words), random_input(source, form), sets)


def test_a_thousand_random_questions_are_answered_as_the_program_does(
    engine: Engine,
) -> None:
    source = random.Random(86)
    statuses = compare(engine, [random_question(source) for _ in range(1_000)])
    # Many are well, and many are not.
    assert all(statuses.count(status) > 50 for status in (0, 2, 3))
