"""The inputs and the commands that run.py here times."""

MINERS = ["apriori", "eclat", "eclat-diff", "eclat-bits", "fpgrowth"]

# A million baskets each, of the same patterns.
_MILLIONS = [f"quest.py 10 4 1000000 1000 2000 1 {seed}" for seed in range(1, 9)]

# What each input is, and its generators, whose baskets stand one after another.
INPUTS = {
    "1,000,000 of eight items": ["baskets.py 1000000 8 100000 1"],
    "100,000 of some ten items": ["quest.py 10 4 100000 1000 2000 1"],
    "100,000 of some forty items": ["quest.py 40 10 100000 1000 2000 2"],
    "60,000 of some four items": ["quest.py 4 2 60000 20000 20000 3"],
    "8,000 of 23 attributes": ["dense.py 8000 23 8 1"],
    "4,600 of a store's departments": ["shapes.py store 4600 1"],
    "1,550 texts": ["shapes.py news 1550 1"],
    "56,000 of packages": ["shapes.py packages 56000 1"],
    "990,000 visits to pages": ["shapes.py clicks 990000 1"],
    "1,000,000 of eight items, as CSV": ["baskets.py 1000000 8 100000 1 ,"],
    "1,000,000 of some ten items": _MILLIONS[:1],
    "4,000,000 of some ten items": _MILLIONS[:4],
    "8,000,000 of some ten items": _MILLIONS,
    "2,000,000 of eight items, as CSV": ["baskets.py 2000000 8 100000 1 ,"],
    "2,000,000 records of an id and an item": ["baskets.py 250000 8 100000 1 , single"],
}
MANY, SPARSE, FORTY, SHORT, DENSE, STORE, NEWS, PACKAGES, CLICKS, CSV = [*INPUTS][:10]
ONE, FOUR, EIGHT, RECORDS, SINGLE = [*INPUTS][10:]

# Which data the field knows that an input is made after: the one that a procedure makes, or of whose shape it is.
KNOWN = {
    "baskets.py": "none: items as often as each other",
    "quest.py 10 4 100000 ": "T10I4D100K of the IBM Quest generator",
    "quest.py 10 4 1000000 ": "the same with more baskets",
    "quest.py 40 10 ": "T40I10D100K of the IBM Quest generator",
    "quest.py 4 2 ": "T4I2D60K of the IBM Quest generator, with 20,000 items",
    "dense.py": "the shape of mushroom",
    "shapes.py store": "the shape of a store's departments",
    "shapes.py news": "the shape of texts as sets of words",
    "shapes.py packages": "the shape of packages that are installed together",
    "shapes.py clicks": "the shape of kosarak",
}
# Files of the FIMI repository, with the minimum at which `make bench DATA=..` asks, and that of any other file.
FIMI = {
    "accidents": "40%",
    "chess": "60%",
    "connect": "80%",
    "kosarak": "1/500",
    "mushroom": "10%",
    "pumsb": "80%",
    "pumsb_star": "40%",
    "retail": "1/1000",
    "T10I4D100K": "1/1000",
    "T40I10D100K": "1%",
    "webdocs": "20%",
}
OTHER = "1%"


def known_as(generator: str) -> str:
    """What the field knows that a generator's baskets are made after."""
    (found,) = (name for begin, name in KNOWN.items() if generator.startswith(begin))
    return found


def by_each_miner(command: str) -> list[str]:
    return [f"{command} --miner {miner}" for miner in MINERS]


# Commands over an input that write the same bytes.
TABLES = {
    "Items": [(MANY, ["items --min 1"])],
    "Itemsets": [
        (SPARSE, by_each_miner("sets --min 1/200")),
        (SPARSE, by_each_miner("sets --min 1/1000")),
        (SPARSE, by_each_miner("sets --min 1/10000")),
        (FORTY, by_each_miner("sets --min 1%")),
        (SHORT, by_each_miner("sets --min 1/5000")),
        (DENSE, by_each_miner("sets --min 10%")),
        (DENSE, by_each_miner("sets --min 5%")),
        (STORE, by_each_miner("sets --min 3%")),
        (NEWS, by_each_miner("sets --min 4%")),
        (PACKAGES, by_each_miner("sets --min 1/2000")),
        (CLICKS, by_each_miner("sets --min 1/1000")),
    ],
    "Closed and maximal itemsets, and rules": [
        (DENSE, ["closed --min 10% --miner eclat-bits"]),
        (DENSE, ["maximal --min 10% --miner eclat-bits"]),
        (DENSE, ["rules --min 20% --conf 1/10 --miner eclat-bits"]),
        (SPARSE, ["rules --min 1/1000 --conf 1/2 --miner eclat-bits"]),
    ],
}

SHARED = [
    (MANY, "items --min 1"),
    (CLICKS, "items --min 1"),
    (CSV, "items --form baskets --min 1"),
    (SPARSE, "sets --min 1/200 --miner eclat-bits"),
    (SPARSE, "sets --min 1/1000 --miner eclat-bits"),
    (SPARSE, "sets --min 1/1000 --miner apriori"),
    (FORTY, "sets --min 1% --miner eclat-bits"),
    (SHORT, "sets --min 1/5000 --miner eclat-bits"),
    (DENSE, "sets --min 10% --miner eclat-bits"),
    (DENSE, "sets --min 5% --miner eclat-bits"),
    (DENSE, "sets --min 5% --miner eclat-diff"),
    (DENSE, "sets --min 5% --miner apriori"),
    (STORE, "sets --min 3% --miner eclat-bits"),
    (NEWS, "sets --min 4% --miner eclat-bits"),
    (PACKAGES, "sets --min 1/2000 --miner eclat-bits"),
    (CLICKS, "sets --min 1/1000 --miner eclat-bits"),
    (CLICKS, "sets --min 1/1000 --miner fpgrowth"),
    (DENSE, "closed --min 10% --miner eclat-bits"),
    (DENSE, "maximal --min 10% --miner eclat-bits"),
    (DENSE, "rules --min 20% --conf 1/10 --miner eclat-bits"),
    (SPARSE, "rules --min 1/1000 --conf 1/2 --miner eclat-bits"),
]

# Commands over larger inputs, with the same bytes, and whether their instructions are counted,
# which takes some ten times as long as to run them.
LARGE = [
    (says, commands, says in (ONE, RECORDS, SINGLE))
    for commands, inputs in [
        (["items --min 1"], (ONE, FOUR, EIGHT)),
        (by_each_miner("sets --min 1/1000"), (ONE, FOUR, EIGHT)),
        (
            ["rules --min 1/1000 --conf 1/2 --miner eclat-bits"],
            (ONE, FOUR, EIGHT),
        ),
        (["items --form baskets --min 1"], (RECORDS,)),
        (["items --form single --min 1"], (SINGLE,)),
    ]
    for says in inputs
]

# Of which sets `count` has to write the supports: those that are frequent at a minimum.
GIVEN = [(SPARSE, "1/1000"), (SPARSE, "1/10000"), (DENSE, "10%")]

STAGES = [(SPARSE, "1/1000"), (FORTY, "1%"), (DENSE, "10%")]
