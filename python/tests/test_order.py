"""The order of rows is the same in each process, whatever the hashes of texts are there."""

import os
import subprocess
import sys
from pathlib import Path

FOLDER = str(Path(__file__).parents[1])
SCRIPT = """
import pandas as pd
from basket_miner import items, recommend, rules, tidy
from basket_miner.preprocessing import TransactionEncoder

def names(sets):
    return [*map(set.pop, map(set, sets))]

print(names(items([{"tea", "jam"}, frozenset(["milk", "bread"])], 1)["itemsets"]))
shop = pd.DataFrame({"r": [1, 1, 1, 2], "p": ["tea", "jam", "milk", "figs"]})
print(names(items(shop.groupby("r")["p"].agg(set), 1)["itemsets"]))
print(TransactionEncoder().fit([["1.5", "tea", 1.5]]).columns_)
learnt = rules([[0, 1.5, "1.5"]], 1, 1)
learnt = learnt[learnt["antecedents"] == {0}].tail(1)
print(recommend(learnt, [[0]])["item"].tolist())
print(tidy(learnt)["item"].tolist())
"""
PRINTED = [
    ["jam", "tea", "bread", "milk"],
    ["jam", "milk", "tea", "figs"],
    [1.5, "1.5", "tea"],
    [1.5, "1.5"],
    [0, 1.5, "1.5"],
]


def test_sets_of_texts_are_numbered_in_their_order() -> None:
    for seed in "1234":
        ended = subprocess.run(
            [sys.executable, "-c", SCRIPT],
            env={**os.environ, "PYTHONHASHSEED": seed, "PYTHONPATH": FOLDER},
            stdout=subprocess.PIPE,
            text=True,
            check=True,
        )
        assert ended.stdout.splitlines() == [*map(str, PRINTED)]
