#!/usr/bin/env python3
"""Writes a made-up month of a small grocer's two tills, as Excel in Germany saves it: examples/month.py > month.csv

With the word `clean` it leaves out bags, deposits and returned goods, and gives each product one name.
No shop and no customer stands behind it. It has what real receipts have and what misleads: receipt numbers that begin
anew each day at each till, bags, deposits, returned goods, quantities, and one product whose name changed in the month.
"""

import random
import sys
from collections.abc import Iterator
from datetime import date, timedelta

FIRST, DAYS, SUNDAY = date(2026, 3, 2), 28, 6
# Each product with its price in cents, and the share of all purchases that have it.
PRODUCTS = {
    "Milk 1 l": (119, 0.27),
    "Wholemeal bread": (329, 0.17),
    "Rolls": (45, 0.20),
    "Butter 250 g": (229, 0.13),
    "Eggs (10)": (299, 0.12),
    "Bananas": (189, 0.15),
    "Apples 1 kg": (249, 0.13),
    "Tomatoes": (279, 0.11),
    "Cucumber": (99, 0.10),
    "Yoghurt": (79, 0.14),
    "Gouda": (259, 0.10),
    "Ham, sliced": (219, 0.08),
    "Coffee 500 g": (649, 0.07),
    "Black tea": (279, 0.03),
    "Sugar, brown": (199, 0.04),
    "Flour 1 kg": (99, 0.06),
    "Baking powder": (49, 0.03),
    "Spaghetti": (129, 0.09),
    "Tomato sauce": (219, 0.06),
    "Parmesan": (389, 0.04),
    "Red wine 0,75 l": (699, 0.05),
    "Beer (6)": (549, 0.06),
    "Crisps": (189, 0.07),
    "Chocolate": (129, 0.12),
    "Mineral water (6)": (299, 0.10),
    "Oat milk 1 l": (229, 0.08),
    "Muesli": (349, 0.06),
    "Washing-up liquid": (149, 0.03),
    "Kitchen roll": (299, 0.04),
    "Cat food": (99, 0.04),
}
# Who has the first also takes the second, this often.
TOGETHER = (
    ("Spaghetti", "Tomato sauce", 0.45),
    ("Tomato sauce", "Parmesan", 0.30),
    ("Spaghetti", "Red wine 0,75 l", 0.15),
    ("Flour 1 kg", "Baking powder", 0.30),
    ("Flour 1 kg", "Eggs (10)", 0.40),
    ("Black tea", "Sugar, brown", 0.35),
    ("Beer (6)", "Crisps", 0.40),
    ("Wholemeal bread", "Butter 250 g", 0.30),
    ("Rolls", "Ham, sliced", 0.20),
    ("Muesli", "Oat milk 1 l", 0.40),
    ("Tomatoes", "Cucumber", 0.35),
)
BAG, DEPOSIT = ("Paper bag", 20), ("Deposit 6 bottles", 150)
# The supplier's new name from the third week on.
OAT, NEW_OAT = "Oat milk 1 l", "OAT DRINK 1L"
Line = tuple[str, int, int]


def bought(source: random.Random, day: date) -> list[str]:
    """The products of a purchase: a quick one or the week's."""
    is_large = source.random() < (0.45 if day.weekday() >= 4 else 0.25)
    factor = 1.9 if is_large else 0.55
    found = [
        name
        for name, (_, share) in PRODUCTS.items()
        if source.random() < share * factor
    ]
    for one, other, often in TOGETHER:
        if one in found and other not in found and source.random() < often:
            found.append(other)
    return found or [source.choice(["Rolls", "Milk 1 l", "Chocolate"])]


def lines(source: random.Random, day: date) -> Iterator[Line]:
    """The lines of a receipt: name, quantity, and the price of one."""
    found = bought(source, day)
    for name in found:
        price = PRODUCTS[name][0]
        has_new_name = name == OAT and day >= FIRST + timedelta(days=14)
        several = 6 if name == "Rolls" else 3
        quantity = source.randint(1, several) if source.random() < 0.3 else 1
        yield NEW_OAT if has_new_name else name, quantity, price
        if name in ("Beer (6)", "Mineral water (6)"):
            yield DEPOSIT[0], 1, DEPOSIT[1]
    if source.random() < 0.06 * len(found):
        yield BAG[0], 1, BAG[1]
    if source.random() < 0.01:
        name = source.choice([*PRODUCTS])
        yield name, -1, PRODUCTS[name][0]


def cleaned(line: Line) -> Line | None:
    """A line as the guide has it cleaned in Excel, if it stays."""
    name, quantity, price = line
    if quantity < 0 or name in (BAG[0], DEPOSIT[0]):
        return None
    return OAT if name == NEW_OAT else name, quantity, price


def main(is_clean: bool) -> None:
    source = random.Random(2026)
    print("Date;Till;Receipt;Article;Quantity;Price", end="\r\n")
    for number in range(DAYS):
        day = FIRST + timedelta(days=number)
        if day.weekday() == SUNDAY:
            continue
        for till in (1, 2):
            for receipt in range(1, source.randint(45, 70) + 30 * (day.weekday() == 5)):
                found = list(lines(source, day))
                if is_clean:
                    found = [it for line in found if (it := cleaned(line))]
                for name, quantity, price in found:
                    cents = f"{price // 100},{price % 100:02}"
                    cells = (f"{day:%d.%m.%Y}", till, receipt, name, quantity, cents)
                    print(*cells, sep=";", end="\r\n")


if __name__ == "__main__":
    main("clean" in sys.argv[1:])
