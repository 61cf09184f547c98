"""A check of a report against its baskets, which shares no code with the program or with this package.

The frequent sets are found size by size: a set is counted if all its subsets with one item fewer are frequent. A
frequent set that was missed would have a smallest missed one among its subsets, which would have been counted.
"""

import random
import re
import time
from collections import Counter
from collections.abc import Iterator
from contextlib import suppress
from fractions import Fraction
from functools import reduce
from itertools import chain, combinations, groupby, islice
from math import ceil, inf
from operator import and_
from pathlib import Path
from typing import Any, NamedTuple

Itemset = tuple[int, ...]
Sides = tuple[Itemset, ...]  # what a line is about: a set, or both sides of a rule
Level = dict[Itemset, int]
Basket = tuple[set[int], int]
Given = bytes | str | Path
ASKS = ("items", "sets", "closed", "maximal", "rules")
FORMS = ("fimi", "baskets", "single")
SEPARATORS = dict(zip("comma semicolon tab pipe , ; \t |".split(" "), 2 * ",;\t|"))
_QUESTION = f"ask is one of {ASKS}, form of {FORMS}, sep of {[*SEPARATORS]}; rules alone have a confidence"
_MOST_NUMBER, _MOST_WEIGHT, _MOST_DRAWN = 2**32 - 1, 2**40 - 1, 1_000


class Question(NamedTuple):
    """The keywords of `certify`: what is asked of which baskets, with the values of the command line."""

    ask: str
    minimum: str
    confidence: str | None = None
    form: str = "fimi"
    sep: str = "comma"
    header: bool = False
    weighted: bool = False


class WrongReport(ValueError):
    """The report is not that of the question over the baskets."""


def _number(digits: str, most: int, least: int = 0) -> int:
    found = re.fullmatch("0*([0-9]{1,13})", digits)
    if not found or not least <= int(found[1]) <= most:
        raise ValueError(f"{digits[:20]!r} is no number from {least} to {most}")
    return int(found[1])


def _share(text: str, what: str) -> Fraction:
    found = re.fullmatch("([0-9]+)(?:%|/([0-9]+))", text)
    top, below = (int(found[1]), int(found[2] or 100)) if found else (1, 0)
    if not top <= below <= _MOST_NUMBER or below == 0:
        raise ValueError(f"{text!r} is no {what}: a share is written as 20% or 1/5")
    return Fraction(top, below)


def _lines(text: str) -> Iterator[Basket]:
    """The baskets of FIMI text, each with its weight."""
    for place, line in enumerate(text.split("\n"), 1):
        if not (found := re.fullmatch(r"[ \t\r]*(?:([0-9]+)x)?([0-9 \t\r]*)", line)):
            raise ValueError(f"line {place} is no basket")
        weight = _number(found[1] or "1", _MOST_NUMBER, 1)
        if items := {_number(word, _MOST_NUMBER) for word in found[2].split()}:
            yield items, weight


def _records(text: str, separator: str) -> Iterator[tuple[str, list[str]]]:
    """Each record of CSV as it is written, and its fields. A quote that is left open ends with the text."""
    stop = rf"{separator}\r\n"
    field = re.compile(rf'(?:"((?:[^"]+|"")*+)(?:"|\Z))?([^{stop}]*)([{stop}]?)')
    start, fields = 0, list[str]()
    for found in field.finditer(text):
        fields.append((found[1] or "").replace('""', '"') + found[2])
        if found[3] != separator:
            if (written := text[start : found.end()]).strip("\r\n"):
                yield written, fields
            start, fields = found.end(), []


def _baskets(text: str, question: Question) -> tuple[list[Basket], list[str]]:
    """The baskets, and from CSV the names of their numbers."""
    if question.form == "fimi":
        return [*_lines(text)], []
    numbers, baskets = dict[str, int](), dict[str, Basket]()
    records = enumerate(_records(text, SEPARATORS[question.sep]), 1)
    for place, (written, fields) in islice(records, question.header, None):
        if re.search("[\ud800-\udfff]", written):
            raise ValueError(f"record {place}: field is not UTF-8")
        names = [field.strip(" \t") for field in fields]
        key, weight = str(place), 1
        if question.form == "single":
            if len(names) < 2:
                raise ValueError(f"record {place}: fewer than two fields")
            key, names = names[0], names[1:2]
        elif question.weighted:
            weight = _number(names.pop(0), _MOST_NUMBER, 1)
        for name in filter(None, names):
            items, _ = baskets.setdefault(key, (set(), weight))
            items.add(numbers.setdefault(name, len(numbers)))
    return [*baskets.values()], [*numbers]


class Report:
    """The right report, by rows of bits: one row for each frequent item, with a bit for each basket."""

    def __init__(self, text: str, question: Question) -> None:
        baskets, self.names = _baskets(text, question)
        self.ask, minimum, confidence, form, sep, *_ = question
        self.separator, self.until = SEPARATORS[sep] if form != "fimi" else "", inf
        self.confidence = _share(confidence or "0/1", "confidence")
        self.total = _number(str(sum(weight for _, weight in baskets)), _MOST_WEIGHT)
        if minimum.isdigit():
            self.least = _number(minimum, _MOST_WEIGHT, 1)
        else:
            self.least = max(1, ceil(_share(minimum, "minimum") * self.total))
        one = Counter[int]()
        for items, weight in baskets:
            one.update(dict.fromkeys(items, weight))
        self.known: Level = {(i,): n for i, n in sorted(one.items()) if n >= self.least}
        # Row ~b has the baskets whose weight has bit b.
        self.bits = range(max((n for _, n in baskets), default=0).bit_length())
        wanted = {*chain.from_iterable(self.known), *(~bit for bit in self.bits)}
        rows = {row: bytearray(len(baskets) // 8 + 1) for row in wanted}
        for place, (items, weight) in enumerate(baskets):
            for row in wanted & items.union(~b for b in self.bits if weight >> b & 1):
                rows[row][place >> 3] |= 1 << (place & 7)
        self.rows = {row: int.from_bytes(held, "little") for row, held in rows.items()}

    def cover(self, items: Itemset) -> int:
        return reduce(and_, map(self.rows.__getitem__, items), -1)

    def weight(self, cover: int) -> int:
        if time.monotonic() > self.until:
            raise TimeoutError
        return sum((cover & self.rows[~b]).bit_count() << b for b in self.bits if cover)

    def count(self, items: Itemset) -> int:
        return self.known.get(items) or self.weight(self.cover(items))

    def candidates(self, level: Level) -> Iterator[tuple[Itemset, int]]:
        """The sets with one item more of which all subsets of the level's size are in it, and their counts."""
        for prefix, group in groupby(level, lambda items: items[:-1]):
            lasts, cover = [items[-1] for items in group], self.cover(prefix)
            for one, other in combinations(lasts, 2):
                items = (*prefix, one, other)
                if level.keys() >= {*combinations(items, len(items) - 1)}:
                    yield items, self.weight(cover & self.rows[one] & self.rows[other])

    def sides(self) -> Iterator[Sides]:
        """What each line is about, in order."""
        level, before = dict(self.known), dict[Itemset, int]()
        while before or level:
            if self.ask == "rules":
                yield from chain.from_iterable(map(self.rules, level))
            elif self.ask in ("closed", "maximal"):
                covered = {  # supersets with one item more decide
                    part
                    for items, count in level.items()
                    for part in combinations(items, len(items) - 1)
                    if self.ask == "maximal" or before.get(part) == count
                }
                yield from ((items,) for items in before if items not in covered)
            else:
                yield from ((items,) for items in level)
            longer = self.candidates(level) if self.ask != "items" else ()
            before, level = level, {i: n for i, n in longer if n >= self.least}
            self.known |= level

    def rules(self, union: Itemset) -> Iterator[Sides]:
        for right in chain(*(combinations(union, n) for n in range(1, len(union)))):
            left = tuple(item for item in union if item not in right)
            if Fraction(self.known[union], self.known[left]) >= self.confidence:
                yield left, right

    def text(self, sides: Sides) -> str:
        """A line with its figures, which are those of the baskets."""
        count = self.count(tuple(sorted(chain(*sides))))
        if count < self.least:
            raise ValueError(f"{count} is below the minimum")
        figures = [str(count)]
        if len(sides) == 2:
            confidence = Fraction(count, self.count(sides[0]))
            lift = confidence * self.total / self.count(sides[1])
            figures += [f"{n.numerator}/{n.denominator}" for n in (confidence, lift)]
        if not self.separator:
            shown = " => ".join(" ".join(map(str, side)) for side in sides)
            return " ".join([shown, f"({count})", *figures[1:]]) + "\n"
        figures += [str(len(sides[0]))] * (len(sides) - 1)
        names = [self.names[item].replace('"', '""') for item in chain(*sides)]
        is_odd = re.compile(rf'[{self.separator}"\r\n]').search
        quoted = [f'"{name}"' if is_odd(name) else name for name in names]
        return self.separator.join([*figures, *quoted]) + "\n"

    def read(self, line: str) -> Sides:
        """What a line is about."""
        is_rule, names = self.ask == "rules", self.names
        if not self.separator:
            parts = [part.split() for part in line.partition(" (")[0].split(" => ")]
        else:
            fields = next(_records(line, self.separator))[1]
            cut = 4 + int(fields[3]) if is_rule else len(fields)
            parts = [fields[1 + 3 * is_rule : cut], fields[cut:]][: 1 + is_rule]
        sides = [{names.index(i) if names else int(i) for i in part} for part in parts]
        if len(sides) != 1 + is_rule or not all(sides) or (is_rule and and_(*sides)):
            raise ValueError("neither a set nor a rule")
        return tuple(tuple(sorted(side)) for side in sides)

    def draw(self, rest: str) -> str:
        """Looks at the figures of lines that are drawn at random."""
        self.until = inf
        lines = [line for line, _ in _records(rest, self.separator or "\0")]
        drawn = random.sample(lines, min(len(lines), _MOST_DRAWN))
        for line in drawn:
            with suppress(ValueError, LookupError, ArithmeticError):
                if self.text(self.read(line)) == line:
                    continue
            raise WrongReport(f"{line!r} should not be there")
        return f"of {len(lines)} more, {len(drawn)} were drawn and have right figures"


def _text(given: Given) -> str:
    content = given if isinstance(given, bytes) else Path(given).read_bytes()
    return content.decode(errors="surrogateescape")


def certify(report: Given, baskets: Given, seconds: float = inf, **asked: Any) -> str:
    """Says what was checked: all lines, or after so many seconds some that are drawn. Else raises `WrongReport`."""
    shown, (ask, _, confidence, form, sep, *_) = _text(report), Question(**asked)
    is_known = ask in ASKS and form in FORMS and sep in SEPARATORS
    if not is_known or (ask == "rules") != bool(confidence):
        raise ValueError(_QUESTION)
    right = Report(_text(baskets).removeprefix("\ufeff"), Question(**asked))
    right.until, place, lines = time.monotonic() + seconds, 0, 0
    try:
        for line in map(right.text, right.sides()):
            if not shown.startswith(line, place):
                raise WrongReport(f"line {lines + 1} should be {line!r}")
            place, lines = place + len(line), lines + 1
    except TimeoutError:
        return f"{lines} lines are right, without a gap; {right.draw(shown[place:])}"
    if shown[place:]:
        raise WrongReport(f"there should be no more than {lines} lines")
    return f"all {lines} lines are right, without a gap"
