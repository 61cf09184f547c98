"""The package from a shell: `python3 -m basket_miner explore shop.csv -o rules.html ..`, and `certify`."""

import argparse
import math
import sys
from pathlib import Path

from ._errors import BasketError
from ._explore import explore, file_of, page_of
from ._rules import rules
from .certify import ASKS, FORMS, SEPARATORS, Question, WrongReport, certify


def _parser() -> argparse.ArgumentParser:
    parser = argparse.ArgumentParser(prog="python3 -m basket_miner")
    commands = parser.add_subparsers(dest="command", required=True)
    told = "writes a page that shows the rules of a file of baskets in a browser"
    command = commands.add_parser("explore", help=told, description=told)
    command.add_argument("file", help="the baskets, as the program basket reads them")
    command.add_argument("--form", choices=["fimi", "baskets", "single"])
    command.add_argument("--sep", choices=[*SEPARATORS])
    command.add_argument("--header", action="store_true")
    command.add_argument(
        "--weight", action="store_true", help="a record begins with its weight"
    )
    command.add_argument(
        "--min", required=True, help="a count, as 20, or a share, as 1%%"
    )
    command.add_argument("--conf", required=True, help="the least confidence, as 1/2")
    command.add_argument("--miner")
    command.add_argument("--workers", type=int, default=1)
    command.add_argument("--limit", type=int)
    command.add_argument("--title", help="what stands above the rules")
    command.add_argument(
        "-o", "--output", required=True, help="the page's file; - is standard output"
    )
    told = "checks a report of the program against its baskets, by other code"
    ends = "It ends with 0 if all is checked, 1 if the report is wrong, 2 if question or file is, 3 if not all is checked."
    _add_question(
        commands.add_parser("certify", help=told, description=told, epilog=ends)
    )
    return parser


def _add_question(command: argparse.ArgumentParser) -> None:
    command.add_argument("report", type=Path, help="the file of the report")
    command.add_argument("baskets", type=Path, help="the file of the baskets")
    command.add_argument("ask", choices=ASKS)
    command.add_argument("--min", dest="minimum", required=True)
    command.add_argument("--conf", dest="confidence", help="required for rules")
    command.add_argument("--form", choices=FORMS, default="fimi")
    command.add_argument("--sep", choices=SEPARATORS, default="comma")
    command.add_argument("--header", action="store_true")
    command.add_argument("--weight", dest="weighted", action="store_true")
    told = (
        "for how long to count, before lines are only drawn; else until all is checked"
    )
    command.add_argument("--seconds", type=float, default=math.inf, help=told)
    for name in ("--miner", "--workers", "--pieces", "--limit"):
        command.add_argument(name, help="taken, and without effect")


def _certified(given: argparse.Namespace) -> int:
    """Runs `certify`. Returns the exit status."""
    asked = {name: getattr(given, name) for name in Question._fields}
    try:
        said = certify(given.report, given.baskets, given.seconds, **asked)
    except WrongReport as fault:
        print(fault, file=sys.stderr)
        return 1
    except OSError as fault:
        print(f"{fault.filename}: {fault.strerror}", file=sys.stderr)
        return 2
    except ValueError as fault:
        print(fault, file=sys.stderr)
        return 2
    print(said)
    return 0 if said.startswith("all ") else 3


def main(words: list[str] | None = None) -> int:
    """Runs a command line; without one, that of this process. Returns the exit status."""
    given = _parser().parse_args(words)
    if given.command == "certify":
        return _certified(given)
    is_file = given.output != "-"
    try:
        if is_file:
            # Before the rules are mined.
            file_of(given.output)
        found = rules(
            given.file,
            given.min,
            given.conf,
            form=given.form,
            sep=given.sep,
            header=given.header,
            weighted=given.weight,
            miner=given.miner,
            workers=given.workers,
            limit=given.limit,
        )
        source = f"{given.file}, minimum {given.min}, confidence {given.conf}"
        if is_file:
            explore(found, given.output, title=given.title, source=source)
        else:
            sys.stdout.write(page_of(found, given.title, source))
    except BasketError as fault:
        print(fault, *getattr(fault, "__notes__", ()), sep="\n", file=sys.stderr)
        return 1
    print(f"{len(found)} rules in {given.output}", file=sys.stderr)
    return 0


if __name__ == "__main__":
    sys.exit(main())
