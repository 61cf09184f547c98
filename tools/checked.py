"""What the checker says of crates, line by line, and what of it is told."""

import re

import kept

# What the checker says of a crate begins and ends so. A crate that an earlier run proved has no more than its end.
BEGINS = re.compile(r"== ")
PROVED = re.compile(r"rt: (\w+)(: its tests are)?( is kept: .*| proved)$")
FAILED = re.compile(r"rt: (.+) NOT PROVED")
# Lines of a crate that failed on what is well in it.
WELL = re.compile(r"\w+ \S+: (proved$|modules loaded)|by-macro: ")
# The C functions of a library, and atomic words, on whose contracts a proof rests.
AXIOMS = re.compile(r"axioms (\w+): .*\((\d+) of the \d+ declared\)$")
# The verdict on a crate, whose words say on what else it rests.
VERDICT = re.compile(r"logic=proved( \S+)+$")
# Words of it that differ from one text of the crate to the next.
COUNTS = ("functions", "tests", "axioms")
# Its last line.
COUNTED = re.compile(r"(\d+) passed, (\d+) failed\n")


class Report:
    """What the checker says, of which that on crates that failed, and on none, is kept."""

    def __init__(self) -> None:
        self.faults: list[str] = []
        self.loose: list[str] = []
        self.proved: list[str] = []
        self.kept: list[str] = []
        # Of the kept ones, those that came in a file.
        self.elsewhere: list[str] = []
        # For each crate how many axioms of each library it rests on.
        self.axioms: dict[str, dict[str, int]] = {}
        # The words of its verdict, without its counts.
        self.verdicts: dict[str, list[str]] = {}
        # The lines of the checker that are told of a proof.
        self.told: dict[str, list[str]] = {}
        self.passed, self.failed = 0, 1
        self._of_crate: list[str] | None = None

    def take(self, line: str) -> str | None:
        """Takes a line. The crate that it says is proved, if it does."""
        if BEGINS.match(line):
            self._of_crate = [line]
        elif found := PROVED.match(line):
            self._of_crate = None
            if not found[2]:
                is_new = found[3] == " proved"
                (self.proved if is_new else self.kept).append(found[1])
                return found[1]
        elif FAILED.match(line):
            self.faults += [*(self._of_crate or []), line]
            self._of_crate = None
        elif self._of_crate is None:
            self.loose.append(line)
            if counted := COUNTED.fullmatch(line):
                self.passed, self.failed = int(counted[1]), int(counted[2])
        elif found := AXIOMS.match(line):
            self.told.setdefault(self._crate(), []).append(line)
            self.axioms.setdefault(self._crate(), {})[found[1]] = int(found[2])
        elif VERDICT.match(line):
            self.told.setdefault(self._crate(), []).append(line)
            words = line.split()[1:]
            self.verdicts[self._crate()] = [
                word for word in words if word.partition("=")[0] not in COUNTS
            ]
        elif not WELL.match(line):
            self._of_crate.append(line)
        return None

    def _crate(self) -> str:
        """The crate that the checker speaks of."""
        return (self._of_crate or [""])[0].removeprefix("== ").strip()

    def text(self) -> str:
        """What the checker said of what failed, and its last lines."""
        return "".join([*self.faults, *(self._of_crate or []), *self.loose])

    def unlisted(self, crate: str, told: str) -> str:
        """What a text, which has numbers as "31 functions of `libc`", should say of a crate's axioms and doesn't."""
        numbers = re.findall(r"(\d+) (?:functions )?of `(\w+)`", told)
        found = self.axioms.get(crate, {}).items()
        right = [(str(number), library) for library, number in found]
        lost = [f"{number} of {library}" for number, library in {*right} - {*numbers}]
        return ", ".join(sorted(lost))

    def untold(self, crate: str, page: str) -> str:
        """What a page should say of a crate's axioms, or of the words of its verdict, and doesn't."""
        words = {*re.findall(r"[\w-]+=[^\s`]+", page)}
        lost = sorted({*self.verdicts.get(crate, [])} - words)
        missing = ", ".join(filter(None, [self.unlisted(crate, page), *lost]))
        return f"{crate} rests on {missing}" if missing else ""

    def share(self) -> str:
        whole = len(self.proved) + len(self.kept)
        said = f"{len(self.proved)} of {whole} crates proved now, {len(self.kept)} kept from earlier runs"
        elsewhere = f", {len(self.elsewhere)} of these proved elsewhere"
        return said + elsewhere * bool(self.elsewhere)

    def how(self, crate: str, begun: float, store: kept.Store) -> str:
        """How a crate that was told as proved came to be so, in a run that began then."""
        if crate in self.proved:
            store.note(crate, self.told.get(crate, []))
            return "proved"
        entry = store.entries().get(crate)
        if entry and entry.is_from_elsewhere():
            self.elsewhere.append(crate)
            return "kept, proved elsewhere"
        # The run beside this one may have proved it just now.
        is_new = entry and (entry.proof / "made.json").stat().st_mtime >= begun
        return "proved" if is_new else "kept"
