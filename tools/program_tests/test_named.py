"""Sets of names: counted over baskets, and with their counts as an input."""

import itertools
import unittest

from .inputs import lines_of, text_of
from .program import run
from .test_counted import NO_SUBSET, NO_TOTAL
from .test_parts import counted, ways_to_cut

# The nine baskets with a name for each number, which first appear in the order of 1, 2, 5, 4, 3.
NAMES = {"1": "bread", "2": "milk", "3": '"tea, black"', "4": "wine", "5": " figs "}
NINE = "125|24|23|124|13|23|13|1235|123|"

# Words, sets with their counts, and the report, with a bar for each line feed.
COUNTED = (
    ("items --min 2", "1,tea|2,bread,milk|5,bread|1,tea|", "2,tea|5,bread|"),
    ("sets --min 50%", "2|1,tea|2|1,tea|1,milk|", "2,tea|"),
    ("sets --min 2", "5,b|4,c|3,c,b|3,b,a|9,a|", "5,b|4,c|9,a|3,b,c|3,b,a|"),
    ("closed --min 2", "2,a|3,b|2,b,a|", "3,b|2,a,b|"),
    ("maximal --min 2", "2,a|3,b|2,b,a|", "2,a,b|"),
    (
        "rules --min 2 --conf 2/3",
        "4|2,a|3,b|2,b,a|",
        "2,2/3,4/3,1,b,a|2,1/1,4/3,1,a,b|",
    ),
    ("sets --min 1", '1,"semi, skim"|', '1,"semi, skim"|'),
    ("sets --min 1", " 1 , a ,,a|", "1,a|"),
    ("sets --min 0%", "3|0,a|1,b|", "1,b|"),
    ("sets --min 1 --sep tab", "1\ta\tb|", "1\ta\tb|"),
    ("sets --min 1 --header", "count,name|1,a|", "1,a|"),
    ("sets --min 1", "", ""),
)

# The same of an input that is refused, and what is told. Each ends with 3.
REFUSED = (
    ("sets --min 1", "2,a|x,a|", "record 2: bad count"),
    ("sets --min 1", "1099511627776,a|", "record 1: bad count"),
    ("sets --min 1", ",a|", "record 1: bad count"),
    ("sets --min 1", "-1,a|", "record 1: bad count"),
    ("sets --min 1", "1099511627775,a|1,a|", "total weight above 1099511627775"),
    ("sets --min 1/2", "1,a|", NO_TOTAL),
    ("closed --min 2", "3|2,a,b|2,a|", f"line or record 2: {NO_SUBSET}"),
    ("rules --min 2 --conf 1/2", "3|3,a,b|3,a|2,b|", f"line or record 2: {NO_SUBSET}"),
)

# The file of the sets, words of the input, the input, and what is written, with a bar for each line feed.
ASKED = (
    ("", "--form baskets", "bread,milk|milk|bread|", "3|"),
    (
        "9,milk|0,bread|0,tea,milk|7,milk|",
        "--form baskets",
        "bread,milk|milk|bread|",
        "3|2,milk|2,bread|0,milk,tea|",
    ),
    ("1,b|1,c,a|", "--form baskets", "a,b|x,a,c,b|", "2|2,b|1,c,a|"),
    (
        "0,bread|",
        "--form baskets --header --weight --sep semicolon",
        "w;x|3;bread|2;milk;bread|1;milk|",
        "6|5;bread|",
    ),
    (
        "0,milk|0,bread|",
        "--form single",
        "r1,bread|r1,milk|r2,milk|",
        "2|2,milk|1,bread|",
    ),
    (
        "0,milk|0,bread|",
        "--form csv-counts",
        "3|1,bread|2|1,bread|0,milk|",
        "5|0,milk|2,bread|",
    ),
    ("0|0|", "--form csv-counts", "3|1,bread|", "3|"),
)

# The same of what is refused, and what is told. Each ends with 3.
NOT_COUNTED = (
    ("bread|", "--form baskets", "bread|", "in the sets: record 1: bad count"),
    ("1,a|1 (2),b|", "--form single", "1,a|", "in the sets: record 2: bad count"),
    ("1,a|", "--form single", "1,a|x|", "record 2: fewer than two fields"),
    ("1,a|", "--form baskets --weight", "0,a|", "record 1: bad weight"),
    ("1,a|", "--form csv-counts", "1,a|", "the input has no count of set 0"),
    ("1,b|1,a|", "--form csv-counts", "2|1,b|", "the input has no count of set 2"),
)


def baskets_of(lines: str) -> bytes:
    """The baskets by names, a record for each line of digits."""
    records = (
        ",".join(NAMES[digit] for digit in line) for line in lines[:-1].split("|")
    )
    return "".join(f"{record}\n" for record in records).encode()


class Named(unittest.TestCase):
    """Sets of names."""

    def test_a_report_of_counts_has_the_sets_that_meet_the_minimum(self) -> None:
        for words, given, wanted in COUNTED:
            with self.subTest(words=words, given=given):
                ended = run([*words.split(), "--form", "csv-counts"], text_of(given))
                self.assertEqual(
                    (lines_of(ended.out), ended.said, ended.status), (wanted, "", 0)
                )

    def test_refused_counts_are_told_and_nothing_is_written(self) -> None:
        for words, given, told in REFUSED:
            with self.subTest(words=words, given=given):
                ended = run([*words.split(), "--form", "csv-counts"], text_of(given))
                said = f"basket: {told}\n"
                self.assertEqual((ended.out, ended.said, ended.status), (b"", said, 3))

    def test_sets_are_counted_by_names_in_the_order_of_their_file(self) -> None:
        for (asked, form, given, wanted), workers in itertools.product(ASKED, "14"):
            with self.subTest(asked=asked, form=form, workers=workers):
                separator = ";" if "semicolon" in form else ","
                sets = text_of(asked.replace(",", separator))
                more = [*form.split(), "--workers", workers]
                ended = counted(sets, text_of(given), *more)
                self.assertEqual((lines_of(ended.out), ended.said), (wanted, ""))

    def test_a_set_or_an_input_that_is_refused_is_told(self) -> None:
        for asked, form, given, told in NOT_COUNTED:
            with self.subTest(asked=asked, form=form):
                ended = counted(text_of(asked), text_of(given), *form.split())
                said = f"basket: {told}\n"
                self.assertEqual((ended.out, ended.said, ended.status), (b"", said, 3))

    def test_a_name_that_is_not_utf_8_is_refused_in_both_files(self) -> None:
        given = counted(b"1,a\n", b"1,\xff\n", "--form", "csv-counts")
        self.assertEqual(given.said, "basket: record 1: field is not UTF-8\n")
        asked = counted(b"1,\xff\n", b"a\n", "--form", "baskets")
        said = "basket: in the sets: record 1: field is not UTF-8\n"
        self.assertEqual((asked.said, asked.out, asked.status), (said, b"", 3))

    def test_parts_of_named_baskets_give_the_report_of_the_whole(self) -> None:
        whole = baskets_of(NINE)
        for words in ("items", "sets", "closed", "maximal", "rules --conf 2/3"):
            asked = [*words.split(), "--min", "2/9"]
            wanted = run([*asked, "--form", "baskets"], whole).out
            self.assertGreater(wanted.count(b"\n"), 2)
            # Each way of cutting that begins with another number of baskets, and each basket for itself.
            for parts in ways_to_cut(whole)[::17]:
                # The single names come first, in the order in which they first appear.
                sets = b"".join(
                    run([*find.split(), "--form", "baskets"], part).out
                    for find in ("items --min 0%", "sets --min 2/9")
                    for part in parts
                )
                counts = b"".join(
                    counted(sets, part, "--form", "baskets").out for part in parts
                )
                with self.subTest(words=words, parts=parts):
                    ended = run([*asked, "--form", "csv-counts"], counts)
                    self.assertEqual((ended.out, ended.said), (wanted, ""))
