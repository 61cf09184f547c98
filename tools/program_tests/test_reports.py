"""Reports and refusals of small inputs, worked out by hand."""

import itertools
import unittest

from .program import MINERS, run

NINE_BASKETS = b"1 2 5\n2 4\n2 3\n1 2 4\n1 3\n2 3\n1 3\n1 2 3 5\n1 2 3\n"
WEIGHTED = b"1 2 5\n2 4\n2x 2 3\n1x 1 2 4\n02x1 3\n1 2 3 5\n1 2 3\n"
ITEMS = "1 (6)|2 (7)|3 (6)|4 (2)|5 (2)|"
PAIRS = "1 2 (4)|1 3 (4)|1 5 (2)|2 3 (4)|2 4 (2)|2 5 (2)|"
SETS = f"{ITEMS}{PAIRS}1 2 3 (2)|1 2 5 (2)|"
CLOSED = "1 (6)|2 (7)|3 (6)|1 2 (4)|1 3 (4)|2 3 (4)|2 4 (2)|1 2 3 (2)|1 2 5 (2)|"
MAXIMAL = "2 4 (2)|1 2 3 (2)|1 2 5 (2)|"
RULES = (
    "5 => 1 (2) 1/1 3/2|4 => 2 (2) 1/1 9/7|5 => 2 (2) 1/1 9/7|2 5 => 1 (2) 1/1 3/2|"
    "1 5 => 2 (2) 1/1 9/7|5 => 1 2 (2) 1/1 9/4|"
)
MORE_RULES = (
    "1 => 2 (4) 2/3 6/7|3 => 1 (4) 2/3 1/1|1 => 3 (4) 2/3 1/1|5 => 1 (2) 1/1 3/2|"
    "3 => 2 (4) 2/3 6/7|4 => 2 (2) 1/1 9/7|5 => 2 (2) 1/1 9/7|2 5 => 1 (2) 1/1 3/2|"
    "1 5 => 2 (2) 1/1 9/7|5 => 1 2 (2) 1/1 9/4|"
)
SEVEN_SETS = "1 (1)|2 (1)|3 (1)|1 2 (1)|1 3 (1)|2 3 (1)|1 2 3 (1)|"
SEMI_SKIM = b'"semi, skim", bread,,\n"semi, skim", bread,,\n'
RECEIPTS = b"b,milk\na,bread\nb,bread\n"
FORTY = "".join(f"{place // 2}\n" for place in range(2, 82)).encode()

# Words, input, and the report with a bar for each line feed.
FIMI = (
    ("items --min 2", NINE_BASKETS, ITEMS),
    ("items --min 22%", NINE_BASKETS, ITEMS),
    ("items --min 2/9", NINE_BASKETS, ITEMS),
    ("items --min 23%", NINE_BASKETS, "1 (6)|2 (7)|3 (6)|"),
    ("items --min 1", b"", ""),
    ("items --min 1", b"\xef\xbb\xbf\r\n \n", ""),
    ("items --min 1", b"4294967295", "4294967295 (1)|"),
    ("items --min 1", b"10 2", "2 (1)|10 (1)|"),
    ("items --min 1", b"7 7 007\n", "7 (1)|"),
    ("items --min 1", b"9x \n1\n", "1 (1)|"),
    ("items --min 1", b"0" * 1_000_000 + b"1\n", "1 (1)|"),
    ("items --min 1", b"4294967295x 1\n" * 256 + b"255x 1\n", "1 (1099511627775)|"),
    (
        "items --min 1",
        b"1 2\n2x 2 3\n4294967295 1\n1 2\n",
        "1 (3)|2 (4)|3 (2)|4294967295 (1)|",
    ),
    ("sets --min 2", WEIGHTED, SETS),
    ("sets --min 22%", NINE_BASKETS, SETS),
    ("sets --min 2/9", NINE_BASKETS, SETS),
    ("sets --min 23%", NINE_BASKETS, "1 (6)|2 (7)|3 (6)|1 2 (4)|1 3 (4)|2 3 (4)|"),
    ("sets --min 1 --limit +7", b"1 2 3\n", SEVEN_SETS),
    ("sets --min 1 --limit 0007", b"1 2 3\n", SEVEN_SETS),
    ("sets --min 1", b"\xef\xbb\xbf\r\n \n", ""),
    ("sets --min 1", b"10 2", "2 (1)|10 (1)|2 10 (1)|"),
    ("sets --min 75%", b"3x 1 2\n1\n", "1 (4)|2 (3)|1 2 (3)|"),
    ("sets --min 4294967296", b"4294967295x 1\n1\n", "1 (4294967296)|"),
    ("sets --min 2", FORTY, "".join(f"{item} (2)|" for item in range(1, 41))),
    ("sets --min 1 --workers 64 --pieces 65536", b"7\n", "7 (1)|"),
    ("closed --min 2", WEIGHTED, CLOSED),
    ("maximal --min 2", WEIGHTED, MAXIMAL),
    ("rules --min 2 --conf 7/10", WEIGHTED, RULES),
    ("rules --min 2 --conf 2/3", NINE_BASKETS, MORE_RULES),
    ("closed --min 1", b"", ""),
    ("maximal --min 1", b"", ""),
    ("rules --min 1 --conf 1/1", b"\xef\xbb\xbf\r\n \n", ""),
    ("rules --min 1 --conf 0/1", b"1\n", ""),
    ("rules --min 1 --conf 0%", b"1 2\n1\n", "2 => 1 (1) 1/1 1/1|1 => 2 (1) 1/2 1/1|"),
    ("rules --min 1 --conf 1/1", b"1 2\n1\n", "2 => 1 (1) 1/1 1/1|"),
    (
        "rules --min 1 --conf 3/4",
        b"3x 1 2\n1\n",
        "2 => 1 (3) 1/1 1/1|1 => 2 (3) 3/4 1/1|",
    ),
)

# The same with a bar after each record, and no line feed or bar within one.
CSV = (
    ("items --form baskets --min 2", SEMI_SKIM, '2,"semi, skim"|2,bread|'),
    (
        "sets --form baskets --min 2",
        SEMI_SKIM,
        '2,"semi, skim"|2,bread|2,"semi, skim",bread|',
    ),
    ("closed --form baskets --min 2", SEMI_SKIM, '2,"semi, skim",bread|'),
    (
        "rules --form baskets --min 2 --conf 1/1",
        SEMI_SKIM,
        '2,1/1,1/1,1,bread,"semi, skim"|2,1/1,1/1,1,"semi, skim",bread|',
    ),
    ("items --form baskets --header --min 2", b"name\nx\nx\n", "2,x|"),
    ("items --form baskets --min 50%", b" x ,x\n\t\ny\n", "1,x|1,y|"),
    (
        "items --form baskets --weight --min 2",
        b"2,bread,milk,bread\n1,bread\n" * 2_000,
        "6000,bread|4000,milk|",
    ),
    (
        "sets --form baskets --weight --min 2",
        b"2,bread,milk\n1,bread\n",
        "3,bread|2,milk|2,bread,milk|",
    ),
    ("sets --form baskets --min 1", b"", ""),
    ("items --form single --min 1", RECEIPTS, "1,milk|2,bread|"),
    ("sets --form single --min 1", RECEIPTS, "1,milk|2,bread|1,milk,bread|"),
    ("items --form single --min 1", b" a,milk\na ,milk\n", "1,milk|"),
    (
        "maximal --form single --header --weight --min 1",
        b"receipt,product\nb,milk\n",
        "1,milk|",
    ),
    ("items --form baskets --sep semicolon --min 1", b"a;b\na\n", "2;a|1;b|"),
    ("items --form baskets --sep comma --min 1", b'a;b,"c"""\n', '1,a;b|1,"c"""|'),
    ("items --form baskets --sep tab --min 1", b"a\tb,c\n", "1\ta|1\tb,c|"),
    ("items --form baskets --sep ; --min 1", b"a;b\na\n", "2;a|1;b|"),
    ("items --form baskets --sep=| --min 1", b"a|b\na\n", "2|a|1|b|"),
)

# Words, input, status and what is told.
REFUSED = (
    ("items --min 1", b"4294967296", 3, "line 1: number above 4294967295"),
    ("items --min 1", b"99999999999x", 3, "line 1: number above 4294967295"),
    ("sets --min 1", b"18446744073709551617", 3, "line 1: number above 4294967295"),
    ("items --min 1", b"1 2\n3 -4\n", 3, "line 2: byte 0x2D is no digit or blank"),
    ("items --min 1", b"\xef\xbb1", 3, "line 1: byte 0xEF is no digit or blank"),
    ("items --min 1", b"1\x00", 3, "line 1: byte 0x00 is no digit or blank"),
    ("items --min 1", b"0x 1\n", 3, "line 1: byte 0x78 is no digit or blank"),
    ("items --min 1", b"1 3x\n", 3, "line 1: byte 0x78 is no digit or blank"),
    (
        "items --min 1",
        b"4294967295x 1\n" * 256 + b"256x 1\n",
        3,
        "total weight above 1099511627775",
    ),
    ("items --form baskets --min 1", b"a\n\xff\n", 3, "record 2: field is not UTF-8"),
    (
        "items --form baskets --weight --min 1",
        b"1000000000,a\n" * 1_100,
        3,
        "total weight above 1099511627775",
    ),
    (
        "sets --form single --min 1",
        RECEIPTS + b"a\n",
        3,
        "record 4: fewer than two fields",
    ),
    ("sets --form baskets --weight --min 2", b"0,bread\n", 3, "record 1: bad weight"),
    (
        "sets --form baskets --weight --min 2",
        b"4294967295,a\n" * 256 + b"256,a\n",
        3,
        "total weight above 1099511627775",
    ),
    ("sets --min 2 --limit 12", NINE_BASKETS, 5, "more than 12 frequent itemsets"),
    ("closed --min 2 --limit 12", NINE_BASKETS, 5, "more than 12 frequent itemsets"),
    ("maximal --min 2 --limit 12", NINE_BASKETS, 5, "more than 12 frequent itemsets"),
    (
        "rules --min 2 --conf 1/1 --limit 12",
        NINE_BASKETS,
        5,
        "more than 12 frequent itemsets",
    ),
    (
        "sets --min 1",
        f"{' '.join(map(str, range(33)))}\n".encode(),
        5,
        "more than 4294967295 frequent itemsets",
    ),
)

# Of the nine baskets: words, status, report.
SHARED = (
    ("items --min 2 --limit 1", 0, ITEMS),
    ("sets --min 2 --limit 13", 0, SETS),
    ("closed --min 2 --limit 13", 0, CLOSED),
    ("maximal --min 2 --limit 13", 0, MAXIMAL),
    ("rules --min 2 --conf 7/10 --limit 13", 0, RULES),
    ("sets --min 2 --limit 12", 5, ""),
)

# Words that make no plan, and a part of what is told.
MISTAKES: tuple[tuple[list[str], str], ...] = (
    *(
        (["sets", "--min", text], "basket: bad value for --min\n")
        for text in (
            "0",
            "3/2",
            "101%",
            "1/0",
            "",
            "1099511627776",
            "1/4294967296",
            "+1",
            " 1",
            "1.5",
        )
    ),
    *(
        (["rules", "--min", "2", "--conf", text], "basket: bad value for --conf\n")
        for text in (
            "7/6",
            "1",
            "0/0",
            "",
            "2/3 ",
            "x",
            "101%",
        )
    ),
    (["rules", "--conf", "7/6", "--min", "0"], "basket: bad value for --min\n"),
    (
        ["sets", "--min", "0", "--form", "csv"],
        "bad value for --form (fimi, baskets, single, counts, csv-counts)\n",
    ),
    (
        ["sets", "--min", "1", "--sep", ":"],
        "bad value for --sep (comma, semicolon, tab, pipe)\n",
    ),
    (
        ["sets", "--min", "1", "--miner", "fp"],
        "bad value for --miner (apriori, eclat, ",
    ),
    (["rules", "--min", "2"], "--conf <C>"),
    (["sets", "--conf", "1/2"], "'--conf'"),
    ([], "Usage: basket <COMMAND>\n"),
    (["things"], "'things'"),
    (["help", "things"], "'things'"),
    (["help", "sets", "extra"], "'help'"),
    (["help", "items", "--min", "2"], "'help'"),
    (["items"], "--min <M>"),
    (["items", "--min"], "--min <M>"),
    (["items", "--min", "1", "a file", "more"], "'more'"),
    (["sets", "--min", "1", "--header", "--header"], "--header"),
    (["sets", "--min", "1", "--limit", "0"], "'0'"),
    (["sets", "--min", "1", "--limit", "4294967296"], "'4294967296'"),
    (["sets", "--min", "1", "--limit", "x"], "'x'"),
    (["sets", "--min", "1", "--workers", "0"], "'0'"),
    (["sets", "--min", "1", "--workers", "65"], "'65'"),
    (["sets", "--min", "1", "--pieces", "0"], "'0'"),
    (["sets", "--min", "1", "--pieces", "65537"], "'65537'"),
)

HELP_OF_SETS = """\
Lists the sets of items that are in enough baskets, each with the number of those baskets,
its count.

Usage: basket sets --min M [OPTIONS] [FILE]

Arguments:
  [FILE]  The file of the input. Without it, or if it is -, the input is standard input

Options:
      --min M      The least count of a set: a number of baskets, as 20, or a share of all
                   baskets, as 5% or 1/200. It is required
"""


class Reports(unittest.TestCase):
    """What is written for words and an input."""

    def test_a_report_has_the_lines_that_the_definitions_ask_for(self) -> None:
        for words, given, wanted in FIMI + CSV:
            with self.subTest(words=words, given=given[:80]):
                ended = run(words.split(), given)
                report = ended.out.decode().replace("\n", "|")
                self.assertEqual((report, ended.said, ended.status), (wanted, "", 0))

    def test_names_with_a_bar_or_a_line_feed_are_quoted_where_they_need_it(
        self,
    ) -> None:
        rows = (
            (b'a|"b|c"\n', b'1|a\n1|"b|c"\n'),
            (b'"two\nlines"\n', b'1|"two\nlines"\n'),
        )
        for given, wanted in rows:
            with self.subTest(given=given):
                ended = run("items --form baskets --sep pipe --min 1".split(), given)
                self.assertEqual((ended.out, ended.said, ended.status), (wanted, "", 0))

    def test_the_report_is_the_same_by_each_miner_and_any_number_of_workers(
        self,
    ) -> None:
        for (words, status, wanted), miner, workers, pieces in itertools.product(
            SHARED, MINERS, ("1", "2", "7"), ("1", "2", "16")
        ):
            with self.subTest(words=words, miner=miner, workers=workers, pieces=pieces):
                more = ["--miner", miner, "--workers", workers, "--pieces", pieces]
                ended = run([*words.split(), *more], NINE_BASKETS)
                report = ended.out.decode().replace("\n", "|")
                self.assertEqual((report, ended.status), (wanted, status))

    def test_a_refused_input_is_told_and_nothing_is_written(self) -> None:
        for words, given, status, told in REFUSED:
            with self.subTest(words=words, given=given[:80]):
                ended = run(words.split(), given)
                said = f"basket: {told}\n"
                self.assertEqual(
                    (ended.out, ended.said, ended.status), (b"", said, status)
                )

    def test_words_that_make_no_plan_are_told(self) -> None:
        for words, part in MISTAKES:
            with self.subTest(words=words):
                ended = run(words)
                self.assertIn(part, ended.said)
                self.assertEqual((ended.out, ended.status), (b"", 2))

    def test_help_has_a_usage_and_examples_that_hold(self) -> None:
        self.assertTrue(run(["sets", "--help"]).out.decode().startswith(HELP_OF_SETS))
        for command in ("items", "sets", "closed", "maximal", "rules"):
            with self.subTest(command=command):
                example = (
                    run([command, "--help"])
                    .out.decode()
                    .partition("Example")[2]
                    .splitlines()
                )
                words = example[1].partition("| basket ")[2].split()
                given = example[1].partition("printf '")[2].partition("'")[0]
                report = (
                    run(words, given.replace("\\n", "\n").encode())
                    .out.decode()
                    .splitlines()
                )
                self.assertEqual(
                    [f"  {line}" for line in report], example[2 : 2 + len(report)]
                )
                self.assertTrue(report)
