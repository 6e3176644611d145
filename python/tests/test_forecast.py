"""nyo forecast, whole: case I by hand, the proxy by docs/FORECAST.md."""

from __future__ import annotations

import json
import unittest

from .support import GOOD, NAMED, REFUSED, USAGE, Outcome, as_text, nyo, read_back

# call 1 {spawn 2 {7}, 1}, 2 with 4 for 7: 4 and 2 are the span, 6 of a work of 7.
CHANGE = """\
span 9 -> 6 (33.3% less), work 10 -> 7, parallelism 1.11 -> 1.17

row  site    factor  local  local then  on span  on span then  of span then
  2  1:20:9       2      7           4        7             4         66.7%
  0  root                2           2        2             2         33.3%
  1  1:10:5              1           1        0             0          0.0%
"""

# Site 2's cost of 7 becomes 4, 2, 1 and 1; from 1 on the cost of 1 beside it weighs as much. The root's 2 becomes 1.
SWEEP = """\
work 10, span 9, parallelism 1.11, 10 lines, 2 sites

row  site    on span      at 2      at 4      at 8  at 1,000
  2  1:20:9        7  6  33.3%  4  55.6%  3  66.7%  3  66.7%
  0  root          2  8  11.1%  8  11.1%  8  11.1%  8  11.1%
  1  1:10:5        0  9   0.0%  9   0.0%  9   0.0%  9   0.0%
"""


class Change(unittest.TestCase):
    """Some rows faster at once."""

    def test_a_row_by_number_place_or_name(self) -> None:
        for word in ("2=2", "1:20:9=2"):
            self.assertEqual(nyo("forecast", "examples/case-i.trace", word), Outcome(GOOD, CHANGE, ""))
        found = nyo("forecast", "examples/proxy.trace", *NAMED, "encode:prores=2", "decode:h264=2")
        # encode and decode halved: 120 + 900 + 45 + 1800 + 910 + 2550 + 700 + 60 is the span, 7085
        self.assertEqual(found.out.splitlines()[0].split(", work")[0], "span 11,435 -> 7,085 (38.0% less)")

    def test_the_order_of_the_words_is_free(self) -> None:
        both = [nyo("forecast", "examples/proxy.trace", *words) for words in (["4=2", "6=2"], ["6=2", "4=2"])]
        self.assertEqual(*both)
        self.assertEqual(both[0].status, GOOD)

    def test_the_root(self) -> None:
        found = json.loads(nyo("forecast", "examples/case-i.trace", "root=2", "--format", "json").out)
        self.assertEqual((found["now"]["span"], found["then"]["span"], found["then"]["work"]), (9, 8, 9))

    def test_json_and_csv(self) -> None:
        words = ["forecast", "examples/case-i.trace", "2=2", "--format"]
        rows = json.loads(nyo(*words, "json").out)["rows"]
        self.assertEqual(
            rows[0],
            {
                "row": 2,
                "name": "1:20:9",
                "file": 1,
                "line": 20,
                "column": 9,
                "factor": 2,
                "local": 7,
                "local_then": 4,
                "on_span": 7,
                "on_span_then": 4,
                "on_span_then_percent": 66.667,
            },
        )
        self.assertEqual(read_back(nyo(*words, "csv").out), as_text(rows))

    def test_the_librarys_refusals(self) -> None:
        for words, number in (("2=2 2=3", 19), ("3=2", 19), ("2=1", 20), ("2=1001", 20)):
            found = nyo("forecast", "examples/case-i.trace", *words.split())
            self.assertEqual(found[:2], (REFUSED, ""))
            self.assertTrue(found.err.startswith(f"nyo: examples/case-i.trace: refusal {number}, line 0: of a forecast: "))

    def test_words_that_mean_nothing(self) -> None:
        for words in ("", "2", "2=", "=2", "2=x", "2=-1", "nowhere=2", "--sweep 2=2", "2=2 --x"):
            self.assertEqual(nyo("forecast", "examples/case-i.trace", *words.split())[:2], (USAGE, ""), words)

    def test_a_name_of_two_rows(self) -> None:
        found = nyo("forecast", "examples/case-i.trace", "a=2", "--names", "-", stdin=b"r\na\na\n")
        self.assertEqual(found, Outcome(USAGE, "", "nyo: a=2: a means rows 1, 2: give the number of one\n"))


class Sweep(unittest.TestCase):
    """Every site alone at 2, 4, 8 and 1,000."""

    def test_case_i(self) -> None:
        self.assertEqual(nyo("forecast", "--sweep", "examples/case-i.trace"), Outcome(GOOD, SWEEP, ""))

    def test_json_and_csv(self) -> None:
        words = ["forecast", "examples/proxy.trace", "--sweep", "--all", "--format"]
        rows = json.loads(nyo(*words, "json").out)["rows"]
        spans = {0: 11324, 1: 10985, 2: 11435, 3: 11435, 4: 9635, 5: 10980, 6: 8885, 7: 11085, 8: 11435}
        self.assertEqual({row["row"]: row["span_at_2"] for row in rows}, spans)
        for row in rows:
            falling = [row[f"span_at_{factor}"] for factor in (2, 4, 8, 1000)]
            self.assertEqual(falling, sorted(falling, reverse=True))
        self.assertEqual(read_back(nyo(*words, "csv").out), as_text(rows))
