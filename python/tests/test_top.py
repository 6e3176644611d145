"""nyo top, whole: numbers by hand from the pages of the examples and of the forecast."""

from __future__ import annotations

import json
import unittest

import nyolifuwe
from nyolifuwe import api

from .support import (
    CARRYING,
    GOOD,
    NAMED,
    RETURN,
    USAGE,
    Outcome,
    accepted_examples,
    as_text,
    example,
    nyo,
    read_back,
    trace,
)

CASE_I = """\
work 10, span 9, parallelism 1.11, 10 lines, 2 sites

row  site    calls  work  span  local  on span  of span  if halved   gain
  2  1:20:9      1     7     7      7        7    77.8%          6  33.3%
  0  root        1    10     9      2        2    22.2%          8  11.1%
  1  1:10:5      1     8     7      1        0     0.0%          9   0.0%

Split or speed up 1:20:9 first: its own cost halved takes 3 (33.3%) off the span; \
1:10:5 has 10.0% of the work and gains nothing.
"""

# examples/README.md has the rows, docs/FORECAST.md the spans with each row halved; percents are of 11435.
PROXY_HEAD = """\
work 36,140, span 11,435, parallelism 3.16, 85 lines, 8 sites

row  site           place    calls    work    span   local  on span  of span  if halved   gain
"""
PROXY_ROWS = """\
  6  encode:prores  2:44:13      4  15,000  15,000  15,000    5,100    44.6%      8,885  22.3%
  4  decode:h264    2:23:13      4  11,000  11,000  11,000    3,600    31.5%      9,635  15.7%
  5  scale          2:31:13      8   5,700   5,700   5,700      910     8.0%     10,980   4.0%
  1  demux          1:41:5       1     900     900     900      900     7.9%     10,985   3.9%
  7  mux            1:77:5       1     700     700     700      700     6.1%     11,085   3.1%
  0  proxy                       1  36,140  11,435     240      225     2.0%     11,324   1.0%
  2  audio          1:52:9       1   2,600   2,600   2,600        0     0.0%     11,435   0.0%
  3  segment        1:58:9       4  31,700  28,880       0        0     0.0%     11,435   0.0%
"""
PROXY_IDLE = "  8  thumbnail      1:83:5       0       0       0       0        0     0.0%     11,435   0.0%\n"
PROXY_ADVICE = (
    "\nSplit or speed up encode:prores (2:44:13) first: its own cost halved takes 2,550 (22.3%) off the span; "
    "audio (1:52:9) has 7.2% of the work and gains nothing.\n"
)


# Halved, site 2's 9 is 5 and the root's 2 is 1: both leave 11, by the costs 1 and 10. Sites stand at 1:1:1 and 1:2:1.
WITH_INSTRUCTIONS = """\
work 23, span 12, parallelism 1.92, 15 lines, 2 sites

row  site   calls  work  span  local  on span  of span  if halved  gain  instructions  instr on span  per cycle
  2  1:2:1      1     9     9      9        9    75.0%         11  8.3%            20             20       2.22
  0  root       1    23    12      4        3    25.0%         11  8.3%             4              4       1.00
  1  1:1:1      1    10    10     10        0     0.0%         12  0.0%             3              0       0.30

Split or speed up 1:2:1 first: its own cost halved takes 1 (8.3%) off the span; \
1:1:1 has 43.5% of the work and gains nothing.
"""


class Text(unittest.TestCase):
    """What people see."""

    def test_case_i(self) -> None:
        for words in (["examples/case-i.trace"], ["top", "examples/case-i.trace"]):
            self.assertEqual(nyo(*words), Outcome(GOOD, CASE_I, ""))

    def test_the_proxy_with_names(self) -> None:
        left_off = "not shown: 1 idle row without --all\n"
        self.assertEqual(
            nyo("examples/proxy.trace", *NAMED), Outcome(GOOD, PROXY_HEAD + PROXY_ROWS + left_off + PROXY_ADVICE, "")
        )

    def test_idle_rows_too(self) -> None:
        found = nyo("--all", "examples/proxy.trace", *NAMED)
        self.assertEqual(found, Outcome(GOOD, PROXY_HEAD + PROXY_ROWS + PROXY_IDLE + PROXY_ADVICE, ""))

    def test_so_many_rows(self) -> None:
        found = nyo("-n", "2", "examples/proxy.trace", *NAMED)
        left_off = "not shown: 6 rows beyond -n, 1 idle row without --all\n"
        first_two = "".join(PROXY_ROWS.splitlines(True)[:2])
        self.assertEqual(found, Outcome(GOOD, PROXY_HEAD + first_two + left_off + PROXY_ADVICE, ""))

    def test_instructions_beside_cycles(self) -> None:
        self.assertEqual(nyo("-", stdin=trace(CARRYING)), Outcome(GOOD, WITH_INSTRUCTIONS, ""))

    def test_a_trace_without_cost(self) -> None:
        text = (
            "work 0, span 0, parallelism -, 1 line, 0 sites\n\n"
            "row  site  calls  work  span  local  on span  of span  if halved  gain\n"
            "  0  root      1     0     0      0        0        -          0     -\n\n"
            "There is no cost in this trace.\n"
        )
        self.assertEqual(nyo("-", stdin=RETURN.encode()), Outcome(GOOD, text, ""))

    def test_where_no_row_gains_alone(self) -> None:
        # spawn 1 {4}, 4: whichever is halved, the other still weighs 4
        self.assertEqual(
            nyo("-", stdin=trace("spawn 1 {4}, 4")).out.splitlines()[-1],
            "No row shortens the span when it alone is halved; root has 50.0% of the work and gains nothing.",
        )

    def test_names_that_would_disturb_a_screen(self) -> None:
        found = nyo("examples/case-i.trace", "--names", "-", stdin=b"root\n\x1b[2Jsite 1\r\n\xff\n")
        self.assertIn(r"  1  \x1b[2Jsite 1\x0d  1:10:5 ", found.out)
        self.assertIn(r"  2  \xff               1:20:9 ", found.out)

    def test_the_words_are_looked_at(self) -> None:
        for words in (["-n", "0"], ["-n", "x"], ["--by", "gains"], ["--format", "xml"], ["--depth", "x"], ["--nothing"]):
            self.assertEqual(nyo("examples/case-i.trace", *words)[:2], (USAGE, ""), words)


class Order(unittest.TestCase):
    """The column that is asked for falls from row to row, and the gain among equals."""

    def test_by_each_column(self) -> None:
        for name in accepted_examples():
            for by in ("gain", "calls", "work", "span", "local", "on-span", "ilocal", "ion-span"):
                with self.subTest(name, by=by):
                    rows = json.loads(nyo("--by", by, "--all", "--format", "json", f"examples/{name}").out)["rows"]
                    keys = [(row[by.replace("-", "_")], row["gain"]) for row in rows]
                    self.assertEqual(keys, sorted(keys, reverse=True))

    def test_by_instructions(self) -> None:
        found = json.loads(nyo("-", "--by", "ion-span", "--format", "json", stdin=trace(CARRYING)).out)["rows"]
        self.assertEqual([(row["row"], row["ilocal"], row["ion_span"]) for row in found], [(2, 20, 20), (0, 4, 4), (1, 3, 0)])

    def test_by_row(self) -> None:
        rows = json.loads(nyo("--by", "row", "--all", "--format", "json", "examples/proxy.trace").out)["rows"]
        self.assertEqual([row["row"] for row in rows], list(range(9)))


class ForPrograms(unittest.TestCase):
    """JSON and CSV, read back."""

    def test_json_of_case_i(self) -> None:
        found = json.loads(nyo("--format", "json", "examples/case-i.trace").out)
        self.assertEqual(
            found["rows"][0],
            {
                "row": 2,
                "name": "1:20:9",
                "file": 1,
                "line": 20,
                "column": 9,
                "calls": 1,
                "work": 7,
                "span": 7,
                "local": 7,
                "on_span": 7,
                "ilocal": 0,
                "ion_span": 0,
                "on_span_percent": 77.778,
                "span_if_halved": 6,
                "gain": 3,
                "gain_percent": 33.333,
            },
        )
        del found["rows"]
        advice = CASE_I.splitlines()[-1]
        wanted = {"work": 10, "span": 9, "parallelism": 10 / 9, "lines": 10, "sites": 2, "advice": advice}
        self.assertEqual(found, wanted)

    def test_the_root_has_no_place(self) -> None:
        root = json.loads(nyo("--format", "json", "examples/case-i.trace").out)["rows"][1]
        self.assertEqual([root[name] for name in ("row", "name", "file", "line", "column")], [0, "root", None, None, None])

    def test_csv_has_what_json_has(self) -> None:
        for name in accepted_examples():
            with self.subTest(name):
                rows = json.loads(nyo("--format", "json", "--all", f"examples/{name}").out)["rows"]
                text = nyo("--format", "csv", "--all", f"examples/{name}").out
                self.assertEqual(read_back(text), as_text(rows))

    def test_every_gain_is_the_forecasts(self) -> None:
        for name in accepted_examples():
            with self.subTest(name):
                text, profile = example(name), nyolifuwe.profile(example(name))
                for row in json.loads(nyo("--format", "json", "--all", f"examples/{name}").out)["rows"]:
                    self.assertEqual(row["span_if_halved"], api.forecast_span(text, [(row["row"], 2)]))
                    self.assertEqual(row["gain"], profile.span - row["span_if_halved"])
                    self.assertLessEqual(2 * row["gain"], row["on_span"])
