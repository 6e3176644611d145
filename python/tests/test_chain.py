"""nyo chain, whole: case I and the splitter by hand; for every example the sums by row."""

from __future__ import annotations

import json
import unittest
from collections import Counter

import nyolifuwe
from nyolifuwe.commands.chain import Cost, marked

from .support import CARRYING, GOOD, RETURN, Outcome, accepted_examples, as_text, event, example, line, nyo, read_back, trace

CASE_I = """\
work 10, span 9, parallelism 1.11, 10 lines, 2 sites

lines  costs  row  site    cost  of span  running
    4      1    2  1:20:9     7    77.8%    77.8%
    8      1    0  root       2    22.2%   100.0%
"""

# call 1 {2, spawn 1 {1, call 2 {6}}, call 1 {1, call 2 {5}}, sync, 1}: the costs 2 (line 3) and 1 (line 5) stand in two
# invocations of site 1 and follow one another on the chain; then come 6 (line 7) and the last 1 (line 17).
SPLITTER = """\
work 16, span 10, parallelism 1.60, 20 lines, 2 sites

lines  costs  row  site   place  cost  of span  running
  3-5      2    1  split  {one}     3    30.0%    30.0%
    7      1    2  leaf   {two}     6    60.0%    90.0%
   17      1    1  split  {one}     1    10.0%   100.0%
"""


# The costs 1 and 2 of the root with 4 instructions, and the cost 9 with 20; sites stand at 1:1:1 and 1:2:1.
WITH_INSTRUCTIONS = """\
work 23, span 12, parallelism 1.92, 15 lines, 2 sites

lines  costs  row  site   cost  of span  running  instructions  per cycle
  2-8      2    0  root      3    25.0%    25.0%             4       1.33
   10      1    2  1:2:1     9    75.0%   100.0%            20       2.22
"""


class TheChain(unittest.TestCase):
    """The chosen chain, stretches merged."""

    def test_case_i(self) -> None:
        self.assertEqual(nyo("chain", "examples/case-i.trace"), Outcome(GOOD, CASE_I, ""))

    def test_instructions_beside_cycles(self) -> None:
        self.assertEqual(nyo("chain", "-", stdin=trace(CARRYING)), Outcome(GOOD, WITH_INSTRUCTIONS, ""))

    def test_stretches_of_one_site_are_merged(self) -> None:
        one, two = (":".join(map(str, row.place or ())) for row in nyolifuwe.profile(example("splitter.trace")).rows[1:])
        self.assertEqual(len(one), len(two))
        found = nyo("chain", "examples/splitter.trace", "--names", "-", stdin=b"r\nsplit\nleaf\n")
        wide = SPLITTER.format(one=one, two=two).replace("place  cost", f"{'place':{len(one)}}  cost")
        self.assertEqual(found, Outcome(GOOD, wide, ""))

    def test_site_lines_on_the_way(self) -> None:
        # 4, site 1, call 1 {2, site 2, spawn 2 {6}, 1}, 3: lines 0, 3, 6 and 10 are on the chain, in rows 0, 1, 2 and 0
        lines = [event("4"), line(1, 1, 1, 1, 1), event("call 1"), event("2"), line(1, 2, 2, 1, 1), event("spawn 2")]
        lines += [event("6"), RETURN, event("1"), RETURN, event("3"), RETURN]
        marks = bytes([1, 0, 0, 1, 0, 0, 1, 0, 0, 0, 1, 0])
        found = list(marked("".join(lines).encode(), marks))
        self.assertEqual(found, [Cost(0, 0, 4, 0), Cost(3, 1, 2, 0), Cost(6, 2, 6, 0), Cost(10, 0, 3, 0)])

    def test_a_trace_without_cost(self) -> None:
        empty = "work 0, span 0, parallelism -, 1 line, 0 sites\n"
        self.assertEqual(nyo("chain", "-", stdin=RETURN.encode()), Outcome(GOOD, empty, ""))
        self.assertEqual(nyo("chain", "-", "--format", "csv", stdin=RETURN.encode()), Outcome(GOOD, "", ""))

    def test_the_costs_of_each_row_add_up_to_its_columns_on_span(self) -> None:
        for name in accepted_examples():
            with self.subTest(name):
                profile = nyolifuwe.profile(example(name))
                chain = json.loads(nyo("chain", "--format", "json", f"examples/{name}").out)["chain"]
                sums: Counter[int] = Counter()
                instructions: Counter[int] = Counter()
                for stretch in chain:
                    sums[stretch["row"]] += stretch["cost"]
                    instructions[stretch["row"]] += stretch["instructions"]
                self.assertEqual([sums[row.row] for row in profile.rows], [row.on_span for row in profile.rows])
                self.assertEqual([instructions[row.row] for row in profile.rows], [row.ion_span for row in profile.rows])
                self.assertEqual([stretch["running"] for stretch in chain[-1:]], [profile.span][: len(chain)])
                self.assertEqual(sum(stretch["costs"] for stretch in chain), sum(profile.marks or b""))

    def test_json_and_csv(self) -> None:
        chain = json.loads(nyo("chain", "--format", "json", "examples/case-i.trace").out)["chain"]
        self.assertEqual(
            chain[0],
            {
                "first_line": 4,
                "last_line": 4,
                "costs": 1,
                "row": 2,
                "name": "1:20:9",
                "file": 1,
                "line": 20,
                "column": 9,
                "cost": 7,
                "cost_percent": 77.778,
                "running": 7,
                "running_percent": 77.778,
                "instructions": 0,
            },
        )
        text = nyo("chain", "--format", "csv", "examples/case-i.trace").out
        self.assertEqual(read_back(text), as_text(chain))
