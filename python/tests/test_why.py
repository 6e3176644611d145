"""Why a line is not on the span: case G at each of its lines by hand, the command whole, and the laws on every example."""

from __future__ import annotations

import json
import unittest
from typing import Any, Dict, List, Optional, Tuple

import nyolifuwe
from nyolifuwe import Case, Why, api
from nyolifuwe.errors import SENTENCES
from nyolifuwe.library import LINE_CHARS
from nyolifuwe.model import COST

from .support import (
    CARRYING,
    GOOD,
    NAMED,
    REFUSED,
    USAGE,
    Outcome,
    accepted_examples,
    as_text,
    example,
    nyo,
    read_back,
    trace,
    what_to_do,
)

# 1, spawn 1 {10}, 2, spawn 2 {8}, 1: the costs are lines 2, 4, 6, 8 and 10. Chosen is 1, 10; 1, 2, 8 weighs as much, and
# 1, 2, 1 weighs 7 less.
G = "examples/case-g.trace"
G_LINES = 12
CHOSEN, EQUAL, LIGHT = [2, 4], [2, 6, 8], [2, 6, 10]

TIED = """\
work 22, span 11, parallelism 2.00, 12 lines, 2 sites

Line 6, a cost of 2 in root, is tied with line 4: a chain through it weighs 11 too, without line 4 of the chosen chain.
Slower by any amount, the span grows by as much. Faster alone, nothing is gained: the chosen chain must become faster too.

The chain through it that weighs as much:
lines  costs  row  site    cost  of span  running
  2-6      2    0  root       3    27.3%    27.3%
    8      1    2  1:20:9     8    72.7%   100.0%
"""

SLACK = """\
work 22, span 11, parallelism 2.00, 12 lines, 2 sites

Line 10, a cost of 1 in root, has slack 7: the heaviest chain through it weighs 4, and the span is 11.
Slower by up to 7, nothing changes; by more, the span grows by the rest. Faster, nothing is gained.

The heaviest chain through it:
lines  costs  row  site  cost  of span  running
 2-10      3    0  root     4    36.4%    36.4%
"""

ON_CHAIN = """\
work 22, span 11, parallelism 2.00, 12 lines, 2 sites

Line 4, a cost of 10 in 1:10:5, is on the chosen chain.
Slower by any amount, the span grows by as much. Faster alone, nothing is gained: a chain without it weighs as much.

The chosen chain:
lines  costs  row  site    cost  of span  running
    2      1    0  root       1     9.1%     9.1%
    4      1    1  1:10:5    10    90.9%   100.0%
"""

NOT_COST = """\
work 22, span 11, parallelism 2.00, 12 lines, 2 sites

Line 3 is not a cost line but a spawn. A chain is made of cost lines: ask about one.
"""


def raised(text: bytes, line: int, by: int) -> bytes:
    """A trace with so much more on a cost line."""
    frame = api.line_at(text, line)
    written = nyolifuwe.write_line(frame._replace(value=frame.value + by))
    return text[: LINE_CHARS * line] + written + text[LINE_CHARS * (line + 1) :]


class TheAnswer(unittest.TestCase):
    """The four answers and their marks."""

    def test_case_g_at_each_line(self) -> None:
        answers: Dict[int, Tuple[Case, Optional[int], Optional[int], List[int]]] = {
            2: (Case.ON_CHAIN, None, None, CHOSEN),
            4: (Case.ON_CHAIN, None, None, CHOSEN),
            6: (Case.TIED, None, 4, EQUAL),
            8: (Case.TIED, None, 4, EQUAL),
            10: (Case.SLACK, 7, None, LIGHT),
        }
        for line in range(G_LINES):
            with self.subTest(line):
                case, slack, tied, lines = answers.get(line, (Case.NOT_COST, None, None, []))
                found = nyolifuwe.why(example("case-g.trace"), line, depth=4, sites=2)
                self.assertEqual(found, Why(case, slack, tied, bytes(at in lines for at in range(G_LINES))))
                self.assertEqual(found.lines, lines)

    def test_a_number_of_more_than_32_bits(self) -> None:
        for line in (-1, 2**32):
            self.assertRaisesRegex(ValueError, "32 bits", nyolifuwe.why, example("case-g.trace"), line)

    def test_the_chain_through_each_line_of_the_examples(self) -> None:
        for name in accepted_examples():
            text = example(name)
            profile = nyolifuwe.profile(text)
            chosen = {line for line, mark in enumerate(profile.marks or b"") if mark}
            for line in api.lines_of_kind(text, COST):
                with self.subTest(name, line=line):
                    found = nyolifuwe.why(text, line)
                    self.assertIn(line, found.lines)
                    self.assertEqual(found.case == Case.ON_CHAIN, line in chosen)
                    weight = sum(api.line_at(text, one).value for one in found.lines)
                    self.assertEqual(weight, profile.span - (found.slack or 0))
                    if found.case != Case.SLACK:
                        self.assertEqual(found.tied_line, min(chosen - set(found.lines), default=None))

    def test_what_a_slower_line_changes(self) -> None:
        for name in ("case-g.trace", "case-i.trace", "splitter.trace", "proxy.trace", "instructions.trace"):
            text = example(name)
            span = nyolifuwe.profile(text).span
            for line in api.lines_of_kind(text, COST):
                with self.subTest(name, line=line):
                    slack = nyolifuwe.why(text, line).slack or 0
                    grown = [nyolifuwe.profile(raised(text, line, slack + more)).span - span for more in (0, 1, 5)]
                    self.assertEqual(grown, [0, 1, 5])


class Text(unittest.TestCase):
    """What people see."""

    def test_case_g(self) -> None:
        for line, screen in ((6, TIED), (10, SLACK), (4, ON_CHAIN), (3, NOT_COST)):
            self.assertEqual(nyo("why", G, line), Outcome(GOOD, screen, ""))

    def test_what_is_gained_up_to_the_next_chain(self) -> None:
        # of H, 1, spawn 1 {10}, 2, spawn 2 {9}, 1, chosen is 1, 2, 9; 1, 10 weighs 1 less, 1, 2, 1 weighs 8 less
        gained = "Faster by up to 1, the span falls by as much, to 11 (8.3% less); there a chain without it weighs as much."
        least = "Faster it cannot be: a cost is at least 1."
        whole = "Faster, the span falls by as much, to 11 (8.3% less) where it costs 1."
        for line, says in ((8, gained), (6, whole), (2, least)):
            found = nyo("why", "-", line, stdin=trace("1, spawn 1 {10}, 2, spawn 2 {9}, 1")).out.splitlines()
            self.assertEqual(found[3], f"Slower by any amount, the span grows by as much. {says}")

    def test_lines_that_are_no_cost(self) -> None:
        # two sites, then lines 2 to 8
        words = "call 1 {5, carry 3}, spawn 2 {}, sync"
        kinds = {0: "a site line", 2: "a call", 4: "instructions of the cost on line 3", 5: "a return", 6: "a spawn", 8: "a sync"}
        for line, kind in kinds.items():
            said = f"Line {line} is not a cost line but {kind}. A chain is made of cost lines: ask about one."
            self.assertEqual(nyo("why", "-", line, stdin=trace(words)).out.splitlines()[2:], [said])

    def test_names_and_places(self) -> None:
        found = nyo("why", "examples/proxy.trace", 56, *NAMED).out
        said = "Line 56, a cost of 900 in scale (2:31:13), has slack 10: the heaviest chain through it weighs 11,425"
        self.assertIn(f"\n{said}, and the span is 11,435.\n", found)
        self.assertIn("\n   56      1    5  scale          2:31:13    900     7.9%    48.7%\n", found)

    def test_instructions_beside_cycles(self) -> None:
        found = nyo("why", "-", 5, stdin=trace(CARRYING)).out.splitlines()
        self.assertTrue(found[2].startswith("Line 5, a cost of 10 in 1:1:1, has slack 1: "))
        self.assertEqual(found[-1].split(), "5 1 1 1:1:1 10 83.3% 91.7% 3 0.30".split())

    def test_a_line_past_the_end(self) -> None:
        for line in (G_LINES, 2**32 - 1):
            said = f"nyo: {G}: refusal 23, line {line}: {SENTENCES[23]}\n{what_to_do(23)}"
            self.assertEqual(nyo("why", G, line), Outcome(REFUSED, "", said))

    def test_what_is_no_line_number(self) -> None:
        for word in ("", "x", "-1", "+1", "1.0", "4294967296"):
            found = nyo("why", G, word)
            said = f"nyo why: error: argument LINE: not a line number, 0 to 4294967295: {word}"
            self.assertEqual((found.status, found.out, found.err.splitlines()[-1]), (USAGE, "", said))


class ForPrograms(unittest.TestCase):
    """JSON and CSV, read back."""

    def fields(self, **own: Any) -> Dict[str, Any]:
        """The fields of an answer, none but these."""
        names: List[str] = "asked answer slack tied_line cost row name file line column through span_at_least_cost".split()
        return {**dict.fromkeys(names), **own}

    def test_json_and_csv(self) -> None:
        site = {"file": 1, "column": 9, "line": 20, "name": "1:20:9", "row": 2}
        first = {"file": 1, "column": 5, "line": 10, "name": "1:10:5", "row": 1}
        root = {"name": "root", "row": 0}
        answers = [
            self.fields(asked=3, answer="not_cost"),
            self.fields(asked=4, answer="on_chain", cost=10, through=11, span_at_least_cost=11, **first),
            self.fields(asked=8, answer="tied", tied_line=4, cost=8, through=11, **site),
            self.fields(asked=10, answer="slack", slack=7, cost=1, through=4, **root),
        ]
        totals = {"work": 22, "span": 11, "parallelism": 2.0, "lines": 12, "sites": 2}
        for answer in answers:
            found = json.loads(nyo("why", G, answer["asked"], "--format", "json").out)
            chain = found.pop("chain")
            self.assertEqual(found, {**totals, **answer})
            self.assertEqual([stretch["running"] for stretch in chain[-1:]], [answer["through"]] if chain else [])
            self.assertEqual(read_back(nyo("why", G, answer["asked"], "--format", "csv").out), as_text([answer]))

    def test_the_chain_is_that_of_nyo_chain(self) -> None:
        chosen = json.loads(nyo("chain", "examples/proxy.trace", "--format", "json").out)["chain"]
        found = json.loads(nyo("why", "examples/proxy.trace", 60, "--format", "json").out)
        self.assertEqual((found["chain"], found["span_at_least_cost"]), (chosen, 9915))
