"""Traces of asyncs and finishes: twelve by hand, every command that takes them, the others' sentence, and the hints."""

from __future__ import annotations

import json
import os
import sqlite3
import tempfile
import unittest
from collections import Counter
from contextlib import closing
from pathlib import Path
from typing import Dict, List, Tuple
from unittest import mock

import nyolifuwe
from nyolifuwe import Frame, LibraryMissing, Refused, library
from nyolifuwe.cli import NAMES
from nyolifuwe.errors import SENTENCES
from nyolifuwe.model import FINISHES

from .support import (
    FAILED,
    GOOD,
    REFUSED,
    RETURN,
    USAGE,
    Outcome,
    accepted_examples,
    as_text,
    event,
    example,
    line,
    nyo,
    read_back,
    sites,
    trace,
    what_to_do,
    with_finishes,
)
from .test_page import Read

# Twelve traces: events before the root's return, work, span, on span of rows 0, 1 and 2.
TWELVE: Dict[str, Tuple[str, int, int, List[int]]] = {
    "A": ("3, async 1 {4}, 5", 12, 8, [8, 0, 0]),
    "B": ("async 1 {4}, async 2 {4}, 1", 9, 4, [0, 4, 0]),
    "C": ("call 1 {async 2 {7}, 1}, 2", 10, 7, [0, 0, 7]),
    "D": ("finish {call 1 {async 2 {7}, 1}}, 2", 10, 9, [2, 0, 7]),
    "E": ("async 1 {async 2 {6}, 1}, 2", 9, 6, [0, 0, 6]),
    "F": ("async 1 {finish {async 2 {3}, 1}, 4}, 5", 13, 7, [0, 4, 3]),
    "G": ("finish {}, 2", 2, 2, [2, 0, 0]),
    "H": ("1, finish {async 1 {5}, 3}", 9, 6, [1, 5, 0]),
    "I": ("async 1 {4}, 4", 8, 4, [0, 4, 0]),
    "J": ("call 1 {1, finish {call 1 {2}}}", 3, 3, [0, 3, 0]),
    "K": ("finish {2, carry 9}, 1", 3, 3, [3, 0, 0]),
}
DEEP = 63 * "finish {" + "1" + 63 * "}"

# Calls, work, span, local, on span and the instructions of both, of rows 0, 1 and 2.
ROWS = {
    "C": [(1, 10, 7, 2, 0, 0, 0), (1, 8, 7, 1, 0, 0, 0), (1, 7, 7, 7, 7, 0, 0)],
    "D": [(1, 10, 9, 2, 2, 0, 0), (1, 8, 7, 1, 0, 0, 0), (1, 7, 7, 7, 7, 0, 0)],
    "F": [(1, 13, 7, 5, 0, 0, 0), (1, 8, 7, 5, 4, 0, 0), (1, 3, 3, 3, 3, 0, 0)],
    "J": [(1, 3, 3, 0, 0, 0, 0), (2, 3, 3, 3, 3, 0, 0), (0, 0, 0, 0, 0, 0, 0)],
    "K": [(1, 3, 3, 3, 3, 9, 9), (0, 0, 0, 0, 0, 0, 0), (0, 0, 0, 0, 0, 0, 0)],
}

# The lines on the chosen chain, behind the two site lines.
CHAINS = {"C": [4], "D": [5, 10], "F": [5, 9], "J": [3, 6], "K": [3, 6]}

NO_GAINS = "Gains are left out: a forecast takes traces of spawns and syncs alone, and none of asyncs and finishes.\n"

# Sites stand at 1:1:1 and 1:2:1.
TOP_SCREENS = {
    "C": """\
work 10, span 7, parallelism 1.43, 10 lines, 2 sites

row  site   calls  work  span  local  on span  of span
  2  1:2:1      1     7     7      7        7   100.0%
  0  root       1    10     7      2        0     0.0%
  1  1:1:1      1     8     7      1        0     0.0%
""",
    "D": """\
work 10, span 9, parallelism 1.11, 12 lines, 2 sites

row  site   calls  work  span  local  on span  of span
  2  1:2:1      1     7     7      7        7    77.8%
  0  root       1    10     9      2        2    22.2%
  1  1:1:1      1     8     7      1        0     0.0%
""",
    "F": """\
work 13, span 7, parallelism 1.86, 13 lines, 2 sites

row  site   calls  work  span  local  on span  of span
  1  1:1:1      1     8     7      5        4    57.1%
  2  1:2:1      1     3     3      3        3    42.9%
  0  root       1    13     7      5        0     0.0%
""",
    "J": """\
work 3, span 3, parallelism 1.00, 11 lines, 2 sites

row  site   calls  work  span  local  on span  of span
  1  1:1:1      2     3     3      3        3   100.0%
  0  root       1     3     3      0        0     0.0%
not shown: 1 idle row without --all
""",
    "K": """\
work 3, span 3, parallelism 1.00, 8 lines, 2 sites

row  site  calls  work  span  local  on span  of span  instructions  instr on span  per cycle
  0  root      1     3     3      3        3   100.0%             9              9       3.00
not shown: 2 idle rows without --all
""",
}

CHAIN_SCREENS = {
    "C": """\
work 10, span 7, parallelism 1.43, 10 lines, 2 sites

lines  costs  row  site   cost  of span  running
    4      1    2  1:2:1     7   100.0%   100.0%
""",
    "D": """\
work 10, span 9, parallelism 1.11, 12 lines, 2 sites

lines  costs  row  site   cost  of span  running
    5      1    2  1:2:1     7    77.8%    77.8%
   10      1    0  root      2    22.2%   100.0%
""",
    "F": """\
work 13, span 7, parallelism 1.86, 13 lines, 2 sites

lines  costs  row  site   cost  of span  running
    5      1    2  1:2:1     3    42.9%    42.9%
    9      1    1  1:1:1     4    57.1%   100.0%
""",
    "J": """\
work 3, span 3, parallelism 1.00, 11 lines, 2 sites

lines  costs  row  site   cost  of span  running
  3-6      2    1  1:1:1     3   100.0%   100.0%
""",
    "K": """\
work 3, span 3, parallelism 1.00, 8 lines, 2 sites

lines  costs  row  site  cost  of span  running  instructions  per cycle
  3-6      2    0  root     3   100.0%   100.0%             9       3.00
""",
}

ALONE = "takes traces of spawns and syncs alone, and none of asyncs and finishes"

# The commands that take one family alone, with words that run.
SPAWNS_ALONE = {
    "forecast": "examples/case-i.trace 2=2",
    "why": "examples/case-i.trace 6",
    "compact": "examples/case-i.trace",
    "folded": "examples/case-i.trace",
    "csv": "examples/case-i.trace",
}

TRY_FINISH = "it looks like a trace of asyncs and finishes: try --finish"
LEAVE_OUT = "it looks like a trace of spawns and syncs: leave --finish out"


def case(letter: str) -> bytes:
    """The trace of a letter."""
    return trace(TWELVE[letter][0])


def refused(text: bytes, family: str) -> Tuple[int, int]:
    """The number and the line of a trace's refusal."""
    try:
        nyolifuwe.profile(text, family=family)
    except Refused as found:
        return found.number, found.line
    raise AssertionError("accepted")


@with_finishes
class TheProfile(unittest.TestCase):
    """Totals, rows and marks."""

    def test_the_twelve(self) -> None:
        for letter, (words, work, span, on_span) in TWELVE.items():
            for engine in library.ENGINES:
                with self.subTest(letter, engine=engine):
                    found = nyolifuwe.profile(trace(words), depth=4, sites=2, engine=engine, family="finish")
                    self.assertEqual((found.work, found.span, [row.on_span for row in found.rows]), (work, span, on_span))

    def test_finishes_count_towards_the_depth(self) -> None:
        for engine in library.ENGINES:
            found = nyolifuwe.profile(trace(DEEP), engine=engine, family="finish")
            self.assertEqual((found.work, found.span, [row.on_span for row in found.rows]), (1, 1, [1, 0, 0]))
            with self.assertRaises(Refused) as caught:
                nyolifuwe.profile(trace(DEEP), depth=63, engine=engine, family="finish")
            self.assertEqual((caught.exception.number, caught.exception.line), (12, 64))

    def test_every_column_and_the_marks(self) -> None:
        for letter, rows in ROWS.items():
            with self.subTest(letter):
                found = nyolifuwe.profile(case(letter), family="finish")
                self.assertEqual([row[2:] for row in found.rows], rows)
                self.assertEqual([line for line, mark in enumerate(found.marks or b"") if mark], CHAINS[letter])
                self.assertEqual(nyolifuwe.profile(case(letter), engine="tables", family="finish").rows, found.rows)

    def test_the_examples(self) -> None:
        for name in accepted_examples(FINISHES):
            with self.subTest(name):
                marks, tables = (
                    nyolifuwe.profile(example(name), engine=engine, family="finish") for engine in library.ENGINES
                )
                self.assertEqual((tables.rows, tables.marks), (marks.rows, None))
                self.assertEqual(sum(row.local for row in marks.rows), marks.work)
                self.assertEqual(sum(row.on_span for row in marks.rows), marks.span)
                chain = json.loads(nyo("chain", "--finish", "--format", "json", f"examples/{name}").out)["chain"]
                sums: Counter[int] = Counter()
                for stretch in chain:
                    sums[stretch["row"]] += stretch["cost"]
                self.assertEqual([sums[row.row] for row in marks.rows], [row.on_span for row in marks.rows])

    def test_a_trace_of_calls_is_of_both_families(self) -> None:
        calls = trace("call 1 {4, call 2 {3, carry 2}}, 4")
        self.assertEqual(nyolifuwe.profile(calls, family="finish"), nyolifuwe.profile(calls, family="base"))

    def test_refusals(self) -> None:
        for text, number, at in (
            ("", 14, 0),
            (event("spawn 1") + RETURN, 6, 0),
            (event("sync") + RETURN, 6, 0),
            (line(0x13, 1), 6, 0),
            (line(0x12, 1, 1), 6, 0),
            (event("async 1") + 2 * RETURN, 11, 0),
            (sites(1) + event("async 0") + 2 * RETURN, 11, 1),
            (sites(1) + event("async 1") + RETURN, 14, 3),
            (event("finish") + event("carry 5") + 2 * RETURN, 22, 1),
            (RETURN + event("finish"), 7, 1),
            ("g" + RETURN[1:], 5, 0),
            (RETURN[1:], 2, 0),
        ):
            with self.subTest(text):
                self.assertEqual(refused(text.encode(), "finish"), (number, at))


class ThePackage(unittest.TestCase):
    """What stands whichever library there is."""

    def test_the_other_family_is_refused(self) -> None:
        for words in ("async 1 {4}", "finish {4}"):
            self.assertEqual(refused(trace(words), "base"), (6, 2))

    def test_no_such_family(self) -> None:
        for asked in (
            lambda: nyolifuwe.profile(example("case-i.trace"), family="other"),
            lambda: nyolifuwe.read_line(RETURN.encode(), family="other"),
            lambda: nyolifuwe.write_line(Frame(5, 0, 0, 0, 0), family="other"),
            lambda: nyolifuwe.compact(example("case-i.trace"), family="other"),
        ):
            self.assertRaisesRegex(ValueError, "^no such family: other$", asked)

    def test_what_takes_one_family_alone(self) -> None:
        text = example("case-i.trace")
        for name, asked in (
            ("forecast", lambda: nyolifuwe.forecast(text, [(2, 2)], family="finish")),
            ("why", lambda: nyolifuwe.why(text, 6, family="finish")),
            ("compact", lambda: nyolifuwe.compact(text, family="finish")),
            ("folded", lambda: nyolifuwe.folded(text, b"root\none\ntwo\n", family="finish")),
        ):
            self.assertRaisesRegex(ValueError, f"^{name} {ALONE}$", asked)

    def test_a_library_without_the_family(self) -> None:
        said = f"the library takes no traces of asyncs and finishes: {library.path()} has no nyo_none_marks"
        with mock.patch.dict(library.PREFIXES, {FINISHES: "nyo_none_"}):
            self.assertRaisesRegex(LibraryMissing, said, nyolifuwe.profile, case("C"), family="finish")
            self.assertEqual(nyolifuwe.profile(example("case-i.trace")).span, 9)
            self.assertEqual(nyo("-", "--finish", stdin=case("C")), Outcome(FAILED, "", f"nyo: {said}\n"))


@with_finishes
class Lines(unittest.TestCase):
    """Lines of the family, both ways."""

    def test_both_ways(self) -> None:
        for frame in (Frame(0x12, 3, 0, 0, 0), Frame(0x13, 0, 0, 0, 0), Frame(2, 3, 0, 0, 0), Frame(7, 0, 9, 0, 0)):
            text = line(*frame).encode()
            self.assertEqual(nyolifuwe.read_line(text, family="finish"), frame)
            self.assertEqual(nyolifuwe.write_line(frame, family="finish"), text)

    def test_each_family_refuses_the_others_kinds(self) -> None:
        for kind, site, family in ((3, 1, "finish"), (4, 0, "finish"), (0x12, 1, "base"), (0x13, 0, "base")):
            for asked in (
                lambda: nyolifuwe.read_line(line(kind, site).encode(), family=family),
                lambda: nyolifuwe.write_line(Frame(kind, site, 0, 0, 0), family=family),
            ):
                with self.assertRaises(Refused) as caught:
                    asked()
                self.assertEqual((caught.exception.number, caught.exception.line), (6, 0))


@with_finishes
class Commands(unittest.TestCase):
    """What the commands that take the family print, whole."""

    def test_top(self) -> None:
        for letter, screen in TOP_SCREENS.items():
            for words in (["--finish", "-"], ["top", "-", "--finish", "--by", "on-span"]):
                with self.subTest(letter, words=words):
                    self.assertEqual(nyo(*words, stdin=case(letter)), Outcome(GOOD, f"{screen}\n{NO_GAINS}", ""))

    def test_top_without_cost(self) -> None:
        found = nyo("-", "--finish", stdin=trace("finish {}", 0))
        self.assertEqual(found.out.splitlines()[-1], "There is no cost in this trace.")

    def test_top_in_another_order(self) -> None:
        found = json.loads(nyo("-", "--finish", "--by", "local", "--format", "json", stdin=case("F")).out)["rows"]
        self.assertEqual([row["row"] for row in found], [1, 0, 2])
        found = json.loads(nyo("-", "--finish", "--by", "row", "--all", "--format", "json", stdin=case("J")).out)["rows"]
        self.assertEqual([row["row"] for row in found], [0, 1, 2])

    def test_top_by_gain(self) -> None:
        said = f"nyo: --by gain: a forecast {ALONE}\n"
        self.assertEqual(nyo("-", "--finish", "--by", "gain", stdin=case("C")), Outcome(USAGE, "", said))

    def test_top_for_programs(self) -> None:
        words = ["-", "--finish", "--all", "--format"]
        found = json.loads(nyo(*words, "json", stdin=case("D")).out)
        self.assertEqual((found["span"], found["advice"]), (9, NO_GAINS[:-1]))
        columns = ["row", "name", "file", "line", "column", *library.COLUMNS, "on_span_percent"]
        self.assertEqual([list(row) for row in found["rows"]], 3 * [columns])
        self.assertEqual(read_back(nyo(*words, "csv", stdin=case("D")).out), as_text(found["rows"]))

    def test_chain(self) -> None:
        for letter, screen in CHAIN_SCREENS.items():
            with self.subTest(letter):
                self.assertEqual(nyo("chain", "--finish", "-", stdin=case(letter)), Outcome(GOOD, screen, ""))

    def test_report(self) -> None:
        whole = [f"{row:04x}" + "".join(f"{number:016x}" for number in ROWS["F"][row]) + "\n" for row in range(3)]
        self.assertEqual(nyo("report", "-", "--finish", stdin=case("F")), Outcome(GOOD, "".join(whole), ""))
        found = nyo("report", "-", "--finish", stdin=trace("sync"))
        self.assertEqual((found.status, found.out), (REFUSED, "ff0600000002\n"))

    def test_check(self) -> None:
        self.assertEqual(nyo("check", "--finish", "-", stdin=case("F")), Outcome(GOOD, "-: accepted, 13 lines, 2 sites\n", ""))

    def test_page(self) -> None:
        ran = nyo("page", "-", "-o", "-", "--finish", stdin=case("F"))
        read = Read(ran.out)
        self.assertEqual((ran.status, read.open), (GOOD, []))
        self.assertEqual([read.text_of(key) for key in ("work", "span", "parallelism")], ["13", "7", "1.86"])
        self.assertEqual(read.text_of("advice"), NO_GAINS[:-1])
        self.assertEqual(read.text_of("no-flame"), f"No flame view is drawn: it {ALONE}.")
        texts = {row: [text for _, text in cells] for row, cells in read.table().items()}
        site = ["1:1:1", "1", "8", "7", "5", "4", "57.1%"]
        self.assertEqual((list(texts), texts[1]), ([1, 2, 0], site))
        self.assertEqual((read.boxes(), [one for one in read.elements if one.tag == "b"]), ([], []))
        sorted_by = [text for one, text in zip(read.elements, read.texts) if "aria-sort" in one.attributes]
        chosen = [text for one, text in zip(read.elements, read.texts) if "selected" in one.attributes]
        self.assertEqual((sorted_by, chosen), (["on span"], ["on span"]))

    def test_diff(self) -> None:
        with tempfile.TemporaryDirectory() as folder:
            for letter in "CD":
                (Path(folder) / f"{letter}.trace").write_bytes(case(letter))
            found = nyo("diff", "--finish", f"{folder}/C.trace", f"{folder}/D.trace", "--fail-over", "50")
        screen = """\
span 7 -> 9 (+28.6%), work 10 -> 10, parallelism 1.43 -> 1.11

site  old  new  grown  of old span
root    0    2     +2       +28.6%
"""
        self.assertEqual(found, Outcome(GOOD, screen, ""))


@with_finishes
class Night(unittest.TestCase):
    """A night of the family."""

    def setUp(self) -> None:
        made = tempfile.TemporaryDirectory()
        self.addCleanup(made.cleanup)
        self.folder = Path(made.name).resolve()
        self.db = self.folder / "night.db"
        for letter in "CD":
            (self.folder / f"{letter}.trace").write_bytes(case(letter))

    def night(self, *words: str) -> Outcome:
        """The night of the folder."""
        return nyo("night", self.folder, "--db", self.db, "--workers", "1", *words)

    def verdicts(self) -> List[Tuple[str, int, int]]:
        """The family, the verdict and the span of each trace that is stored."""
        with closing(sqlite3.connect(self.db)) as connection:
            return connection.execute("SELECT family, verdict, span FROM traces ORDER BY path").fetchall()

    def test_the_tables(self) -> None:
        screen = f"""\
2 traces, 2 accepted, 0 refused
of the accepted: work 20, span 16, parallelism 1.25, 22 lines

site   traces  calls  work  span  local  on span  of span
1:2:1       2      2    14    14     14       14    87.5%
root        2      2    20    16      4        2    12.5%
1:1:1       2      2    16    14      2        0     0.0%

largest spans
span  work  lines  parallelism  trace
   9    10     12         1.11  {self.folder}/D.trace
   7    10     10         1.43  {self.folder}/C.trace

The numbers of each trace are the proved library's; sums over traces, parallelism and percents are reckoned from them.
"""
        self.assertEqual(self.night("--finish"), Outcome(GOOD, screen, ""))
        self.assertEqual(self.night("--finish"), Outcome(GOOD, screen, ""))

    def test_read_as_the_other_family_and_again(self) -> None:
        self.assertEqual(self.night().status, REFUSED)
        self.assertEqual(self.verdicts(), 2 * [("base", 6, None)])
        self.assertEqual(self.night("--finish").status, GOOD)
        self.assertEqual(self.verdicts(), [("finish", 0, 7), ("finish", 0, 9)])

    def test_both_families_in_one_night(self) -> None:
        spawns = self.folder / "spawns"
        spawns.mkdir()
        (spawns / "i.trace").write_bytes(example("case-i.trace"))
        self.assertEqual(nyo("night", spawns, "--db", self.db, "--workers", "1").status, GOOD)
        self.assertEqual(nyo("night", *self.folder.glob("*.trace"), "--db", self.db, "--finish").status, GOOD)
        self.assertEqual(self.verdicts(), [("finish", 0, 7), ("finish", 0, 9), ("base", 0, 9)])


class Hints(unittest.TestCase):
    """What is said of a trace that looks like one of the other family."""

    def said(self, at: int, text: str, to_do: str) -> str:
        """A refusal as 6 of a line's kind."""
        return f"-: refusal 6, line {at}: {SENTENCES[6]}\n  line {at}: {text}          ^^ kind\n  what to do: {to_do}\n"

    def test_asyncs_and_finishes_without_the_word(self) -> None:
        for words in ("async 1 {4}", "finish {4}"):
            said = self.said(2, event(words.split(" {")[0]), TRY_FINISH)
            self.assertEqual(nyo("check", "-", stdin=trace(words)), Outcome(REFUSED, said, ""))
            for command in ("top", "chain", "csv", "folded"):
                self.assertEqual(nyo(command, "-", stdin=trace(words)), Outcome(REFUSED, "", f"nyo: {said}"), command)

    def test_for_programs(self) -> None:
        found = json.loads(nyo("check", "-", "--format", "json", stdin=trace("finish {4}")).out)[0]
        self.assertEqual((found["number"], found["note"], found["what_to_do"]), (6, "kind", TRY_FINISH))

    def test_other_lines_have_none(self) -> None:
        for kind in (0, 8, 0x10, 0x11, 0x14, 0x21, 0x31):
            said = self.said(0, line(kind), "")
            found = nyo("check", "-", stdin=line(kind).encode())
            self.assertEqual(found.out, said.replace("  what to do: \n", what_to_do(6)))

    def test_in_a_diff(self) -> None:
        found = nyo("diff", "examples/case-i.trace", "-", stdin=trace("finish {4}"))
        self.assertEqual(found, Outcome(REFUSED, "", "nyo: " + self.said(2, line(0x13), TRY_FINISH)))

    def test_in_a_night(self) -> None:
        with tempfile.TemporaryDirectory() as folder:
            for name, text in (("a", trace("finish {4}")), ("b", line(8).encode()), ("c", trace("async 1 {4}"))):
                (Path(folder) / f"{name}.trace").write_bytes(text)
            ran = nyo("night", folder, "--db", Path(folder) / "night.db", "--workers", "1", "--format", "json")
        found = [(one["number"], one["traces"], one["sentence"]) for one in json.loads(ran.out)["refusals"]]
        self.assertEqual(found, [(6, 2, f"{SENTENCES[6]}; {TRY_FINISH}"), (6, 1, SENTENCES[6])])

    @with_finishes
    def test_spawns_and_syncs_with_the_word(self) -> None:
        for words in ("spawn 1 {4}", "sync"):
            said = self.said(2, event(words.split(" {")[0]), LEAVE_OUT)
            self.assertEqual(nyo("check", "--finish", "-", stdin=trace(words)), Outcome(REFUSED, said, ""))
            for command in ("top", "chain"):
                self.assertEqual(nyo(command, "-", "--finish", stdin=trace(words)), Outcome(REFUSED, "", f"nyo: {said}"))

    @with_finishes
    def test_the_field_of_a_line_of_the_family(self) -> None:
        for wrong, name in ((line(0x12, 1, 1), "value"), (line(0x13, 1), "site"), (line(8), "kind"), (line(6), "value")):
            found = json.loads(nyo("check", "-", "--finish", "--format", "json", stdin=wrong.encode()).out)[0]
            self.assertEqual((found["number"], found["line"], found["note"]), (6, 0, name))
            self.assertEqual(found["what_to_do"], what_to_do(6)[len("  what to do: ") : -1])


class Words(unittest.TestCase):
    """The word --finish."""

    def test_the_help(self) -> None:
        said = "--finish traces of asyncs and finishes (kinds 12 and 13), not of spawns and syncs"
        with mock.patch.dict(os.environ, COLUMNS="120"):
            helps = {name: nyo(name, "--help").out for name in NAMES}
        self.assertEqual({name for name, text in helps.items() if "--finish" not in text}, set(SPAWNS_ALONE))
        for name in set(NAMES) - set(SPAWNS_ALONE):
            self.assertIn(said, " ".join(helps[name].split()), name)

    def test_commands_that_take_one_family_alone(self) -> None:
        for name, words in SPAWNS_ALONE.items():
            found = nyo(name, *words.split(), "--finish")
            last = f"nyo {name}: error: {name} {ALONE}: see nyo top --finish"
            self.assertEqual((found.status, found.out, found.err.splitlines()[-1]), (USAGE, "", last))
            self.assertEqual(nyo(name, *words.split()).status, GOOD)


if __name__ == "__main__":
    unittest.main()
